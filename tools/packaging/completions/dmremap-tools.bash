# Completes the words of dmremap-tools in bash. Made by tools/derive: don't edit. To try it:
# `source tools/packaging/completions/dmremap-tools.bash`. To keep it, copy it to
# ~/.local/share/bash-completion/completions/dmremap-tools.

_dmremap_tools() {
    local word=${COMP_WORDS[COMP_CWORD]} offered=""
    if [ "$COMP_CWORD" -eq 1 ]; then
        offered="scan save serve lost owner tables filefrag trace machine metadata lvm2-text report layout store explain --help"
    elif [[ $word == -* ]]; then
        case ${COMP_WORDS[1]} in
            scan) offered="--help --json --program" ;;
            save) offered="--help --map --map-of-other-length --resume --allow-missing --program --paths --fresh" ;;
            serve) offered="--help --map --map-of-other-length --socket --program" ;;
            lost) offered="--help --map --map-of-other-length --saved --program" ;;
            owner) offered="--help --map --map-of-other-length --sector-size --opened --files --program" ;;
            tables) offered="--help --map --map-of-other-length --to --program" ;;
            filefrag) offered="--help" ;;
            trace) offered="--help --write-times --lower --cut --bytes" ;;
            machine) offered="--help --disks --store --program" ;;
            metadata) offered="--help --list --at" ;;
            lvm2-text) offered="--help --program" ;;
            report) offered="--help --compare" ;;
            layout) offered="--help --free --clashes --tree --dot --device --program --paths --fresh" ;;
            store) offered="--help --requests --program --paths --fresh" ;;
            explain) offered="--help --program" ;;
        esac
    fi
    mapfile -t COMPREPLY < <(compgen -W "$offered" -- "$word")
}

# Where nothing is offered, files are.
complete -o default -F _dmremap_tools dmremap-tools
