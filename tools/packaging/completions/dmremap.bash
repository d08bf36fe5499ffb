# Completes the words of dmremap in bash. To try it: `source tools/packaging/completions/dmremap.bash`. To keep it, copy
# it to ~/.local/share/bash-completion/completions/dmremap.

_dmremap() {
    local commands="map table concise check replay read metadata name splitname help" formats="lvm concise table images"
    local word=${COMP_WORDS[COMP_CWORD]} offered="" files=false it
    # The words before this one that are no options, whether options may still follow, and whether the next word
    # is the value of one.
    local given=() options=true redirected=false valued=false number=false
    for it in "${COMP_WORDS[@]:1:COMP_CWORD-1}"; do
        if $redirected; then
            redirected=false
        elif $valued; then
            # The shell takes the sign as a word of its own.
            [[ $it == = ]] || valued=false
        elif [[ $it == [\<\>]* ]]; then
            # Neither the file after it is one of the command's words, nor a number in front of it.
            redirected=true
            [[ ${#given[@]} -eq 0 || ${given[${#given[@]} - 1]} != [0-9] ]] || unset "given[${#given[@]} - 1]"
        elif [[ $it == -- ]]; then
            options=false
        elif [[ $it == --before || $it == --paths || $it == --from || $it == --count ]] && $options; then
            valued=true number=false
            [[ $it != --from && $it != --count ]] || number=true
        elif [[ $it != -* ]] || ! $options; then
            given+=("$it")
        fi
    done
    if [[ $word == [\<\>]* ]]; then
        redirected=true
        word=${word##*[\<\>\&\|]}
    fi
    if $valued && [[ $word == = ]]; then
        word=""
    fi
    if $redirected || $valued; then
        ! $redirected && $number || files=true
    elif $options && [[ $word == -* ]]; then
        case ${given[0]-} in
            "") offered="--version --help" ;;
            map) offered="--status --before --paths --help" ;;
            replay) offered="--paths --help" ;;
            read) offered="--from --count --paths --help" ;;
            help) ;;
            *) offered="--help" ;;
        esac
    else
        case ${given[0]-}/${#given[@]}/${given[1]-} in
            /0/ | help/1/) offered=$commands ;;
            name/* | splitname/* | help/*) ;;
            metadata/1/) offered=images ;;
            */1/) offered=$formats ;;
            */2/* | */3/concise | */3/table) files=true ;;
        esac
    fi
    if $files; then
        compopt -o filenames 2> /dev/null
        mapfile -t COMPREPLY < <(compgen -f -- "$word")
    else
        mapfile -t COMPREPLY < <(compgen -W "$offered" -- "$word")
    fi
}

complete -F _dmremap dmremap
