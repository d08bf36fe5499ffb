"""The completions of bash and zsh: they offer the words that help lists, and files where files are meant. And
what a tabulator makes of a line that is typed, in the shells themselves."""

import os
import pty
import select
import shutil
import signal
import time

import help_words
from harness import SECONDS, run, text_of

# What a shell runs to print, one on each line, what is offered for the last of the words after the script.
# Without a terminal zsh completes nothing, so the calls that offer words print them.
BASH = """
source "$1" || exit
shift
COMP_WORDS=("$@") COMP_CWORD=$(($# - 1))
"_${1//-/_}"
printf '%s\\n' "${COMPREPLY[@]}"
"""
ZSH = """
_describe() { print -l -- ${${(P)@[-1]}%%:*} }
_wanted() { $4 }
_files() { print -l -- $words[CURRENT]*(N) }
complete() {
    local script=$1
    shift
    local -a words=("$@")
    local CURRENT=$#
    source $script
}
complete "$@" || true
"""
SHELLS = [("bash", ["bash", "--norc", "-c", BASH, "bash"], "%s.bash"), ("zsh", ["zsh", "-f", "-c", ZSH, "zsh"], "_%s")]
# What a shell reads before the line that is typed: in place of the program a function that tells the words that
# it gets, and what its standard input holds if that is a file.
TOLD = """
dmremap() {
    local it
    for it in "$@"; do printf '[%%s]' "$it"; done >> told
    [ -t 0 ] || { printf '<'; cat; printf '>'; } >> told
    mv told done
}
%s
"""
TYPED = [
    ("bash", ["bash", "--rcfile", "rc", "-i"], "rc", "source '%s/dmremap.bash'"),
    ("zsh", ["zsh", "-i"], ".zshrc", "fpath=('%s' $fpath); autoload -U compinit; compinit -u -D"),
]
LINES = [
    ("dmremap ma\t", "[map]"),
    ("dmremap map tab\t", "[map][table]"),
    ("dmremap map table stack.t\t", "[map][table][stack.table]"),
    ("dmremap map table oth\t", "[map][table][other file]"),
    ("dmremap map table stack.table stack.d\t", "[map][table][stack.table][stack.disks]"),
    ("dmremap map table -- stack.table stack.d\t--status", "[map][table][--][stack.table][stack.disks][--status]"),
    ("dmremap map lvm stack.table stack.d\t", "[map][lvm][stack.table][stack.d]"),
    ("dmremap map lvm stack.table --before oth\t", "[map][lvm][stack.table][--before][other file]"),
    ("dmremap map lvm stack.table --before=oth\t", "[map][lvm][stack.table][--before=other file]"),
    ("dmremap map table stack.table stack.disks < oth\t", "[map][table][stack.table][stack.disks]<what it holds>"),
    ("dmremap map table stack.table stack.disks <oth\t", "[map][table][stack.table][stack.disks]<what it holds>"),
    ("dmremap < oth\tmap tab\tstack.t\t", "[map][table][stack.table]<what it holds>"),
    ("dmremap map 2> stack.errors tab\tstack.t\t", "[map][table][stack.table]"),
    ("dmremap map table stack.t\t2>stack.e\t", "[map][table][stack.table]"),
]
# The program takes it, whether help lists it or not.
VERSION = "--version"
# Commands without a format.
OTHERS = ["name", "splitname", "help"]


def test_typed(tally, program, top):
    for shell, words, start, script in TYPED:
        if shutil.which(shell) is None:
            tally.skip("what is typed in " + shell, "it isn't there")
            continue
        folder = os.path.join(program.folder, "typed", shell)
        for name, content in [(start, TOLD % (script % os.path.join(top, "tools", "packaging", "completions"))), ("stack.table", ""),
                              ("stack.disks", ""), ("stack.errors", ""), ("other file", "what it holds")]:
            program.file(os.path.join(folder, name), content)
        told = typed(words, [line for line, _ in LINES], folder)
        for (line, wanted), got in zip(LINES, told):
            tally.holds("typed in %s: %r" % (shell, line), got == wanted, "it is %s" % got)


def typed(words, lines, folder):
    """The words that the command gets, for each of some lines that are typed in a shell at a terminal."""
    env = dict(os.environ, HOME=folder, ZDOTDIR=folder, INPUTRC="/dev/null", TERM="dumb", LC_ALL="C")
    shell, terminal = pty.fork()
    if shell == 0:
        os.chdir(folder)
        os.execvpe(words[0], words, env)
    told = []
    for line in lines:
        os.write(terminal, (line + "\r").encode())
        told.append(said_in(os.path.join(folder, "done"), terminal))
    os.kill(shell, signal.SIGKILL)
    os.waitpid(shell, 0)
    os.close(terminal)
    return told


def said_in(path, terminal):
    """What a file says, once it is there, or why it is not. A shell goes on only while somebody reads what it shows."""
    end = time.monotonic() + SECONDS
    while not os.path.exists(path):
        if time.monotonic() > end:
            return "nothing after %d seconds" % SECONDS
        if select.select([terminal], [], [], 0.01)[0]:
            try:
                os.read(terminal, 65536)
            except OSError:
                return "nothing, as the shell has ended"
    said = text_of(path)
    os.unlink(path)
    return said


def test_offered(tally, program, top):
    folder = os.path.join(program.folder, "completed")
    for name in ("stack.table", "stack.disks", "other file"):
        program.file(os.path.join("completed", name))
    check_rows(tally, top, folder, "dmremap", rows_of(program))


def check_rows(tally, top, folder, name, rows, left_out=()):
    """Whether each shell offers, after some words of a command, those that are wanted, but for some. A shell may leave it to itself to
    take those that fit the last word."""
    for shell, words, script in SHELLS:
        if shutil.which(shell) is None:
            tally.skip("the completions of " + shell, "it isn't there")
            continue
        for given, wanted in rows:
            script_path = os.path.join(top, "tools", "packaging", "completions", script % name)
            got = run([*words, script_path, name, *given], folder=folder)
            offered, fitting = ({it for it in found if it.startswith(given[-1])}.difference(left_out, {""})
                                for found in (got.out.decode().split("\n"), wanted))
            is_so = got.status == 0 and got.err == b"" and offered == fitting
            tally.holds("what %s offers after %s" % (shell, given), is_so, "status %s, %r, and it offers %s, not %s" % (got.status, got.err, offered, fitting))


def rows_of(program):
    """The words before and at the place of a completion, and what is offered there, by help."""
    commands, formats = help_words.commands(program), help_words.formats(program)
    files = {"stack.table", "stack.disks", "other file"}
    rows = [
        ([""], commands),
        (["s"], commands),
        (["-"], help_words.options(program, ["--help"]) | {VERSION}),
        (["map", "table", "stack.table", "stack.disks", "--paths", "s"], files),
        (["map", "--before", ""], files),
        (["map", "--paths", ""], files),
        (["map", "table", "--before", "stack.requests", ""], files),
        (["map", "table", "stack.table", "stack.disks", "--before", "s"], files),
        (["help", ""], commands),
        (["help", "map", ""], set()),
    ]
    for command in sorted(commands - {"help"}):
        rows.append(([command, "-"], help_words.options(program, ["help", command])))
    for command in sorted(commands - set(OTHERS)):
        taken = {"images"} if command == "metadata" else formats
        rows.append(([command, ""], taken))
        for form in sorted(taken):
            rows.append(([command, form, ""], files))
            rows.append(([command, form, "stack.table", ""], set() if form in ("lvm", "images") else files))
            rows.append(([command, form, "stack.table", "stack.disks", ""], set()))
    rows += [
        (["name", ""], set()),
        (["splitname", ""], set()),
        (["map", "t"], formats),
        (["map", "table", "stack.t"], files),
        (["map", "--status", "table", "o"], files),
        (["map", "table", "--", "stack.table", ""], files),
        (["map", "table", "--", "-"], set()),
    ]
    return rows
