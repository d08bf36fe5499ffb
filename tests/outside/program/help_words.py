"""The words that the program's help lists: what the manual and the completions have to agree with."""

import re


def commands(program):
    return set(re.findall(r"^  (\w+)  ", part(program, ["--help"], "Commands:"), re.M))


def formats(program):
    return set(re.findall(r"^  (\w+)  ", part(program, ["help", "map"], "FORMAT is one of"), re.M))


def options(program, words):
    """The long options in the help that these words ask for."""
    return set(re.findall(r"^ +(?:-\w, )?(--\w+)(?: <\w+>)?  ", part(program, words, "Options:"), re.M))


def statuses(program):
    return re.findall(r"^  (\d)  ", part(program, ["--help"], "Exit status"), re.M)


def part(program, words, title):
    """The lines of a help after a title, up to an empty one."""
    text = program.run(words).out.decode()
    found = re.search(r"^%s\n((?:.+\n)*)" % re.escape(title), text, re.M)
    return found[1] if found else ""
