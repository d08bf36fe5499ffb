"""The package of dmremap-tools: each folder imports those alone that its docstring draws for it, all of them above it there, so
that there is no ring."""

import ast
import glob
import os
import re

import dmremap_tools
from harness import run, text_of

PACKAGE = "dmremap_tools"
# A folder, what it is for, and which folders it imports.
DRAWN = re.compile(r"^    (\w+) {2,}[^:\n]+?(?:: ([\w ]+))?$", re.M)


def test_folders(tally, top):
    package = os.path.join(top, "tools", PACKAGE)
    drawing = dmremap_tools.__doc__.partition("How to add a command")[0]
    drawn = [(name, set(imports.split())) for name, imports in DRAWN.findall(drawing)]
    folders = [os.path.basename(os.path.dirname(it)) for it in glob.glob(os.path.join(package, "*", "__init__.py"))]
    tally.holds("the folders that are drawn", {name for name, _ in drawn} == set(folders), "there are %s" % ", ".join(sorted(folders)))
    for place, (name, imports) in enumerate(drawn):
        imported = imported_by(os.path.join(package, name), folders)
        tally.holds("what %s imports" % name, imported == imports, "it is %s" % ", ".join(sorted(imported)))
        below = imports - {above for above, _ in drawn[:place]}
        tally.holds("the order of %s" % name, not below, "it imports what isn't drawn above it: %s" % ", ".join(sorted(below)))


def imported_by(folder, folders):
    """The other folders of the package from which the modules of one import something, wherever in a module they do."""
    found = set()
    for path in glob.glob(os.path.join(folder, "*.py")):
        tree = ast.parse(text_of(path))
        for node in ast.walk(tree):
            if isinstance(node, ast.Import):
                modules = [it.name for it in node.names]
            elif isinstance(node, ast.ImportFrom):
                modules = ["%s.%s" % (node.module, it.name) for it in node.names]
            else:
                continue
            found |= {it.split(".")[1] for it in modules if it.startswith(PACKAGE + ".")}
    return found & set(folders) - {os.path.basename(folder)}


def test_columns(tally, top):
    got = [run([os.path.join(top, "dmremap-tools"), "owner", "--help"], env=dict(os.environ, COLUMNS=str(columns))) for columns in (80, 200)]
    tally.same("the help on a wide terminal", got[1], 0, got[0].out)
