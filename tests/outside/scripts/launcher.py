"""The script ./dmremap: from any folder, through links, with any words. It runs the program that is made of exactly the
sources that are there, and no other one, whatever the times of files say."""

import contextlib
import os
import shutil
import signal
import subprocess
import time

from harness import Case, run, text_of
from trees import ANSWER, BUILD, BUILDING, ECHO, LOGIC, REQUESTS, TOOLCHAIN, TOOLS, Tree, becomes, told

# A change of any of these means that the program is built anew.
SOURCES = ["crates/low/src/text", "crates/middle/proofs/text", "crates/dmremap/specs/text", "HANDLES"]
# Parts of a path that a shell could take for something else.
ODD = ["a & b", "a&", "with\nnewlines\n", "back\\slash\\", "-x", "%s", "*", "$HOME", "'"]
CALLS = ["low lib", "middle lib", "dmremap run -- --help"]
NEVER = "dmremap: no proved program is built of these sources: run tools/building/build first\n"


def test_version(tally, top):
    """The documents have the logic of the toolchain that a file says, which the build compares."""
    logic = text_of(os.path.join(top, TOOLCHAIN)).strip()
    for name in ("README.md", os.path.join("docs", "PROMISES.md")):
        with open(os.path.join(top, name), encoding="utf-8") as it:
            tally.holds("the logic of the toolchain in " + name, "%s`" % logic in it.read(), "there is no " + logic)


def path_without(tree, *left_out):
    """A folder with the tools that the scripts call, and nothing else."""
    few = os.path.join(tree.folder, "few" + "".join(left_out))
    os.makedirs(few, exist_ok=True)
    for it in {*TOOLS, "python3"} - {*left_out}:
        if not os.path.lexists(os.path.join(few, it)):
            os.symlink(os.path.realpath(shutil.which(it)), os.path.join(few, it))
    return few


def test_own(tally, tree, top, is_own):
    """The repository's own ./dmremap finds the program that these tests run, and that it is made of what is there. It has
    no means to build another."""
    if not is_own:
        return
    env = dict(os.environ, PATH=path_without(tree, "python3"))
    got = run([os.path.join(top, "dmremap"), *tree.words()], env=env, given=REQUESTS)
    tally.same("the repository's own ./dmremap, which ./check or a build leaves", got, 0, ANSWER)


def test_words(tally, tree):
    tally.same("./build", tree.put(ECHO), 0, "", BUILDING + told())
    for words in (["two words", "", "  ", "*", "$HOME", "a\\b", "--", "-x", "--run"], []):
        tally.same("./dmremap with the words %r" % words, tree.run(words), 3, "\n".join(words) + "\n")
    os.remove(tree.built)
    words = ["two words", "", "*", "--run", "--by", b"\xff"]
    shown = b"\n".join(it if isinstance(it, bytes) else it.encode() for it in words) + b"\n"
    tally.same("./dmremap with words, where it builds", tree.run(words), 3, shown, BUILDING + told())


def test_places(tally, tree):
    tree.put()
    parent, words = tree.folder, tree.words()
    link, chain, folder = (os.path.join(parent, it) for it in ("a link", "a link to the link", "a linked tree"))
    os.symlink("a tree/dmremap", link)
    os.symlink(link, chain)
    os.symlink(tree.top, folder)
    rows = [
        ("by its whole path", tree.script, "/"),
        ("from its folder", "./dmremap", tree.top),
        ("from another folder", "../a tree/dmremap", os.path.join(parent, "bin")),
        ("through a link", link, "/"),
        ("through a link to a link", chain, "/"),
        ("through a link to its folder", folder + "/dmremap", "/"),
        ("through a link beside", "./a link", parent),
    ]
    for name, script, at in rows:
        tally.same("./dmremap " + name, tree.run(words, script, given=REQUESTS, folder=at), 0, ANSWER)
    tally.holds("./dmremap builds nothing that is there", not tree.called(), "rt was called: %s" % tree.called())
    for shell in ["sh"], ["bash"], ["bash", "--posix"]:
        got = tree.run([*shell[1:], "dmremap", *words], shell[0], given=REQUESTS, folder=tree.top)
        tally.same("./dmremap as a script of %s" % " ".join(shell), got, 0, ANSWER)
    got = tree.run(["map", "table", "the table", "the disks"], given=REQUESTS, folder=parent)
    tally.same("./dmremap with paths from where it is called", got, 0, ANSWER)
    got = tree.run(words, given=REQUESTS + "R b 0 1\n")
    tally.same("./dmremap gives the program's status", got, 3, ANSWER, "dmremap: request 2: unknown\n")
    got = tree.run(words, before=lambda: os.close(0))
    tally.same("./dmremap with a closed standard input", got, 4, "", "dmremap: requests: read\n")
    got = tree.run(words, before=lambda: os.close(1), given=REQUESTS)
    tally.same("./dmremap with a closed standard output", got, 5, "", "dmremap: output: write\n")
    got = tree.run(["--help"], before=lambda: os.close(0))
    tally.tells("./dmremap --help with a closed standard input", got, err="")
    got = tree.run(words, "./dmremap", variables={"CDPATH": parent}, given=REQUESTS, folder=tree.top)
    tally.same("./dmremap under CDPATH", got, 0, ANSWER)


def test_odd_places(tally, program, top):
    """Where a path has what a shell may read otherwise, the program is still the one of the sources."""
    for odd in ODD:
        tree = Tree(program, top, os.path.join("odd", odd))
        words, at = tree.words(), os.path.dirname(tree.top)
        link = os.path.join(at, "linked")
        os.symlink(os.path.join(odd, "dmremap"), link)
        for name, said in ("where nothing is built", BUILDING + told()), ("after a change", BUILDING + told()), ("after that", ""):
            tally.same("./dmremap in %r %s" % (odd, name), tree.run(words, given=REQUESTS), 0, ANSWER, said)
            if name == "where nothing is built":
                tree.write(SOURCES[0], "another text\n")
        for name, script in ("from above", os.path.join(".", odd, "dmremap")), ("through a link", link):
            got = tree.run(words, script, given=REQUESTS, folder=at)
            tally.same("./dmremap in %r %s" % (odd, name), got, 0, ANSWER)
        os.remove(link)


def test_own_path(tally, program, top):
    """A path to the program that is no UTF-8, or in other letters, by each way to it."""
    parent = os.path.join(program.folder, os.fsdecode(b"a path \xff"))
    tree = Tree(program, top, "own")
    for name in "t", "a:t", "\u00e9":
        at = shutil.copytree(tree.top, os.path.join(parent, name))
        for how, said in ("that builds", BUILDING + told()), ("that is built", ""):
            tally.same("./dmremap %s in %r" % (how, name), tree.run(["splitname", "a-b"], os.path.join(at, "dmremap")), 0, "a b\n", said)
    copy = shutil.copy(program.path, os.path.join(parent, "dmremap"))
    listed = program.file("own/paths", "a %s\n" % program.file("own/a", bytes(4096)))
    stack = ["table", program.file("own/table", "v: 0 8 linear a 0\n"), program.file("own/disks", "a 8\n")]
    words = ["save", "--program", copy, "--paths", listed, "v", os.path.join(program.folder, "own", "out"), *stack]
    tally.same("the tools over such a program", run([os.path.join(top, "dmremap-tools"), *words]))


def test_interrupts(tally, tree):
    """An interrupt while the scripts are loaded, before they can end a build, ends them in silence."""
    path = tree.path("tools/building/calls.py")
    kept = text_of(path)
    begun = os.path.join(tree.folder, "begun")
    tree.write("tools/building/calls.py", "import time\nopen(%r, 'w').close()\ntime.sleep(30)\n%s" % (begun, kept))
    for script in tree.script, tree.build:
        tree.remove()
        ran = subprocess.Popen([script, "--run"], env=tree.environment(), stdout=subprocess.PIPE, stderr=subprocess.PIPE, start_new_session=True)
        has_begun = becomes(lambda: os.path.exists(begun))
        os.killpg(ran.pid, signal.SIGINT)
        out, err = ran.communicate(timeout=30)
        is_so = has_begun and ran.returncode in (130, -signal.SIGINT) and not out and not err
        tally.holds("an interrupt of %s while it is loaded" % os.path.basename(script), is_so, "%s, %r" % (ran.returncode, err))
        os.remove(begun)
    tree.write("tools/building/calls.py", kept)


def test_changes(tally, tree):
    """A change of anything that the program is made of, and nothing else, makes it anew."""
    words = tree.words()
    tree.remove()
    tally.same("./dmremap where nothing is built", tree.run(words, given=REQUESTS), 0, ANSWER, BUILDING + told())
    tally.holds("./dmremap builds crate by crate", tree.called() == CALLS, "rt was called: %s" % tree.called())
    tally.same("./dmremap once it is built", tree.run(words, given=REQUESTS), 0, ANSWER)
    more, moved = (os.path.join("crates", "low", "src", it) for it in ("more", "moved"))
    changes = [("a change of " + it, lambda it=it: tree.write(it, "another text\n")) for it in SOURCES] + [
        ("a change of crates.txt", lambda: tree.write("crates.txt", "low:\nmiddle: low\ndmremap: low middle\nbeside: low\n")),
        ("a new source", lambda: tree.write(more, "")),
        ("a source got another name", lambda: os.rename(tree.path(more), tree.path(moved))),
        ("a source was removed", lambda: os.remove(tree.path(moved))),
        ("the program was changed", lambda: shutil.copy("/bin/sh", tree.built)),
        ("the program was removed", lambda: os.remove(tree.built)),
        ("the program's object file was removed", lambda: os.remove(tree.built + ".o")),
    ]
    for name, change in changes:
        change()
        tally.same("./dmremap after " + name, tree.run(words, given=REQUESTS), 0, ANSWER, BUILDING + told())
        tally.same("./dmremap once that is built, after " + name, tree.run(words, given=REQUESTS), 0, ANSWER)
    tree.write("crates/beside/src/text", "another text\n")
    got = tree.run(words, given=REQUESTS)
    tally.same("./dmremap after a change of a crate that the program doesn't stand on", got, 0, ANSWER)


def test_never(tally, tree):
    """Where nothing may be built, a call without a program is refused at once; one with a program is answered."""
    tree.remove()
    got = tree.run(["--version"], variables={"DMREMAP_BUILD": "never"})
    tally.same("./dmremap that may not build", got, 70, "", NEVER)
    tally.holds("./dmremap that may not build calls no rt", not tree.called(), "it does: %s" % tree.called())
    folder = os.path.join(tree.folder, "as PYTHON shows")
    shutil.copytree(os.path.join(tree.repository, "examples"), os.path.join(folder, "examples"))
    env = dict(tree.other_environment(), PATH=tree.top + os.pathsep + tree.other_environment()["PATH"])
    got = run(["python3", "examples/ask.py"], folder=folder, env=env)
    tally.tells("examples/ask.py where nothing is built", got, 1, "", "RuntimeError: status 70, " + NEVER)
    tree.put()
    got = tree.run(tree.words(), variables={"DMREMAP_BUILD": "never"}, given=REQUESTS)
    tally.same("./dmremap that may not build, once it is built", got, 0, ANSWER)


def test_times(tally, tree):
    """Times alone change nothing, and hide nothing."""
    words, source = tree.words(), tree.path(SOURCES[0])
    tree.put()

    def replace(text):
        """Gives a source another text of that length, with the times of before."""
        was = os.stat(source)
        with open(source, "r+", encoding="utf-8") as it:
            it.write(text)
        os.utime(source, ns=(was.st_atime_ns, was.st_mtime_ns))

    def unpack():
        """Puts a source into the place of one, as of another release that is older than the program."""
        os.utime(tree.write(SOURCES[0] + ".new", "text of a later release\n"), (1, 1))
        os.replace(source + ".new", source)

    for name, change in (("other text of the same length and times", lambda: replace("SRC")), ("an older source", unpack)):
        for is_seen in (False, True):
            if is_seen:
                # What stat says is kept where all has stood for two seconds.
                is_kept = lambda: tree.run(words, given=REQUESTS).out and os.path.exists(tree.path("out/seen"))
                tally.holds("what ./dmremap has seen is kept", becomes(is_kept), "it isn't")
            change()
            got = tree.run(words, given=REQUESTS)
            tally.same("./dmremap after %s, %s" % (name, is_seen), got, 0, ANSWER, BUILDING + told())
            tree.write(SOURCES[0], "and back\n")
            tree.run([], tree.build)
    check_settled(tally, tree)
    check_linked(tally, tree, source)
    check_loose(tally, tree)
    check_late(tally, tree)
    for name, path, times in (("every source is newer", "crates", None), ("the program is older", tree.built, (1, 1))):
        for at, _, files in [*os.walk(tree.path(path)), (os.path.dirname(tree.path(path)), (), [os.path.basename(path)])]:
            for it in files:
                os.utime(os.path.join(at, it), times)
        tally.same("./dmremap where %s, with the same sums" % name, tree.run(words, given=REQUESTS), 0, ANSWER)
    copied = os.path.join(tree.folder, "a copy of the tree")
    shutil.copytree(tree.top, copied)
    tally.same("./dmremap in a copy", tree.run(words, os.path.join(copied, "dmremap"), given=REQUESTS), 0, ANSWER)
    with open(os.path.join(copied, SOURCES[0]), "a", encoding="utf-8") as it:
        it.write("more\n")
    got = tree.run(words, os.path.join(copied, "dmremap"), given=REQUESTS)
    tally.same("./dmremap in a copy, after a change", got, 0, ANSWER, BUILDING + told())


def check_settled(tally, tree):
    """What stat says is kept where nothing has changed within the last two seconds, and not before, by a clock that is set."""
    words, clock = tree.words(), os.path.join(tree.folder, "clock")
    tree.put()
    changed = int(max(os.stat(it).st_ctime for it in (tree.built, tree.built + ".o")))
    path = os.pathsep.join([clock, tree.environment()["PATH"]])
    for after, is_kept in (0, False), (1, False), (3, True):
        os.chmod(tree.program.file(os.path.join(clock, "date"), "#!/bin/sh\necho %d\n" % (changed + after)), 0o755)
        got = tree.run(words, variables={"PATH": path}, given=REQUESTS)
        is_right = got.out == ANSWER.encode() and os.path.exists(tree.path("out/seen")) == is_kept
        tally.holds("what ./dmremap has seen %d seconds after a change" % after, is_right, "%s, %r" % (got.status, got.err))


def check_linked(tally, tree, source):
    """A source may be a link, and so may a folder of sources: what it leads to is looked at."""
    words, seen = tree.words(), tree.path("out/seen")
    aside = os.path.join(tree.folder, "aside")
    folder = tree.path("crates/low/proofs/more")
    tree.write(os.path.join(folder, "text"), "more\n")
    for linked, changed in (source, aside), (folder, os.path.join(aside, "text")):
        shutil.move(linked, aside)
        os.symlink(aside, linked)
        tree.run([], tree.build)
        with contextlib.suppress(FileNotFoundError):
            os.remove(seen)
        is_kept = lambda: tree.run(words, given=REQUESTS).out and os.path.exists(seen)
        tally.holds("what ./dmremap has seen of a link is kept", becomes(is_kept), "it isn't")
        with open(changed, "a", encoding="utf-8") as it:
            it.write("more\n")
        got = tree.run(words, given=REQUESTS)
        tally.same("./dmremap after a change of what a link leads to", got, 0, ANSWER, BUILDING + told())
        os.remove(linked)
        shutil.move(aside, linked)
    shutil.rmtree(folder)
    tree.run([], tree.build)


def check_loose(tally, tree):
    """A link that leads nowhere is no source, until it leads somewhere."""
    words = tree.words()
    link, later = tree.path("crates/low/src/.#text"), os.path.join(tree.folder, "later")
    for leads_to in "somebody@a-machine.1:2", later:
        os.symlink(leads_to, link)
        name = "a link to " + os.path.basename(leads_to)
        tally.same("./dmremap beside " + name, tree.run(words, given=REQUESTS), 0, ANSWER)
        tree.remove()
        tally.same("./dmremap where it builds beside " + name, tree.run(words, given=REQUESTS), 0, ANSWER, BUILDING + told())
        if leads_to == later:
            settle(tree)
            tally.same("./dmremap after that, beside " + name, tree.run(words, given=REQUESTS), 0, ANSWER)
            tree.program.file("later", "more\n")
            got = tree.run(words, given=REQUESTS)
            tally.same("./dmremap once there is what it leads to", got, 0, ANSWER, BUILDING + told())
        os.remove(link)
        tree.run([], tree.build)


def check_late(tally, tree):
    """A crate gets a folder of sources that it didn't have when the program was built."""
    for part in "specs", "proofs":
        folder, words = tree.path("crates/low/" + part), tree.words()
        shutil.rmtree(folder)
        tree.run([], tree.build)
        settle(tree)
        is_kept = tree.run(words, given=REQUESTS).out == ANSWER.encode() and os.path.exists(tree.path("out/seen"))
        tally.holds("what ./dmremap has seen of a crate without " + part, is_kept, "it isn't kept")
        tree.write(os.path.join(folder, "text"), "%s of low\n" % part)
        got = tree.run(words, given=REQUESTS)
        tally.same("./dmremap once a crate has %s, too" % part, got, 0, ANSWER, BUILDING + told())


def settle(tree):
    """Waits until a change is so long ago that what stat says could be kept."""
    last = max(os.stat(it).st_ctime for it in (tree.built, tree.built + ".o", tree.path("crates/low/src")))
    time.sleep(max(0, last + 3.1 - time.time()))


def test_kept(tally, tree):
    """Where what is kept of the build is gone, or cut short, as by a kill, the program is built anew."""
    words = tree.words()
    tree.put()
    tree.run(words, given=REQUESTS)
    for name in ("names", "sums", "seen"):
        path = tree.path(os.path.join("out", name))
        for how in ("gone", "empty", "cut short"):
            if name == "seen":
                tally.holds("what was seen", becomes(lambda: tree.run(words).status == 0 and os.path.exists(path)), "isn't kept")
            if how == "gone":
                os.remove(path)
            else:
                os.truncate(path, os.path.getsize(path) // 2 if how == "cut short" else 0)
            got = tree.run(words, given=REQUESTS)
            tally.same("./dmremap where out/%s is %s" % (name, how), got, 0, ANSWER, "" if name == "seen" else BUILDING + told())
    shutil.rmtree(tree.path("out"))
    tally.same("./dmremap where out is gone", tree.run(words, given=REQUESTS), 0, ANSWER, BUILDING + told())


def test_lacking(tally, tree):
    """Where rt or python3 is missing, another version of either is there, or the program can't be run."""
    tree.put()
    got = tree.run(tree.words(), given=REQUESTS, variables={"PATH": path_without(tree, "python3")})
    tally.same("./dmremap once it is built, without python3", got, 0, ANSWER)
    tree.remove()
    got = tree.run(["--version"], variables={"PATH": path_without(tree, "python3")})
    tally.same("./dmremap without python3", got, 70, "", "dmremap: tools/building/build makes the program, and there is no python3 on the path that runs\n")
    broken = path_without(tree, "python3", "rt")
    for name, text in ("fails", "#!/bin/sh\nexit 1\n"), ("can't be run", "#!/no/such/interpreter\n"):
        os.chmod(tree.program.file(os.path.join(broken, "python3"), text), 0o755)
        got = tree.run(["--version"], variables={"PATH": broken})
        tally.same("./dmremap with a python3 that " + name, got, 70, "", "dmremap: tools/building/build makes the program, and there is no python3 on the path that runs\n")
    for name in BUILD, "try":
        for few in path_without(tree, "python3"), broken:
            got = tree.run([], tree.path(name), variables={"PATH": few})
            said = "dmremap: %s takes Python, and there is no python3 on the path that runs\n" % (name if name == BUILD else "./try")
            tally.same("./%s without a python3 that runs" % name, got, 70, "", said)
    got = tree.run(["--help"], tree.build, variables={"PYTHONHOME": "/no/such/folder"})
    tally.same("./build where Python is sent elsewhere", got, 2, "", "usage: tools/building/build [--run WORD.. | --by COMMAND..]\n")
    got = tree.run(["--version"], variables={"PATH": path_without(tree)})
    tally.same("./dmremap without rt", got, 70, "", "dmremap: the program is built by the Rattle toolchain"
               " (of %s), and there is no rt on the path\n" % LOGIC)
    old = "import runpy, sys\nsys.version_info = (3, 7)\nsys.version = '3.7.3 (default)'\nrunpy.run_path(sys.argv[1])"
    got = tree.run(["-c", old, tree.build], "python3")
    tally.same("./build by an older Python", got, 70, "", "dmremap: the scripts take Python 3.8 or later, and this is 3.7.3\n")
    got = tree.run(["splitname", "a-b"], variables={"VERSION": "another", "BROKEN": "low"})
    tally.same("./dmremap with another version of rt", got, 70, "",
               "dmremap: warning: rt version prints another, and the program is proved with %s\n" % LOGIC + BUILDING
               + "rt: this is low\ndmremap: the build of low failed\n")
    got = tree.run(["splitname", "a-b"], variables={"VERSION": "another kit " + LOGIC, "BROKEN": "low"})
    tally.same("./dmremap with another rt of the same logic", got, 70, "", BUILDING + "rt: this is low\ndmremap: the build of low failed\n")
    tree.put("#!/no/such/interpreter\n")
    for shell in ["sh"], ["bash"], ["bash", "--posix"]:
        got = tree.run([*shell[1:], tree.script, "--version"], shell[0])
        is_told = got.status == 70 and got.out == b"" and got.err.endswith(b"dmremap: %s can't be run\n" % os.fsencode(tree.built))
        tally.holds("./dmremap by %s, whose program can't be run" % " ".join(shell), is_told, "%s, %r" % (got.status, got.err))


class Launcher(Case):
    """Calls of the script in small trees."""

    @classmethod
    def setUpClass(cls):
        cls.tree = Tree(cls.program, cls.top)
