"""The script tools/building/build: what it says, that one call builds at a time, and that nothing of a build is lost or left behind,
however it ends. Whatever fails that isn't the program's own has the status 70 and a message."""

import contextlib
import os
import resource
import shutil
import signal
import tempfile
import time

from harness import FULL_OUTPUT, Case, Outcome, become_nobody, run, text_of
from trees import ANEW, BUILD, BUILDING, CRATES, HELD_RT, RT, SLOW_RT, TOOLCHAIN, WAITING, Tree, becomes, runs, told, without_times

# How often the script tells how far it is.
OFTEN = ("WATCHED, AWAY = 5, 60", "WATCHED, AWAY = 1, 1")
# A build that was timed: once all functions were checked, it took five minutes more.
PACE = """\
low 7 0 0 0 0 0 0 0 0 0 0 0 0
middle 7 0 0 0 0 0 0 0 0 0 0 0 0
dmremap 6 0 0 0 0 0 0 0 0 0 0 0 300
"""
SOURCE = "crates/low/src/text"
USAGE = "usage: tools/building/build [--run WORD.. | --by COMMAND..]\n"


def test_calls(tally, tree):
    tally.same("./build", tree.run([], tree.build), 0, "", BUILDING + told())
    tally.same("./build once it is built", tree.run([], tree.build), 0)
    for words in (["--help"], ["more"], ["--by"]):
        tally.same("./build %s" % words, tree.run(words, tree.build), 2, "", USAGE)
    tree.remove()
    got = tree.run(["splitname", "a-b"], before=lambda: os.sched_setaffinity(0, [min(os.sched_getaffinity(0))]))
    calls = text_of(tree.calls)
    tally.holds("./dmremap on one processor", got.status == 0 and calls.count("--jobs 1") == 3, "rt was called: %s" % calls)
    tree.rt(RT.replace("$name $*", "$name $(nice)"))
    tree.remove()
    os.remove(tree.calls)
    tree.run([], tree.build)
    others = min(19, os.nice(0) + 10)
    wanted = ["low %d" % others, "middle %d" % others, "dmremap %d" % os.nice(0)]
    tally.holds("crates that few wait for give way", text_of(tree.calls).splitlines() == wanted, text_of(tree.calls))
    tree.rt(RT)


def test_faults(tally, tree):
    """Each has a message, if there is somewhere to put it, and leaves nothing behind."""
    first = "dmremap: low is proved and built (1 of 3, after 0 min 0 s)\n"
    failed = BUILDING + first + "rt: this is middle\ndmremap: the build of middle failed"
    no_program = BUILDING + told(CRATES[:2]) .replace("of 2", "of 3") + "rt: this is dmremap\ndmremap: the build of dmremap failed"
    rows = [
        ("where rt refuses a crate", {"BROKEN": "middle"}, failed + "\n"),
        ("where rt is killed", {"KILLED": "middle"}, failed + ": rt was killed by signal 9\n"),
        ("where rt makes no library", {"IDLE": "middle"}, failed + ": rt left no crates/middle/out/rlib\n"),
        ("where rt makes no program", {"IDLE": "dmremap"}, no_program + ": rt left no crates/dmremap/out/dmremap\n"),
    ]
    for name, variables, said in rows:
        tree.remove()
        tally.same("./dmremap " + name, tree.run(["splitname", "a-b"], variables=variables), 70, "", said)
        tally.holds("./dmremap %s leaves nothing" % name, tree.leaves_nothing(), "there are folders")
        closed = tree.run(["splitname", "a-b"], variables=variables, before=lambda: os.close(2))
        tally.same("./dmremap %s, with a closed standard error" % name, closed, 70)
        got = tree.run(["splitname", "a-b"], variables=variables, stderr=FULL_OUTPUT)
        tally.same("./dmremap %s, with a full standard error" % name, got, 70)
    tree.remove()
    # cp gives what it makes the mode of this one.
    got = tree.run(["splitname", "a-b"], variables={"PROGRAM": tree.program.file("no leave", "")})
    said = BUILDING + told() + "dmremap: crates/dmremap/out/dmremap was built, and there is no leave to run it\n"
    tally.same("./dmremap where rt makes a program that there is no leave to run", got, 70, "", said)
    tree.remove()
    got = tree.run(["splitname", "a-b"], before=lambda: os.close(2))
    tally.same("./dmremap that builds, with a closed standard error", got, 0, "a b\n")
    tree.remove()
    got = tree.run(tree.words(), before=lambda: os.close(0))
    tally.same("./dmremap that builds, with a closed standard input", got, 4, "", BUILDING + told() + "dmremap: requests: read\n")
    tree.remove()
    got = tree.run(["splitname", "a-b"], before=lambda: os.close(1))
    tally.same("./dmremap that builds, with a closed standard output", got, 5, "", BUILDING + told() + "dmremap: output: write\n")
    tree.remove()
    got = tree.run(["splitname", "a-b"], variables={"TMPDIR": "/no/such/folder"})
    tally.same("./dmremap without a TMPDIR", got, 0, "a b\n", BUILDING + told())
    for name, lost in ("no crates.txt", "crates.txt"), ("no toolchain", TOOLCHAIN), ("no HANDLES", "HANDLES"), ("no crates", "crates"):
        os.rename(tree.path(lost), tree.path("lost"))
        tree.remove()
        got = tree.run(["splitname", "a-b"])
        tally.tells("./dmremap with " + name, got, 70, "", "dmremap: the program can't be built: ")
        os.rename(tree.path("lost"), tree.path(lost))
    check_rights(tally, tree)


def check_rights(tally, tree):
    """Somebody else may run what is built, and may not build."""
    for at, folders, _ in os.walk(tree.folder):
        os.chmod(at, 0o755)
    tree.run([], tree.build)
    tally.same("./dmremap of somebody else", tree.run(["splitname", "a-b"], before=become_nobody), 0, "a b\n")
    tree.remove()
    tree.run([], tree.build, before=lambda: os.umask(0o077))
    got = tree.run(["splitname", "a-b"], before=become_nobody)
    tally.same("./dmremap of somebody else, built by one who shares nothing", got, 0, "a b\n")
    os.chmod(tree.top, 0o700)
    tree.remove()
    tree.run([], tree.build, before=lambda: os.umask(0o077))
    tally.holds("what is built of sources that are shared with nobody", os.stat(tree.built).st_mode & 0o077 == 0, "others may read it")
    os.chmod(tree.top, 0o755)
    tree.remove()
    got = tree.run(["splitname", "a-b"], before=become_nobody)
    if os.geteuid() == 0:
        is_told = got.status == 70 and got.err.startswith(b"dmremap: the program can't be built: [Errno 13] Permission denied")
        tally.holds("./dmremap with no right to build", is_told, "%s, %r" % (got.status, got.err))
    else:
        tally.skip("./dmremap with no right to build", "only root can become somebody else")


def test_full_disks(tally, tree):
    """A disk that is full, and a limit of the size of files, which is met at other places. Neither loses what is kept."""
    words = ["splitname", "a-b"]
    for limit in (0, 10, 100, 2000):
        tree.remove()
        got = tree.run(words, before=lambda: resource.setrlimit(resource.RLIMIT_FSIZE, (limit, limit)))
        is_told = got.status == 70 and got.out == b"" and b"dmremap: the " in got.err and tree.leaves_nothing()
        tally.holds("./dmremap with files of at most %d bytes" % limit, is_told, "%s, %r" % (got.status, got.err))
    full = os.path.join(tree.folder, "full")
    os.makedirs(full, exist_ok=True)
    small = ["unshare", "--map-root-user", "--mount", "sh", "-c",
             'mount -t tmpfs -o size="$1" none "$2" && cp -a "$3" "$2/tree" && shift 3 && exec "$@"', "sh"]
    for size in ("200k", "400k", "600k"):
        tree.remove()
        got = tree.run([*small[1:], size, full, tree.top, os.path.join(full, "tree", "dmremap"), *words], small[0])
        if b"unshare" in got.err or b"mount" in got.err:
            tally.skip("./dmremap on a disk that is full", "no disk can be made here")
            break
        tally.tells("./dmremap on a full disk of %s" % size, got, 70, "", "dmremap: the ")
    tree.remove()
    tally.same("./dmremap after that", tree.run(words), 0, "a b\n", BUILDING + told())


def test_changed(tally, tree):
    """What is changed during a build gets into no crate of it, and the program is built anew."""
    for name, place in ("a source", SOURCE), ("a source of the crate that is built", "crates/dmremap/src/text"):
        tree.put()
        tree.write(place, "text of before\n")
        saved = tree.program.file("saved", "text of after\n")
        got = tree.run(["splitname", "a-b"], variables={"SAVED": saved, "AT": tree.path(place)})
        tally.same("./dmremap where %s is changed meanwhile" % name, got, 0, "a b\n", BUILDING + told() + ANEW + told())
        made = tree.made_of()
        tally.holds("what it is made of then", "after" in made and "before" not in made, "it is %r" % made)
        tally.same("./dmremap after that", tree.run(["splitname", "a-b"]), 0, "a b\n")
    check_checkout(tally, tree)
    tree.put()
    tree.write(SOURCE, "text of before\n")
    saved = tree.program.file("saved", "low:\nmiddle: low\ndmremap: low middle beside\nbeside: middle\n")
    got = tree.run(["splitname", "a-b"], variables={"SAVED": saved, "AT": tree.path("crates.txt")})
    anew = told(["low", "middle", "beside", "dmremap"])
    tally.same("./dmremap where crates.txt is changed meanwhile", got, 0, "a b\n", BUILDING + told() + ANEW + anew)
    tree.write("crates.txt", "low:\nmiddle: low\ndmremap: low middle\nbeside: low\n")


def check_checkout(tally, tree):
    """Another branch is checked out while crates are built, and perhaps the first one again."""
    if shutil.which("git") is None:
        tally.skip("git checkout during a build", "there is no git")
        return
    git = ["git", "-C", tree.top, "-c", "user.name=A", "-c", "user.email=a@b", "-c", "commit.gpgsign=false"]
    env = {it: os.environ[it] for it in os.environ if not it.startswith("GIT_")}
    for branch in ("first", "other"):
        for it in CRATES:
            tree.write("crates/%s/src/text" % it, "%s of %s\n" % (branch, it))
        for words in (["init", "-q"], ["checkout", "-q", "-b", branch], ["add", "crates"], ["commit", "-q", "-m", branch]):
            run([*git, *words], env=env)
    for steps, wanted in (["first", "other"], "other"), (["first", "other", "first"], "first"):
        run([*git, "checkout", "-q", steps[0]], env=env)
        tree.remove()
        os.chmod(tree.program.file("bin/rt", HELD_RT), 0o755)
        let = os.path.join(tree.folder, "let")
        with tempfile.TemporaryFile() as err:
            ran = tree.start(["splitname", "a-b"], err, LET=let)
            has_begun = becomes(lambda: tree.called() == ["low"])
            for branch in steps[1:]:
                run([*git, "checkout", "-q", branch], env=env)
            tree.program.file("let")
            out = ran.communicate(timeout=60)[0]
        os.remove(let)
        lines = tree.made_of().splitlines()
        is_right = has_begun and out == b"a b\n" and lines and {it.split()[0] for it in lines if " of " in it} >= {wanted}
        is_right &= not any(it.startswith({"first": "other", "other": "first"}[wanted]) for it in lines)
        tally.holds("./dmremap while git checks out %s" % ", then ".join(steps[1:]), is_right, "%s, %s" % (out, lines))
    tree.rt(RT)
    shutil.rmtree(tree.path(".git"))


def test_by(tally, tree):
    """A command builds the program, as the gate does."""
    make = "mkdir -p crates/dmremap/out && cp %s crates/dmremap/out && echo > crates/dmremap/out/dmremap.o && echo said"
    make %= "'%s'" % tree.program.path
    rows = [
        ("", make, 0, True),
        ("that fails", make + "; exit 3", 3, False),
        ("that is killed", make + "; kill -9 $$", 137, False),
        ("beside which a source is touched", make + "; touch " + SOURCE, 0, False),
        ("beside which a source is changed, and changed back", make + "; cp %s it; echo >> %s; cp -p it %s" % (SOURCE, SOURCE, SOURCE),
         0, False),
    ]
    for name, command, status, is_kept in rows:
        tree.remove()
        tree.write("crates/low/out/rlib/left", "by a build before\n")
        got = tree.run(["--by", "sh", "-c", command], tree.build)
        tally.same("./build by a command " + name, got, status, "said\n")
        got = tree.run(["splitname", "a-b"])
        tally.same("./dmremap after a command " + name, got, 0, "a b\n", "" if is_kept else BUILDING + told())
    tree.put()
    tally.same("./build by a command that makes nothing", tree.run(["--by", "true"], tree.build))
    got = tree.run(["splitname", "a-b"])
    tally.same("./dmremap after a command that makes nothing", got, 0, "a b\n", BUILDING + told())


def test_turns(tally, tree):
    """A second call waits while another one builds, and also for what one left that was killed. Six calls build once."""
    tree.rt(HELD_RT)
    let = os.path.join(tree.folder, "let")
    rows = [("works", False, None), ("was killed", True, None), ("was killed that had no standard input", True, 0),
            ("was killed that had no standard output", True, 1), ("was killed that had no standard error", True, 2)]
    for name, is_killed, closed in rows:
        tree.remove()
        with tempfile.TemporaryFile() as first_err, tempfile.TemporaryFile() as second_err:
            first = tree.start(["splitname", "a-b"], first_err, closed=closed, LET=let)
            has_begun = becomes(lambda: tree.called() == ["low"])
            # As git does that pulls a change: the file has its name, and is another one.
            tree.write("crates.txt.new", open(tree.path("crates.txt"), encoding="utf-8").read())
            os.replace(tree.path("crates.txt.new"), tree.path("crates.txt"))
            if is_killed:
                first.kill()
            second = tree.start(["splitname", "a-b"], second_err, env=tree.other_environment(LET=let))
            waits = becomes(lambda: os.fstat(second_err.fileno()).st_size > 0)
            tree.program.file("let")
            ends = [it.communicate(timeout=30)[0] for it in (first, second)]
            second_err.seek(0)
            said = second_err.read().decode()
            is_right = has_begun and waits and said.startswith(WAITING) and ends[1] == b"a b\n"
            # Where the first built all, the second does nothing.
            is_right &= tree.called() == (["low", *CRATES] if is_killed else CRATES) and (is_killed or said == WAITING)
            tally.holds("./dmremap while another call %s" % name, is_right, "%s, %s, %s" % (ends, said, tree.called()))
            os.remove(let)
    tree.rt(RT)
    for count in (2, 6):
        tree.remove()
        with tempfile.TemporaryFile() as err:
            env = tree.environment(PAUSE="0.2")
            calls = [tree.start(["splitname", "a-%d" % it], err, env=env) for it in range(count)]
            ends = [it.communicate(timeout=60)[0] for it in calls]
        is_right = ends == [b"a %d\n" % it for it in range(count)] and len(tree.called()) == 3 and tree.leaves_nothing()
        tally.holds("%d calls at once" % count, is_right, "%s, %s" % (ends, tree.called()))


class Said:
    """What was written to a file, or to a terminal of which this is the other end, without times."""

    def __init__(self, number, is_terminal):
        self.number, self.is_terminal, self.text = number, is_terminal, b""
        os.set_blocking(number, not is_terminal)

    def so_far(self):
        if self.is_terminal:
            with contextlib.suppress(BlockingIOError):
                self.text += os.read(self.number, 65536)
        else:
            # The place where the others write stays.
            self.text = os.pread(self.number, 65536, 0)
        return without_times(self.text.replace(b"\r\n", b"\n"))


def test_told(tally, tree):
    """What runs is told again and again: in lines, and on a terminal in one that is rewritten."""
    text = text_of(tree.build)
    tally.holds("./build tells what runs", text.count(OFTEN[0]) == 1, "there is no %s" % OFTEN[0])
    often = tree.write(os.path.join(os.path.dirname(BUILD), "often"), text.replace(*OFTEN))
    os.chmod(often, 0o755)
    tree.rt(HELD_RT)
    let = os.path.join(tree.folder, "let")
    here, there = os.openpty()
    with tempfile.TemporaryFile() as file:
        for name, err, pace, running in (("in lines", file.fileno(), PACE, b"3 of 20 functions, 5 min to go: low"),
                                         ("on a terminal", there, "", b"3 of 7 functions: low")):
            line = b"dmremap: proved " + running
            line, last = (b"\r\x1b[K" + line, b"\r\x1b[K") if err == there else (line + b"\n", b"")
            tree.write("tools/building/pace", pace)
            tree.remove()
            ran = tree.start(["--run", "splitname", "a-b"], err, often, LET=let)
            said = Said(here if err == there else err, err == there)
            is_told = becomes(lambda: said.so_far().count(line) >= 2)
            tree.program.file("let")
            out = ran.communicate(timeout=30)[0]
            os.remove(let)
            is_told &= line + last + b"dmremap: low is proved and built" in said.so_far()
            tally.holds("./build tells what runs " + name, out == b"a b\n" and is_told, "%r, %r" % (out, said.text))
    os.close(here)
    os.close(there)


def test_stopped(tally, tree):
    """A build that is interrupted, or told to end, leaves nothing running, and what was kept of a crate where it was."""
    tree.rt(SLOW_RT)
    for number, status in ((signal.SIGINT, 130), (signal.SIGTERM, 143), (signal.SIGHUP, 129)):
        tree.remove()
        kept = tree.write("crates/low/out/incremental/kept", "kept\n")
        name = "./dmremap whose build gets " + number.name
        # Whatever still ran would keep pipes open.
        with tempfile.TemporaryFile() as err:
            ran = tree.start(["--help"], err)
            has_begun = becomes(lambda: tree.called() != [] and not os.path.exists(kept))
            ran.send_signal(number)
            ran.wait()
            err.seek(0)
            tally.same(name, Outcome(ran.returncode, ran.stdout.read(), err.read()), status, "", BUILDING)
        is_gone = has_begun and becomes(lambda: not runs(tree.called()[0]))
        tally.holds(name + " leaves nothing running", is_gone, "rt still runs, or never did")
        tally.holds(name + " loses nothing", os.path.exists(kept) and tree.leaves_nothing(), "something is lost, or left")


def test_killed(tally, tree):
    """A build that is killed, at any moment: the next call ends well, with what was kept of each crate."""
    tree.rt(RT)
    kept = ["crates/%s/out/incremental/kept" % it for it in CRATES]
    wrong = []
    for step in range(12):
        tree.put()
        for it in kept:
            tree.write(it, "kept\n")
        tree.write(SOURCE, "text %d\n" % step)
        with tempfile.TemporaryFile() as err:
            ran = tree.start(["splitname", "a-b"], err, PAUSE="0.1")
            time.sleep(0.08 * step)
            ran.kill()
            ran.communicate()
        got = tree.run(["splitname", "a-b"])
        is_right = (got.status, got.out) == (0, b"a b\n") and "text %d\n" % step in tree.made_of() and tree.leaves_nothing()
        tree.run([], tree.build)
        if not is_right or not all(os.path.exists(tree.path(it)) for it in kept):
            wrong.append((step, got.status, got.out, got.err, tree.made_of()))
    tally.holds("./dmremap after a build that was killed", not wrong, "%s" % wrong[:2])


def test_packed(tally, tree):
    """What rt keeps is packed once ./dmremap has built the program, and is there again for a build."""
    if shutil.which("zstd") is None:
        tally.skip("./dmremap packs what rt keeps", "there is no zstd")
        return
    tree.rt(RT)
    tree.remove()
    kept = {tree.path("crates/%s/out/%s" % it): "kept of %s in %s\n" % it
            for it in (("low", "incremental/a/b"), ("low", "rlib/stamp"), ("middle", "incremental/a"), ("dmremap", "incremental/a"))}
    for it, text in kept.items():
        tree.write(it, text)
    packs = [tree.path("crates/%s/out/kept.tar.zst" % it) for it in CRATES]
    # rt goes on with the program once what was kept of another crate is packed.
    tree.run(["splitname", "a-b"], variables={"AWAITED": "../../../low/crates/low/out/kept.tar.zst"})
    is_packed = all(map(os.path.exists, packs)) and not any(map(os.path.exists, kept))
    tally.holds("./dmremap packs what rt keeps", is_packed, "%s" % [it for it in kept if os.path.exists(it)])
    # A build is killed that had begun to remove, or to unpack, and a crate was checked meanwhile.
    newer = tree.path("crates/low/out/rlib/stamp")
    kept[newer] = "newer\n"
    for it in newer, tree.path("crates/low/out/going-rlib/stamp"), tree.path("crates/middle/out/coming-kept/incremental/a"):
        tree.write(it, "newer\n")
    tree.run([], tree.build)
    found = {}
    for it in kept:
        with contextlib.suppress(FileNotFoundError), open(it, encoding="utf-8") as file:
            found[it] = file.read()
    is_clear = sorted(os.listdir(tree.path("crates/low/out"))) == ["incremental", "rlib"] and not any(map(os.path.exists, packs))
    tally.holds("./build unpacks it", found == kept and is_clear, "%s, %s" % (found, os.listdir(tree.path("crates/low/out"))))
    with open(packs[0], "wb") as it:
        it.write(b"no pack")
    shutil.rmtree(tree.path("crates/low/out/incremental"))
    tree.write(SOURCE, "another text\n")
    tally.same("./dmremap beside a damaged pack", tree.run(["splitname", "a-b"]), 0, "a b\n", BUILDING + told())


def test_folders(tally, tree):
    """Two crates that stand on the same one are built at a time, with what was kept of each, which comes back."""
    tree.rt(HELD_RT)
    tree.write("crates.txt", "low:\nmiddle: low\ndmremap: low middle beside\nbeside: low\n")
    let = os.path.join(tree.folder, "let")
    places = tree.path("crates/beside/out/rlib/places")
    folder = tree.path("crates/dmremap/out/site/folders/beside")
    for end in (signal.SIGTERM, signal.SIGKILL, None):
        tree.remove()
        tree.write(places, "kept\n")
        with tempfile.TemporaryFile() as err:
            ran = tree.start(["splitname", "a-b"], err, LET=let, FREE="low dmremap")
            has_begun = becomes(lambda: sorted(tree.called()) == ["beside", "low", "middle"])
            is_there = os.path.exists(os.path.join(folder, "crates", "low", "out", "rlib", "places"))
            if end:
                ran.send_signal(end)
                ran.wait()
            tree.program.file("let")
            out = ran.communicate(timeout=30)[0]
        if end == signal.SIGKILL:
            # What it left goes on; the next call waits for that.
            out = tree.run(["splitname", "a-b"], variables={"LET": let}).out
        os.remove(let)
        if end != signal.SIGTERM:
            tree.run([], tree.build)
        text = text_of(places).splitlines()
        is_right = has_begun and is_there and text[0] == "kept" and tree.leaves_nothing()
        is_right &= text[1:] == [] if end == signal.SIGTERM else len(text) > 1 and text[1].startswith(folder)
        is_right &= out == (b"" if end == signal.SIGTERM else b"a b\n")
        tally.holds("./dmremap in folders, and %s" % (end.name if end else "no signal"), is_right,
                    "%s, %s, %s" % (out, tree.called(), text))


def test_whole_gate(tally, top):
    """The script of all tests says what it does, and starts none for a word that it doesn't know."""
    check = os.path.join(top, "check")
    got = run([check, "--help"])
    is_told = got.status == 0 and got.out.startswith(b"usage: ./check [--help]\n") and b"one to two hours" in got.out
    tally.holds("./check --help", is_told and got.err == b"", "%s" % (got,))
    tally.same("./check of a word", run([check, "now"]), 2, "", "usage: ./check [--help]\n")


class Building(Case):
    """Builds of a small tree."""

    @classmethod
    def setUpClass(cls):
        cls.tree = Tree(cls.program, cls.top, "a tree to build")
