"""The scripts ./install and tools/packaging/release: what they put where, that it works from there, what they remove, that the program
of a release asks the machine for no library, and that one commit packs into the same bytes.

They run in a small repository of their own, in which the program stands built."""

import glob
import hashlib
import os
import re
import shutil
import tarfile

import documents
from harness import Case, is_static, run, text_of
from tool_calls import read
from trees import ANSWER, BUILD, DISKS, REQUESTS, SCRIPTS, TABLE

# What is installed besides the program and the documents, and where it is here.
PLACES = {"share/man/man1/%s.1": "docs/%s.1",
    "share/bash-completion/completions/%s": "tools/packaging/completions/%s.bash",
    "share/zsh/site-functions/_%s": "tools/packaging/completions/_%s",
}
DOCUMENTS = "share/doc/dmremap"
# What a release has besides: the name of its commit.
COMMIT = DOCUMENTS + "/COMMIT"
# What packs the tool, and what it makes.
PACK, TOOL = "tools/pack", "bin/dmremap-tools"
USAGE = "usage: ./install [--remove] [PREFIX]\n"
RELEASE = "tools/packaging/release"
RELEASE_USAGE = "usage: tools/packaging/release [FOLDER]\n"
# How the README tells which C library the program needs.
LEAST = re.compile(r"glibc (\d+)\.(\d+)")
GIT = ["git", "-c", "user.name=A", "-c", "user.email=a@b", "-c", "commit.gpgsign=false"]
# In place of the toolchain, which a release asks where its libraries are: these define what is asked of them.
RT = "#!/bin/sh\necho %s/START-HERE.md\n"
# In place of the proved object file: a program that knows one request.
OBJECT = """
#include <stdio.h>
#include <string.h>
int answer_of(int count);
int main(int count, char **words) {
    if (count > 1 && strcmp(words[1], "--version") == 0)
        return puts("%s") < 0;
    return answer_of(count);
}
"""
LIBRARY = """
#include <stdio.h>
int answer_of(int count) { return puts("%s") < 0 || count < 4; }
"""


def make_tree(program, top, name):
    """A repository with the scripts, what they install, and the program."""
    tree = os.path.join(program.folder, name)
    for it in [*SCRIPTS[:2], "install", "README.md", "CHANGELOG.md", ".gitignore", "docs", "tests/benches/RESULTS.md", "examples", "tools"]:
        one, other = os.path.join(top, it), os.path.join(tree, it)
        os.makedirs(os.path.dirname(other), exist_ok=True)
        if os.path.isdir(one):
            shutil.copytree(one, other, ignore=shutil.ignore_patterns("__pycache__"))
        elif os.path.exists(one):
            shutil.copy(one, other)
    program.file(os.path.join(tree, "crates.txt"), "dmremap:\n")
    program.file(os.path.join(tree, "HANDLES"))
    program.file(os.path.join(tree, "crates", "dmremap", "src", "main.rt"))
    out = os.path.join(tree, "crates", "dmremap", "out")
    os.makedirs(out)
    objects = os.path.join(program.folder, "objects")
    if not os.path.exists(objects):
        make_objects(program)
    make = 'cp "$1" "$3/dmremap" && cp "$2" "$3/dmremap.o"'
    got = run([os.path.join(tree, BUILD), "--by", "sh", "-c", make, "sh", program.path, os.path.join(objects, "c", "main.o"), out])
    if got.status:
        raise RuntimeError("no program was put there: %r" % got.err)
    return tree


def make_objects(program):
    """Makes an object file in place of the program's, and libraries in place of the toolchain's."""
    program.file("objects/c/main.o")
    if shutil.which("cc") is None:
        return
    version = run([program.path, "--version"]).out.decode().strip()
    for it, text in ("main", OBJECT % version), ("libos_c", LIBRARY % ANSWER.strip()), ("liblibc_c", "int other;\n"):
        made = os.path.join(program.folder, "objects", "c", it)
        run(["cc", "-c", "-x", "c", "-o", made + ".o", program.file("objects/%s.c" % it, text)])
        run(["ar", "crD", made + ".a", made + ".o"])


def installed_in(tree):
    """What is installed, and the bytes that it has. Those of the tool aren't looked at."""
    places = {"bin/dmremap": "crates/dmremap/out/dmremap", TOOL: PACK}
    places.update((place % name, path % name) for name in ("dmremap", "dmremap-tools") for place, path in PLACES.items())
    for pattern in ("README.md", "CHANGELOG.md", "docs/*.*", "tests/benches/RESULTS.md", "examples/*.*", "examples/samples/*.*"):
        paths = [os.path.relpath(it, tree) for it in glob.glob(os.path.join(tree, pattern))]
        places.update(("%s/%s" % (DOCUMENTS, it), it) for it in paths)
    return {place: None if place == TOOL else read(os.path.join(tree, path)) for place, path in places.items()}


def files_below(folder):
    paths = (os.path.join(at, it) for at, _, names in os.walk(folder) for it in names)
    names = {os.path.relpath(it, folder): it for it in paths}
    return {name: None if name == TOOL else read(it) for name, it in names.items()}


def check_works(tally, program, folder, name):
    """What is below a folder works from there."""
    words = ["map", "table", program.file("the table", TABLE), program.file("the disks", DISKS)]
    got = run([os.path.join(folder, "bin", "dmremap"), *words], given=REQUESTS)
    tally.same("the program of " + name, got, 0, ANSWER)
    if shutil.which("man") is None:
        tally.skip("the manual of " + name, "there is no man")
    else:
        got = run(["man", "-M", os.path.join(folder, "share", "man"), "-w", "dmremap"])
        tally.same("the manual of " + name, got, 0, os.path.join(folder, "share", "man", "man1", "dmremap.1") + "\n")
    tally.tells("the tool of " + name, run([os.path.join(folder, TOOL), "--help"]), out="dmremap-tools")


def test_installed(tally, program, tree):
    wanted = installed_in(tree)
    tally.holds("what there is to install", len(wanted) > 30, "it is %s" % sorted(wanted))
    folder = os.path.join(program.folder, "a folder", "below it")
    got = run([os.path.join(tree, "install"), "a folder/below it"], folder=program.folder)
    tally.same("./install", got, 0, "dmremap: installed below a folder/below it\n")
    tally.holds("what ./install puts there", files_below(folder) == wanted, "it is %s" % sorted(files_below(folder)))
    executable = [it for it in sorted(wanted) if os.access(os.path.join(folder, it), os.X_OK)]
    programs = [it for it in sorted(wanted) if it.startswith("bin/")]
    tally.holds("what ./install makes executable", executable == programs, "it is %s" % executable)
    check_works(tally, program, folder, "./install")
    for words in (["--help"], ["a", "b"], [""], ["--remove", "-x"], ["--remove", "a", "b"], ["--remove", ""]):
        tally.same("./install %s" % words, run([os.path.join(tree, "install"), *words]), 2, "", USAGE)


def test_destination(tally, program, tree):
    """DESTDIR stands before the prefix, also before the one that is meant if none is given."""
    below = os.path.join(program.folder, "destination")
    for words, prefix in (([], os.path.join("usr", "local")), ([os.sep + "own"], "own")):
        got = run([os.path.join(tree, "install"), *words], env=dict(os.environ, DESTDIR=below))
        there = files_below(os.path.join(below, prefix))
        is_there = got.status == 0 and there == installed_in(tree)
        tally.holds("./install below DESTDIR, %s" % prefix, is_there, "%s, %r, %s" % (got.status, got.err, sorted(there)))


def test_links(tally, program, tree):
    """What is installed gets in place of a link, and not through it."""
    folder = os.path.join(program.folder, "linked prefix")
    mine = program.file("mine", "mine\n")
    places = ("bin/dmremap", TOOL, DOCUMENTS + "/README.md")
    for it in places:
        os.makedirs(os.path.dirname(os.path.join(folder, it)), exist_ok=True)
        os.symlink(mine, os.path.join(folder, it))
    got = run([os.path.join(tree, "install"), folder])
    tally.same("./install where links are", got, 0, "dmremap: installed below %s\n" % folder)
    tally.holds("what a link leads to", read(mine) == b"mine\n", "it is another")
    tally.holds("what ./install puts there", files_below(folder) == installed_in(tree), "it is %s" % sorted(files_below(folder)))
    tally.holds("links that stay", not any(os.path.islink(os.path.join(folder, it)) for it in places), "one does")
    check_works(tally, program, folder, "./install over links")


def test_removed(tally, program, tree):
    """What was installed is removed, and what others put there stays."""
    folder = os.path.join(program.folder, "a folder", "below it")
    others = ["bin/other", DOCUMENTS + "/other.md"]
    for it in others:
        program.file(os.path.join(folder, it))
    words = [os.path.join(tree, "install"), "--remove", folder]
    tally.same("./install --remove", run(words), 0, "dmremap: removed from %s\n" % folder)
    tally.holds("what it leaves", sorted(files_below(folder)) == others, "it is %s" % sorted(files_below(folder)))
    tally.same("./install --remove once more", run(words), 0, "dmremap: removed from %s\n" % folder)
    for it in others:
        os.remove(os.path.join(folder, it))
    run([os.path.join(tree, "install"), folder])
    run(words)
    is_gone = not files_below(folder) and not any("dmremap" in it for _, names, _ in os.walk(folder) for it in names)
    tally.holds("what it leaves of its own", is_gone, "it is %s" % sorted(files_below(folder)))
    run([os.path.join(tree, "install"), folder])
    stuck = os.path.join(folder, "bin", "dmremap")
    os.remove(stuck)
    os.mkdir(stuck)
    got = run(words)
    is_told = got.status == 1 and got.out == b"" and b"bin/dmremap" in got.err and not files_below(folder)
    tally.holds("./install --remove where one file can't be removed", is_told, "%s, %r, %s" % (got.status, got.err, sorted(files_below(folder))))
    os.rmdir(stuck)


def test_libraries(tally, program, top):
    """The program needs the C library alone, of the version that the README names or a later one; that of a release none."""
    if is_static(program.path):
        check_static(tally, program.path, "the program")
        return
    found = read(program.path)
    names = sorted(set(re.findall(rb"\0(lib[\w+-]+\.so[.\d]*)\0", found)))
    tally.holds("the libraries of the program", names == [b"libc.so.6"], "they are %s" % names)
    least = max(tuple(map(int, it)) for it in re.findall(rb"GLIBC_(\d+)\.(\d+)", found)) if b"GLIBC_" in found else None
    told = LEAST.search(text_of(os.path.join(top, "README.md")))
    told = told and tuple(map(int, told.groups()))
    tally.holds("the C library that the README names", told == least, "it names %s, and the program needs %s" % (told, least))


def test_release(tally, program, top, tree):
    missing = [it for it in ("git", "cc") if shutil.which(it) is None]
    if missing:
        tally.skip("./release", "there is no %s" % missing[0])
        return
    env = {it: os.environ[it] for it in os.environ if not it.startswith("GIT_")}
    kit = os.path.join(program.folder, "objects")
    os.chmod(program.file("kit/rt", RT % kit), 0o755)
    env["PATH"] = os.path.join(program.folder, "kit") + os.pathsep + env["PATH"]
    release = os.path.join(tree, RELEASE)
    for words in ["--help"], [""], ["a", "b"], [program.folder, ""]:
        tally.same("./release %s" % words, run([release, *words], env=env), 2, "", RELEASE_USAGE)
    tally.same("./release without a repository", run([release], env=env), 1, "", "release: there is no repository in %s\n" % tree)
    run([*GIT, "init", "-q"], folder=tree, env=env)
    tally.same("./release without a commit", run([release], env=env), 1, "", "release: there is no commit to make a release of\n")
    for words in (["add", "."], ["commit", "-q", "-m", "All"]):
        run([*GIT, *words], folder=tree, env=env)
    other = make_tree(program, top, "another")
    shutil.copytree(os.path.join(tree, ".git"), os.path.join(other, ".git"))
    packed = []
    # What another repository and another place and time would make of it.
    odd = dict(env, TZ="Asia/Tokyo", GIT_DIR="/no/such/repository", GIT_WORK_TREE=program.folder, GIT_INDEX_FILE="/dev/null")
    odd.update(TAR_OPTIONS="--exclude=README.md", GZIP="-1", DPKG_DEB_COMPRESSOR_LEVEL="1")
    for at, mask, variables in (tree, 0o022, env), (other, 0o077, odd):
        folder = os.path.join(program.folder, "packed", str(mask))
        os.makedirs(folder)
        got = run([os.path.join(at, RELEASE)], folder=folder, env=variables, before=lambda: os.umask(mask))
        made = {it: read(os.path.join(folder, it)) for it in os.listdir(folder)}
        packed.append(made)
        names = names_of(program)
        sums = "".join("%s  %s\n" % (hashlib.sha256(made.get(it, b"")).hexdigest(), it) for it in names)
        tally.same("./release", got, 0, sums)
        beside = "".join(made.get(it + ".sha256", b"").decode() for it in names)
        tally.holds("what ./release makes", len(made) == 2 * len(names) and beside == sums, "it is %s" % sorted(made))
    differ = [it for it in packed[0] if packed[0][it] != packed[1].get(it)]
    tally.holds("two runs of ./release", packed[0] and not differ, "the bytes of %s differ" % differ)
    check_unpacked(tally, program, tree, os.path.join(folder, names[0]), names[0][:-len(".tar.gz")])
    check_packages(tally, program, folder, names[1:])
    check_refused(tally, program, tree, release, env)
    check_full(tally, program, release, env)


def names_of(program):
    """What a release makes on this machine, the archive first."""
    version = run([program.path, "--version"]).out.decode().split()[-1]
    names = [(None, "dmremap-%s-x86_64-linux.tar.gz"), ("dpkg-deb", "dmremap_%s_amd64.deb"), ("rpmbuild", "dmremap-%s-1.x86_64.rpm")]
    return [it % version for tool, it in names if tool is None or shutil.which(tool)]


def check_full(tally, program, release, env):
    """On a disk that is full, nothing has the name of what it is a part of."""
    full = os.path.join(program.folder, "a full disk")
    os.mkdir(full)
    small = ["unshare", "--map-root-user", "--mount", "sh", "-c",
             'mount -t tmpfs -o size="$1" none "$2" && { "$3" "$2" 2> /dev/null; echo "status $?"; ls -A "$2"; }', "sh"]
    sizes = [os.path.getsize(os.path.join(program.folder, "packed", "63", it)) for it in names_of(program)]
    for size in (sizes[0] // 2, sizes[0] + sizes[-1] // 2):
        got = run([*small, str(size), full, release], env=env)
        if b"unshare" in got.err or b"mount" in got.err:
            tally.skip("./release to a disk that is full", "no disk can be made here")
            break
        tally.holds("./release to a disk of %d bytes" % size, got.out == b"status 1\n", "%s, %r, %r" % (got.status, got.out, got.err))


def check_refused(tally, program, tree, release, env):
    """A tree that isn't what the commit has, whatever git is told to show; and means that are missing."""
    hidden = [{}, {"GIT_CONFIG_COUNT": "1", "GIT_CONFIG_KEY_0": "core.excludesFile", "GIT_CONFIG_VALUE_0": program.file("all", "*\n")}]
    more = program.file(os.path.join(tree, "examples", "notes.txt"), "notes\n")
    program.file(os.path.join(tree, ".git", "info", "exclude"), "notes.txt\n")
    for value in ("normal", "no"):
        run([*GIT, "config", "status.showUntrackedFiles", value], folder=tree, env=env)
        for variables in hidden:
            got = run([release, program.folder], env=dict(env, **variables))
            tally.same("./release of a file that isn't committed, %s, %s" % (value, variables), got, 1, "",
                       "release: there are files that aren't committed, such as examples/notes.txt\n")
    ignored = program.file(os.path.join(tree, "examples", ".gitignore"), "*\n")
    tally.same("./release of a file that a .gitignore hides which isn't committed", run([release, program.folder], env=env), 1, "",
               "release: there are files that aren't committed, such as examples/.gitignore\n")
    os.remove(ignored)
    os.remove(more)
    readme = os.path.join(tree, "README.md")
    kept = read(readme)
    program.file(readme, "changed\n")
    for how in None, "assume-unchanged", "skip-worktree":
        if how:
            run([*GIT, "update-index", "--" + how, "README.md"], folder=tree, env=env)
        tally.same("./release of a change, %s" % how, run([release, program.folder], env=env), 1, "",
                   "release: there are changes that aren't committed\n")
        if how:
            run([*GIT, "update-index", "--no-" + how, "README.md"], folder=tree, env=env)
    program.file(readme, kept)
    tools = {"awk", "bash", "cat", "cc", "cmp", "date", "dirname", "env", "find", "git", "head", "mktemp", "readlink", "realpath",
             "rm", "rt", "sed", "sha256sum", "sort", "stat", "tr", "xargs"}
    for missing, told in ("rt", "the program is linked with libraries of the Rattle toolchain, and there is no rt on the path"), \
            ("cc", "the program is linked by cc, and there is none on the path"):
        few = os.path.join(program.folder, "without " + missing)
        os.mkdir(few)
        for it in tools - {missing}:
            os.symlink(shutil.which(it, path=env["PATH"]), os.path.join(few, it))
        got = run([release, program.folder], env=dict(env, PATH=few))
        tally.same("./release without " + missing, got, 1, "", "release: %s\n" % told)
    got = run([release, os.path.join(program.folder, "no folder")], env=env)
    tally.tells("./release into no folder", got, 1, err="no folder")


def check_static(tally, path, name):
    """A program that asks for no library. Ones that look at programs say so, where they are there."""
    tally.holds("the segments of " + name, is_static(path), "it asks for a loader or for libraries")
    if os.geteuid() == 0:
        folder, file = os.path.split(path)
        got = run([os.sep + file, "--version"], before=lambda: (os.chroot(folder), os.chdir(os.sep)))
        tally.holds(name + " where there is no library", got.status == 0 and got.out.startswith(b"dmremap "), "%s, %r" % (got.status, got.err))
    else:
        tally.skip(name + " where there is no library", "only root can hide them")
    for tool, told in ("ldd", b"not a dynamic executable"), ("file", b"statically linked"):
        if shutil.which(tool) is None:
            tally.skip("what %s says of %s" % (tool, name), "it isn't there")
        else:
            got = run([tool, path], env=dict(os.environ, LC_ALL="C"))
            tally.holds("what %s says of %s" % (tool, name), told in got.out + got.err, "it is %r, %r" % (got.out, got.err))


def check_unpacked(tally, program, tree, archive, name):
    unpacked = os.path.join(program.folder, "unpacked")
    with tarfile.open(archive) as it:
        owners = {(entry.uid, entry.gid) for entry in it.getmembers()}
        tally.holds("the owners in the archive", owners == {(0, 0)}, "they are %s" % owners)
        it.extractall(unpacked)
    folder = os.path.join(unpacked, name)
    sums = run(["sha256sum", "--quiet", "-c", "SHA256SUMS"], folder=folder)
    tally.same("the sums in the archive", sums)
    there = files_below(folder)
    listed = there.pop("SHA256SUMS", b"").count(b"\n")
    wanted = {**installed_in(tree), COMMIT: run([*GIT, "rev-parse", "HEAD"], folder=tree).out, "README.md": b""}
    is_same = {it for it in wanted if there.get(it) != wanted[it]} == {"bin/dmremap", "README.md"} and set(there) == set(wanted)
    tally.holds("what is in the archive", is_same and listed == len(wanted), "it is %s" % sorted(there))
    pages = [os.path.join(folder, it) for it in sorted(there) if it.endswith(".md")]
    lost = ["%s: %s" % (os.path.relpath(page, folder), it) for page in pages for it in documents.lost_links(text_of(page), page)]
    tally.holds("links of the pages in the archive", len(pages) > 9 and not lost, "there is no %s" % ", ".join(lost))
    check_static(tally, os.path.join(folder, "bin", "dmremap"), "the archive's program")
    check_works(tally, program, folder, "the archive")


def check_packages(tally, program, folder, names):
    """The packages have what is in the archive, below /usr, and belong to root."""
    wanted = set(files_below(os.path.join(program.folder, "unpacked"))) 
    wanted = {"usr/" + it.partition("/")[2] for it in wanted if "/share/" in it or "/bin/" in it}
    for name in names:
        path = os.path.join(folder, name)
        if name.endswith(".deb"):
            to = os.path.join(program.folder, "deb")
            tally.same("the package %s" % name, run(["dpkg-deb", "-x", path, to]))
            there = set(files_below(to))
            owners = {it.split()[1] for it in run(["dpkg-deb", "-c", path]).out.decode().splitlines()}
            fields = run(["dpkg-deb", "-f", path, "Package", "Architecture", "Depends"]).out.decode()
            tally.holds("the fields of %s" % name, fields == "Package: dmremap\nArchitecture: amd64\n", "they are %r" % fields)
            check_works(tally, program, os.path.join(to, "usr"), name)
        else:
            listed = run(["rpm", "-qp", "--nosignature", "--qf", "[%{FILENAMES} %{FILEUSERNAME}/%{FILEGROUPNAME}\n]", path]).out.decode()
            there = {it.split()[0][1:] for it in listed.splitlines() if it.split()[0][1:] in wanted}
            owners = {it.split()[1] for it in listed.splitlines()}
            check_folders(tally, path, name)
        tally.holds("what is in %s" % name, there == wanted and owners == {"root/root"}, "it is %s, of %s" % (sorted(there ^ wanted), owners))


def check_folders(tally, path, name):
    """Each folder of dmremap's own belongs to the package, so that it goes with it."""
    listed = run(["rpm", "-qp", "--nosignature", "--qf", "[%{FILEMODES:perms} %{FILENAMES}\n]", path]).out.decode().splitlines()
    files = [it.split()[1] for it in listed]
    own = {it for file in files for it in above(file) if "/dmremap/" in it + "/"}
    folders = {it.split()[1] for it in listed if it.startswith("d")}
    tally.holds("the folders of %s" % name, own and folders == own, "they are %s and not %s" % (sorted(folders), sorted(own)))


def above(path):
    """The folders above a file."""
    while os.path.dirname(path) != path:
        path = os.path.dirname(path)
        yield path


class Installs(Case):
    """A repository that is installed, and released."""

    @classmethod
    def setUpClass(cls):
        cls.tree = make_tree(cls.program, cls.top, "a repository")
