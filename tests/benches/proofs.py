#!/usr/bin/env python3
"""Prints the ten heaviest functions of what a build or a check kept: proofs.py [FOLDER..]

FOLDER is a crate's; with none, all crates of this repository count. `rt` keeps a file of each stage of a function in the
crate's `out/incremental`, which ./dmremap packs; there times have whole seconds alone. For each function come the megabytes of its control flow, the stage `Lts`, with all that the
function drops at each of its exits; the seconds for which nothing else of its crate was written, while one of its stages
was made; and the stage that took most of them. The megabytes say the same on any machine, and the functions are in their
order. The seconds are all that a function took after `rt check --jobs 1`, and the least that it can have taken after a
build, which works on several at a time; a build that stood still between two files counts that as well.
"""

import collections
import pathlib
import re
import subprocess
import sys
import tarfile

MOST, PACKED = 10, "kept.tar.zst"
STAGES = "Lts|Proof|Answers|Code|Layout|Met|Given|Key|Named|Tie|Reads|Goals|Kinds|Statement|Symbol|TheLink|Carried|View|Mir"
# A function, its stage, and which function of a group that call each other it is.
STAGE = re.compile(rf"^Rattle[-.]\w+[-.](?:proofs|specs)?\.?(.*?)\.({STAGES})(?:-(.*))?\.oantt$")


def files_of(out):
    """Yields the path, time and size of each file that is kept of a crate, in its folder or else in its pack."""
    if (out / "incremental").is_dir() or not (out / PACKED).exists():
        for path in (out / "incremental").rglob("*"):
            yield path, path.stat().st_mtime, path.stat().st_size
        return
    with subprocess.Popen(["zstd", "-dcq", "--long=29", out / PACKED], stdout=subprocess.PIPE) as ran:
        with tarfile.open(fileobj=ran.stdout, mode="r|") as packed:
            yield from ((pathlib.Path(it.name), it.mtime, it.size) for it in packed)


def stages_of(folder):
    """Returns the times, function, stage and size of each stage that is kept of a crate, in the order of their times."""
    found = []
    for path, at, size in files_of(folder / "out"):
        match = STAGE.match(path.name) if "records" not in path.parts else None
        if match:
            function = ".".join(it for it in (match[1], match[3]) if it)
            found.append((at, function, match[2], size))
    return sorted(found)


def weighed(folder):
    """Returns the size of its control flow, the name, and the seconds of each stage, for each function of a crate."""
    sizes, times, before = collections.Counter(), collections.defaultdict(collections.Counter), None
    for at, function, stage, size in stages_of(folder):
        times[function][stage] += at - (before or at)
        sizes[function] += size if stage == "Lts" else 0
        before = at
    return [(sizes[it], f"{folder.name}: {it}", times[it]) for it in times]


def main(folders):
    rows = [row for folder in folders for row in weighed(folder)]
    if not rows:
        sys.exit(f"{', '.join(map(str, folders))}: nothing is kept")
    print("   MB seconds  function")
    for size, function, times in sorted(rows, key=lambda row: row[0], reverse=True)[:MOST]:
        stage, most = times.most_common(1)[0]
        print(f"{size / 1e6:5.1f} {sum(times.values()):7.0f}  {function}  ({stage} {most:.0f})")


if __name__ == "__main__":
    if any(it.startswith("-") for it in sys.argv[1:]):
        sys.exit(__doc__)
    crates = pathlib.Path(__file__).resolve().parents[2] / "crates"
    main([pathlib.Path(it).resolve() for it in sys.argv[1:]] or sorted(crates.iterdir()))
