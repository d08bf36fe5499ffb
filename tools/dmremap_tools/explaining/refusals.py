"""What is said of a refusal: dmremap's message, the line with the refused part underlined, why it is refused, and what
is allowed there. Nothing here proposes a command whose answer could be taken for that of the one that was typed."""

import re
from typing import Dict, List, NamedTuple, Optional, Tuple

from dmremap_tools.base import names, program, quoting, streams, tables
from dmremap_tools.base.given import MOST_TEXT

# A message: what it is about, the number of a request or the name of an image or a store, the word, and the line.
MESSAGE = re.compile(r"dmremap: ([a-z]+)(?: (.+))?: ([a-z ]+?)(?: at ([0-9]+))?")
NUMBER, UNPRINTED = re.compile(r"0|[1-9][0-9]{0,18}"), re.compile(r"[^ -~]")
# What of a long line is shown, and how much of that stands before the place.
WIDTH, BEFORE = 90, 30
# Of how many letters a sentence says little.
SHORT = 25
REQUEST = "R or W, a device, a sector, and from 1 to 1,048,576 sectors, with single spaces between and a newline behind"
LINE = "a line is NAME: START LENGTH TARGET WORD .., with single spaces between and a newline behind"
DISK = "a line is a disk, a space and its sectors, with a newline behind"
LISTED = "a line is a disk, a space and a path, perhaps with ?offset=BYTES&length=BYTES, with a newline behind"
GROUP = "the text of one group, as vgcfgbackup writes it, with linear and striped volumes and snapshots of these"
NAME = "a group and a volume of letters, digits and +_.-, neither of which begins with a hyphen, up to 127 bytes in all"
HEADS = "whole images of the physical volumes of one group, in one state"
STORES = "images of all disks of the stores of snapshots, whose chunks have as many sectors as the table says"
# What is allowed in place of what is refused, by the word of a message about FILE or DISKS.
ALLOWED = {
    "read": "a file that is there, and that you may read",
    "long": "at most 1,048,576 bytes",
    "text": "letters, digits and signs of ASCII, spaces, and a line feed at the end of a line",
    "field": "numbers have only digits and no leading zero; targets are linear DISK START, striped COLUMNS CHUNK DISK "
             "START .., zero, error, snapshot ORIGIN STORE P|N|K CHUNK and snapshot-origin ORIGIN",
    "name": "a device has 1 to 127 letters, digits and #+-.:=@_; a disk has 1 to 255 letters, digits and signs but , ; "
            "and \\, and doesn't begin with /dev/mapper/",
    "twice": "each disk, and each device with all its lines together, stands once",
    "empty": "a disk and a line have at least one sector",
    "gap": "the first line begins at 0, and each other one where the line before it ends",
    "overlap": "the first line begins at 0, and each other one where the line before it ends",
    "unknown": "a line names disks that DISKS has, and devices that FILE has, as /dev/mapper/NAME",
    "cycle": "a device lies on others that don't lie on it",
    "deep": "at most 32 devices lie on each other",
    "stripe": "a length is a multiple of COLUMNS times CHUNK, of 1 to 128 columns and 1 to 4,294,967,295 sectors",
    "range": "a line ends within the disk or the device that it names",
    "snapshot": "a snapshot or a snapshot-origin is the only line of its device, and as long as its origin; chunks "
                "have 1, 2, 4 .. or 1024 sectors",
    "store": "a store is a disk, or a writable device of linear and striped lines over disks or such devices",
    "limit": "counts and lengths are within what dmremap.1 says below LIMITS",
}
# The same where a message is about something else, by the part and the word.
OF_PART = {
    ("source", "syntax"): LINE, ("disks", "syntax"): DISK, ("disks", "field"): DISK, ("paths", "syntax"): LISTED,
    ("paths", "field"): "a part has an offset and a length, in bytes, and multiples of 512",
    ("paths", "text"): "a path is UTF-8",
    ("paths", "unknown"): "PATHS names disks of the tables",
    ("request", "unknown"): "a device that FILE has, by its name",
    ("request", "not top"): "with `replay`, a device on which no other one lies",
    ("words", "disks"): "DISKS stands behind FILE with table and concise, and not with lvm and images",
    ("replay", "untidy"): "with `replay`, no two lines use the same sectors",
}


# A file as it was given, its beginning, and a line that says why it can't be read, if it can't.
Input = NamedTuple("Input", [("path", str), ("content", bytes), ("fault", str)])


class TextPlace(NamedTuple):
    """Characters of a line of a text, or of a device of concise text."""

    name: str
    number: int
    text: str
    first: int
    end: int

    def __str__(self) -> str:
        """It as a compiler shows it: the part of the line around it, underlined."""
        begun = max(0, min(self.first - BEFORE, len(self.text) - WIDTH))
        part = self.text[begun:begun + WIDTH]
        before, marked = part[:self.first - begun], part[self.first - begun:self.end - begun]
        lead = "  " + ".." * (begun > 0)
        shown = lead + quoting.escaped(part) + ".." * (begun + WIDTH < len(self.text))
        mark = " " * (len(lead) + len(quoting.escaped(before))) + "^" * max(1, len(quoting.escaped(marked)))
        return f"{self.name}:{self.number}\n{shown}\n{mark}\n"


def explained(asked: str, message: str, form: str, texts: Dict[str, Input]) -> str:
    """What is said of a message about inputs, each by its part with its path and what it has; `asked` is dmremap."""
    if message.startswith("error: "):
        # Of words that dmremap doesn't take.
        rows = message.split("\n\n")[0].splitlines()
        return "".join(quoting.escaped(it) + "\n" for it in [*rows, "more: dmremap help"])
    message = message.partition("\n")[0]
    part, word, place = about(message, form, texts)
    fault = texts[part].fault if word == "read" and part in texts else ""
    said = [quoting.escaped(message) + "\n", str(place or fault)]
    key = f"{part}: {word}".strip(": ")
    why = program.ask_quietly([asked, "help", key])[0] if word else ""
    reason = re.match(r"(?:dmremap: .*\n)*((?:  .*\n)+)", why)
    if reason:
        # The first sentence, or two where that is short, of which the second is about metadata if that is refused.
        first, *others = re.split(r"(?<=[^.])\. (?=[A-Z`])", " ".join(reason[1].split()))
        is_text = part == "source" and form in ("lvm", "images")
        others = [it for it in others if is_text and it.startswith("In metadata")] or others
        said.append("why: %s\n" % ". ".join([first, *others[:len(first) < SHORT]]).rstrip("."))
    allowed = allowed_in(part, word, form)
    said += [f"allowed: {allowed}\n"] * bool(allowed) + [f"more: dmremap help '{key}'\n"] * bool(reason)
    return "".join(said)


def about(message: str, form: str, texts: Dict[str, Input]) -> Tuple[str, str, Optional[TextPlace]]:
    """The part and the word of a message, and the place that it is about, if it is about one."""
    match = MESSAGE.fullmatch(message)
    if not match:
        return "", "", None
    part, name, word, line = match.groups("")
    text = "paths" if part == "disk" else part
    path, content, _ = texts.get(text, ("", b"\0", ""))
    if streams.is_binary(content):
        return part, word, None
    rows = content.decode("utf-8", "surrogateescape").split(";" if (text, form) == ("source", "concise") else "\n")
    of_disk = (number for number, row in enumerate(rows, 1) if part == "disk" and row.split(" ")[0] == name)
    number = int(name) if part == "request" else int(line or 0) or next(of_disk, 0)
    return part, word, place_in(text, word, number, form, path, rows) if number else None


def allowed_in(part: str, word: str, form: str) -> str:
    """What is allowed in place of what is refused."""
    if (part, word) in OF_PART and (part, form) != ("source", "lvm"):
        return OF_PART[part, word]
    if part in ("request", "before") and word != "read":
        return REQUEST
    if part == "name":
        return NAME
    if part == "store" and form in ("table", "concise"):
        return STORES
    if part in ("disk", "store") or (part, form) == ("source", "images"):
        return HEADS
    return GROUP if (part, form) == ("source", "lvm") and word not in ("read", "long") else ALLOWED.get(word, "")


def place_in(part: str, word: str, number: int, form: str, path: str, rows: List[str]) -> TextPlace:
    """The part of the line with a number, from 1, that is refused by a word. Past the last one it is an empty place."""
    row = "".join(rows[number - 1:number])
    row = row.strip() if (part, form) == ("source", "lvm") else row
    words, wild = row.split(" "), UNPRINTED.search(row)
    first, count = marked(part, word, form, words)
    if word == "text" and wild:
        return TextPlace(quoting.shown(path), number, row, wild.start(), wild.end())
    begin = sum(len(it) + 1 for it in words[:first])
    return TextPlace(quoting.shown(path), number, row, begin, begin + len(" ".join(words[first:first + count])))


def marked(part: str, word: str, form: str, words: List[str]) -> Tuple[int, int]:
    """Which of the words of a line are refused by a word: the first, and how many."""
    whole, numbers = (0, len(words)), [at for at, it in enumerate(words) if not NUMBER.fullmatch(it)]
    if part in ("request", "before"):
        odd = next((at for at in (2, 3) if at in numbers), 2)
        at = {"number": odd, "length": 3, "unknown": 1, "not top": 1}.get(word)
        return whole if at is None or len(words) != 4 else (at, 1)
    if part in ("disks", "paths"):
        is_second = word in ("field", "read", "partitions", "array", "label", "header", "ends")
        return whole if word in ("text", "syntax") else (int(is_second), len(words) - 1 if is_second else 1)
    if form != "table" or len(words) < 4:
        return whole
    line = tables.Line(0, 0, words[3], words[4:])
    lowers = [4 + at for at in line.places()] or [4]
    odd = next((at for at in (1, 2) if at in numbers), 3 if words[3] not in tables.TARGETS else 4)
    below = lowers[0], lowers[-1] - lowers[0] + 1 + (word == "range")
    is_named = word == "name" and names.FORM.fullmatch(words[0].rstrip(":"))
    return {"twice": (0, 1), "name": below if is_named else (0, 1), "gap": (1, 1), "overlap": (1, 1), "empty": (2, 1),
            "field": (odd, 1 if odd < 4 else len(words)), "stripe": (2, len(words)), "unknown": below,
            "range": below}.get(word, whole)


def read(path: str) -> Input:
    """The beginning of a file."""
    try:
        with open(path, "rb") as file:
            return Input(path, file.read(MOST_TEXT + 1), "")
    except OSError as fault:
        return Input(path, b"", f"{quoting.shown(path)}: {streams.why(fault)}\n")
