"""The promises, and what a reader of one has to read, in an order to read it in."""

from definitions import ELSEWHERE

DEFINITIONS = ("definition", "record", "data")
PRELUDE = "Rattle.std.specs.Prelude."

# Definitions with a promise of their own, which is where they are read: another promise only names them, unless
# all of it is asked for.
OWN_PROMISE = {"PartsGive": "load", "IsSound": "stack", "AreLevelsEnough": "mapper"}

# Each promise: what it is called here, the functions whose contracts make it, and what it says. A type stands for
# its functions and for the traits that it implements.
PROMISES = [
    ("map", ["map_whole"], "what `map` reads, writes and tells"),
    ("before", ["map_stored", "play_earlier"], "the same after earlier requests"),
    ("paths", ["map_stored", "Parts", "listed_images", "check_paths"], "the same from what stores hold"),
    ("images", ["map_stored", "GroupImages", "print_metadata"], "the same of a group in images"),
    ("read", ["other_whole", "Parts", "GroupImages", "write_sectors", "Stop::message"], "the bytes that `read` writes"),
    ("other", ["other_whole", "NoSource"], "the same of the other commands"),
    ("load", ["load"], "what a source and a disk list give"),
    ("words", ["read_words"], "the command line"),
    ("streams", ["Counted", "Gathered", "PartFile"], "real files and streams"),
    ("texts", ["read_part", "parse_table", "parse_concise", "parse_disks", "parse_paths", "parse_request", "front_request",
               "CheckedName::new", "DeviceNameRule", "DiskNameRule"], "texts that are read"),
    ("written", ["write_all", "close", "close_and_tell", "write_table", "write_concise", "write_runs"],
     "texts that are written"),
    ("lvm", ["lvm_text::parse", "one_answer", "end_line", "Section", "text_fault", "VolumeGroup", "parse_metadata",
             "parse_owned"], "LVM2 metadata"),
    ("heads", ["read_heads", "HeadFault::message", "heads_read_back", "sum_of"], "the heads of physical volumes"),
    ("names", ["build_name", "split_name", "undouble", "spaced_parts", "NameFault::message"], "names of LVM2 volumes"),
    ("stack", ["Stack::load", "Stack::depth", "Stack::snapshots", "Stack::into_parts", "Stack::len", "Looker::look", "Looker::len",
               "place_count", "places_are_apart"],
     "stacks, and the line of a sector"),
    ("check", ["Stack::tidy", "Stack::is_top", "Stack::tops", "check_report"], "whether claims meet"),
    ("mapper", ["Mapper", "levels_are_enough"], "units and state of a request"),
    ("taken", ["PlainTaken", "RunTaken", "TrieTaken"], "chunks that a snapshot took"),
    ("stores", ["read_stores", "StoreRefusal::message", "stores_fit", "reads_back", "is_spelled", "stored_states_fit",
                "ReadLog", "MemoryImages"], "the state that stores hold"),
    ("run", ["Lines::next", "handle_requests", "Exchange", "Join", "run"], "lines, pieces, and a run"),
    ("replay", ["other_whole", "Replay"], "what `replay` writes, and the answers of a replay"),
    ("alone", ["tops_are_alone", "play_goes_on", "requests_are_alone", "errors_have_causes", "nothing_is_lost"],
     "each top device alone, and where errors come from"),
    ("restarts", ["lists_are_left", "cuts_are_alone", "restarts", "restarts_go_on"], "what a restart after a power cut finds"),
]


def contracts(sources, promise):
    """The functions and implementations whose contracts make a promise."""
    return [it for name in next(names for called, names, _ in PROMISES if called == promise) for it in named(sources, name)]


def named(sources, name):
    """The function of a name, perhaps behind that of its crate; or all that a type promises."""
    crate, _, rest = name.partition("::")
    found = [it for it in sources.code_items if it.name == name or (it.name == rest and it.crate == crate)]
    found = [it for it in found if it.is_promised] if found[1:] else found
    if found[1:]:
        raise SystemExit("there are %d functions %s" % (len(found), name))
    return found or of_type(sources, name)


def of_type(sources, name):
    """The functions of a type that others may call, and its implementations of traits with what these declare; or the
    implementations of a trait."""
    found = [it for it in sources.code_items if name in it.name.split(" for ")]
    found += [it for it in sources.code_items if it.name.startswith(name + "::") and it.is_promised]
    if not found:
        raise SystemExit("there is no function or type %s" % name)
    return sorted(found, key=lambda it: (it.file, it.line))


def reach(items, follows=lambda item, formats: True):
    """These items and all that they name, and so on, as far as names are followed."""
    found, left = set(), list(items)
    while left:
        item = left.pop()
        if item not in found:
            found.add(item)
            left.extend(it for it, formats in item.uses.items() if follows(it, formats))
    return found


def needed(sources, promise, read_as=None, is_whole=False):
    """What a promise's contracts reach, without themselves and without the laws by which an implementation keeps those
    of its trait; where a format is given, without what only other texts need. What has a promise of its own is
    there only if all is asked for."""
    def follows(item, formats):
        is_here = is_whole or OWN_PROMISE.get(item.name, promise) == promise
        return is_here and item.kind != "law" and (read_as is None or read_as in formats)

    functions = contracts(sources, promise)
    return reach(functions, follows) - set(functions)


def named_only(items):
    """The names among items of what is left to a promise of its own."""
    found = {it.name for it in items}
    return sorted({it.name for item in items for it in item.uses if it.name in OWN_PROMISE} - found)


def counts(items):
    """How many definitions there are among items; how many types, traits and constants; and the lines of both."""
    definitions = sum(it.kind in DEFINITIONS for it in items)
    return definitions, len(items) - definitions, sum(lines_in(it) for it in items)


def lines_in(item):
    return sum(last - first + 1 for first, last in item.parts)


def library_words(items):
    """How many names of the toolchain's prelude items have, and the others of its library."""
    names = {name for it in items for name in it.library if name != ELSEWHERE}
    return sum(it.startswith(PRELUDE) for it in names), sorted({it.rsplit(".", 1)[1] for it in names if not it.startswith(PRELUDE)})


def in_order(sources, items):
    """Items by their files, each after what it names."""
    below = {it: reach([it]) for it in items}
    # Types that name each other have no order among themselves.
    before = {it: {other for other in it.uses if other in below and it not in below[other]} for it in items}
    files = {}
    for it in sorted(items, key=lambda it: (sources.crates.index(it.crate), it.file, it.line)):
        files.setdefault(it.file, []).append(it)
    found, read = [], set()
    while files:
        # A file that can be read to its end comes before one that can't.
        rows = [(file, readable(left, before, read)) for file, left in files.items()]
        file, row = next((it for it in rows if len(it[1]) == len(files[it[0]])), None) or next(it for it in rows if it[1])
        found.append((file, row))
        read.update(row)
        files[file] = [it for it in files[file] if it not in read]
        files = {file: left for file, left in files.items() if left}
    return found


def readable(items, before, read):
    """What of the items can be read one after the other, with nothing else in between."""
    row, read = [], set(read)
    while True:
        item = next((it for it in items if it not in read and before[it] <= read), None)
        if item is None:
            return row
        row.append(item)
        read.add(item)
