"""Refusals for want of memory: none is made up.

No contract can say that a growth was really refused, so a body that gives up of its own accord is
proved like any other. This reads the sources of all crates for the places that make such a refusal,
and holds them against the table below: each says what was asked there, to the letter and with the
numbers of its constants, and why only a growth that was refused lets it fail. What only hands a
refusal on, as `?`, an arm for one and an `if let` do, makes none."""

import glob
import os
import re

from harness import text_of

# A growth of std or of `indexmap`: it fails only where the allocator refuses it.
STD = "a growth of the kit's"
# A function of this repository whose error is `AllocError`: it hands one on, or stands here itself.
OURS = "a function whose only error is that of a growth"

# The module and the function of each place, what was asked there with the arm of a match that it is, and why that
# was a refused growth.
PLACES = {("dm_map/pieces/piece_list", "piece", "self.pieces.push(piece), at Err(_)"): STD,
    ("dm_map/state/trie_taken", "for_chunks", "count > 1 << 23"):
        "none: so many places are refused as too much memory; a load allows 4,194,304",
    ("dm_replay/playback", "play_front", "mapper.request(request, device, &mut halting), at Err(_)"):
        "where the sink did not stop at the last unit asked for, its error is that of a growth",
    ("dm_replay/playback", "play_request", "mapper.request(request, device, player), at Err(_)"):
        "its sink's error is that of a growth, and the mapper is going",
    ("dm_replay/playing", "answer", "self.next.checked_add(run.len())"):
        "none: no request comes there, since it is played from 2^50 at most, and for 1,048,576 sectors at most",
    ("dm_replay/replay", "halt", "keep(&mut writes, request.op, write)"): OURS,
    ("dm_replay/replay", "halt", "play_front(alloc, mapper, player, request, device, units)"): OURS,
    ("dm_replay/replay", "halt", "rerun(alloc, stack, &writes)"): OURS,
    ("dm_replay/replay", "new", "Mapper::new(alloc, stack.looker()), at Err(_)"): OURS,
    ("dm_replay/replay", "go_on", "stack.tops(alloc)"): OURS,
    ("dm_replay/replay", "refuse_clash", "stack.tidy(alloc), at Err(_)"): OURS,
    ("dm_replay/replay", "request_of", "keep(&mut self.writes, request.op, write)"):
        OURS + ": the push of a write that was played",
    ("dm_replay/replay", "request_of", "play_request(alloc, &mut self.mapper, &mut self.player, request, device)"): OURS,
    ("dm_replay/value_runs", "add", "last.len().checked_add(run.len())"):
        "none: no run comes there, since it has no more sectors than a request has, 1,048,576",
    ("dm_stack/checks/faults", "or_out_of_memory", "made, at Err(_)"): "its argument's only error is that of a growth",
    ("dm_stack/checks/faults", "out_of_memory", ""): "the fault itself, for those that answer it",
    ("dm_stack/names/name_index", "add", "self.names.insert(name), at Err(_)"): STD,
    ("dm_stack/checks/names", "index_of", "NameIndex::new(alloc, list.len())"): OURS,
    ("dm_stack/checks/names", "index_of", "names.add(alloc, item.name()), at Err(_)"): OURS,
    ("dm_table/tables/concise_text", "parse_concise", "parts_of(alloc, text), at Err(_)"): OURS,
    ("dm_table/tables/concise_text", "read_parts", "read_devices(alloc, parts), at Err(_)"): OURS,
    ("dm_table/tables/line_body", "read_columns", "columns.push(Column { to, offset }), at Err(_)"): STD,
    ("dm_store/image_list", "listed_images", "places_in(alloc, stack, paths), at Err(_)"): OURS,
    ("dm_table/load/load_fault", "memory", ""): "the fault itself, for those that answer it",
    ("dm_table/load/part_input", "read_part", "text.extend_from_slice(&chunk[..n]).is_err()"): STD,
    ("dm_table/load/reading", "read_rows", "read_each::<T>(alloc, part, text), at Err(_)"): OURS,
    ("dm_table/load/text_checks", "check_pieces", "cut(alloc, at, text)"): OURS,
    ("dmremap/images_load", "stopped", "fault == HeadFault::Memory"): "the fault of a head whose text a growth had no room for",
    ("dmremap/images_load", "stopped", "paths.get(disk), at None"):
        "none: the disk that a head or a text refuses is one of the list",
    ("dmremap/main", "begin", "!has_stack_room(rt)"): "the limit of the stack is lower than what the program may take",
    ("dmremap/prepared", "begin", "prepare(alloc, stack), at Err(_)"): OURS,
    ("dmremap/printing", "print_parts", "spaced_parts(alloc, name), at Err(_)"): OURS,
    ("dmremap/printing", "print_report", "check_report(alloc, stack), at Err(_)"): OURS,
    ("dmremap/replay_run", "replay_stack", "Replay::go_on(alloc, stack, mapper), at Err(_)"):
        "claims that meet have an arm of their own, and by its contract it fails for nothing else",
    ("lvm_volume/checks/extents", "check_extents", "maps_of(alloc, physicals.len())"): OURS,
    ("lvm_volume/checks/extents", "check_segments", "is_misplaced(physicals, maps, end, segment)"): OURS,
    ("lvm_volume/checks/segment_check", "check_snapshots", "roles_of(alloc, volumes)"): OURS,
    ("lvm_volume/tables/device_names", "name_of", "built_name(alloc, group, volume, layer), at Err(_)"):
        "a name is built of these parts, as is required, and then it fails only for a growth",
    ("lvm_volume/names", "build_name", "joined(alloc, vg, lv, layer)"): OURS,
    ("lvm_volume/group/group_fields", "physicals_of", "sections_of(alloc, section)"): OURS,
    ("lvm_volume/group/group_fields", "read_fields", "sections_of(alloc, top)"): OURS,
    ("lvm_volume/group/group_fields", "volumes_of", "GroupPositions::new(alloc, physicals, section)"): OURS,
    ("lvm_volume/group/group_fields", "volumes_of", "sections_of(alloc, section)"): OURS,
    ("lvm_volume/group/physical", "fields_in", "Vec::with_capacity(alloc, sections.len())"): STD,
    ("lvm_volume/group/physical", "fields_in", "all.push(fields)"): STD,
    ("lvm_volume/group/physical", "named_physicals", "Vec::with_capacity(alloc, all.len())"): STD,
    ("lvm_volume/group/physical", "named_physicals", "counts_of(alloc, all)"): OURS,
    ("lvm_volume/group/physical", "named_physicals", "physicals.push(physical)"): STD,
    ("lvm_volume/group/positions", "add_key", "keys.insert(key), at Err(_)"): STD,
    ("lvm_volume/group/segment", "segments_in", "Vec::with_capacity(alloc, sections.len())"): STD,
    ("lvm_volume/group/segment", "segments_in", "segments.push(segment)"): STD,
    ("lvm_volume/group/segment", "stripes_at", "stripes_of(alloc, positions, items), at Err(_)"): OURS,
    ("lvm_volume/group/volume", "segment_sections", "put_segment_key(&mut key, i + 1)"): OURS,
    ("lvm_volume/group/volume", "segment_sections", "sections.push(section)"): STD,
    ("lvm_volume/group/volume", "volume_of", "Key::new(alloc, key)"): OURS,
    ("lvm_volume/group/volume", "volumes_in", "Vec::with_capacity(alloc, sections.len())"): STD,
    ("lvm_volume/group/volume", "volumes_in", "volumes.push(volume)"): STD,
    ("lvm_volume/fields/source_line", "memory_fault", ""): "the fault itself, for those that answer it",
    ("lvm_volume/owned_metadata", "owned_tables", "physicals_of(alloc, top)"): OURS,
    ("lvm_volume/owned_metadata", "owned_tables", "ids_of(alloc, &physicals)"): OURS,
    ("lvm_volume/owned_metadata", "owned_tables", "owned_group(alloc, owners, &ids, group)"): OURS,
    ("lvm_volume/tables", "tables", "devices_of(alloc, &group, &roles)"): OURS,
    ("lvm_volume/tables", "tables", "disks_of(alloc, &self.physicals)"): OURS,
    ("lvm_volume/tables", "tables", "roles_of(alloc, &self.volumes)"): OURS,
    ("lvm_volume/volume_group", "read", "Key::new(alloc, fields.name)"): OURS,
}

# A refusal as a value. In a type it is followed by `>`, or stands after a colon or an equals sign.
MADE = re.compile(r"(?<!== )\b\w+::(?:Memory|OutOfMemory)\b|\bLoadFault::memory\(|\bmemory_fault\(|\bout_of_memory\(|(?<!: )(?<!= )(?<!<)\bAlloc(?:Error|Failed)\b(?![>;<])")
FUNCTION = re.compile(r" *(?:pub(?:\(\w+\))? )?fn (\w+)")
# What is asked before a place is come to, and the line on which it begins.
ASKED = re.compile(r"(?:let \w+\(.*?\) = |(?:let [\w {},]+ = )?match |if |while )(.+?)(?: else)? \{$")
ASKS = re.compile(r" *(?:let \w+\(.*?\) = |(?:let [\w {},]+ = )?match |if |while )")
# The pattern of a line and what is done, or looked at, there.
HANDED = re.compile(r" *if let (.+?) = (.*)")
ARM = re.compile(r"(?:(.*)=>)?(.*)")
CONSTANT = re.compile(r"^ *(?:pub(?:\(\w+\))? )?const (\w+): [^=]+= ([^;]+);", re.M)
# Lines that are no code, and uses, which may name no refusal by another name.
ASIDE = re.compile(r" *(?:ghost|requires|ensures|(?:pub )?use)\b")
# A pattern for a refusal and for something else: what is done there isn't done for want of memory alone.
MIXED = re.compile(r"\s\|\s+(?:\w+::)*(?:Memory|OutOfMemory)\b|\b(?:Memory|OutOfMemory)(?:\([^()]*\))?\s+\|\s")
RENAMED = re.compile(r"^ *(?:pub )?use .*(?:\bMemory\b|\bAlloc(?:Error|Failed) as\b)", re.M)


def test_sources(tally, top):
    sources = sorted(glob.glob(os.path.join(top, "crates", "*", "src", "**", "*.rt"), recursive=True))
    sources = [it for it in sources if not re.search("tests|fixtures", os.path.relpath(it, top))]
    constants = {it.split("/src/")[0]: {} for it in sources}
    for it in sources:
        constants[it.split("/src/")[0]].update(CONSTANT.findall(text_of(it)))
    made = [place for it in sources
            for place in places_in(module_of(it), text_of(it).split("\n"), constants[it.split("/src/")[0]])]
    for place in made:
        tally.holds("out of memory in %s, %s" % place[:2], place in PLACES, "by %r, which no row explains" % place[2])
    lost = [place for place in PLACES if made.count(place) != 1]
    tally.holds("places that are out of memory", not lost, "not there, or not as often: %s" % lost)
    mixed = [module_of(it) for it in sources if MIXED.search(re.sub(r"//.*", "", text_of(it)))]
    tally.holds("patterns for refusals have nothing else", not mixed, "others in %s" % ", ".join(mixed))
    renamed = [module_of(it) for it in sources if RENAMED.search(text_of(it))]
    tally.holds("refusals have one name", not renamed, "another in %s" % ", ".join(renamed))


def module_of(path):
    crate, module = re.search(r"(\w+)/src/(.*)\.rt$", path).groups()
    return crate + "/" + module


def places_in(module, lines, constants):
    """The places of a source that make a refusal."""
    places, function, owner = [], "", ""
    for at, line in enumerate(lines):
        code = line.split("//")[0]
        function = (FUNCTION.match(code) or [None, function])[1]
        owner = code if code[:1].strip() else owner
        pattern, value = (HANDED.match(code) or ARM.match(code)).groups()
        handed_on = MADE.search(pattern or "") or re.search(r"\bFrom<Alloc", owner)
        if not ASIDE.match(code) and not FUNCTION.match(code) and MADE.search(value) and not handed_on:
            asked = re.sub(r"\b[A-Z][A-Z0-9_]+\b", lambda it: constants.get(it[0], it[0]), asked_before(lines, at))
            if not (asked.startswith("let ") and MADE.search(asked.partition(" = ")[0])):
                places.append((module, function, asked))
    return places


def asked_before(lines, at):
    """What the nearest question asks that a line lies under, in its function, and which of its arms the line is in."""
    depth, arm = depth_of(lines[at]), arm_of(lines[at])
    for above in reversed(range(at)):
        line = lines[above]
        if line.strip() and depth_of(line) < depth:
            if FUNCTION.match(line):
                return ""
            if ASKS.match(line):
                return question(lines[above:]) + arm
            arm = arm_of(line) or arm
            # An `else` belongs to a question that is as deep.
            depth = depth_of(line) + line.strip().endswith("else {")
    return ""


def question(lines):
    """What is asked by the lines up to the one that opens a block."""
    asked = ""
    for line in lines:
        asked += (" " if asked else "") + line.split("//")[0].strip()
        if asked.endswith("{"):
            break
    return (ASKED.match(asked) or [None, asked])[1]


def arm_of(line):
    """The arm that a line begins, as it is told after a question."""
    if line.strip() == "} else {":
        return " else"
    pattern, arrow, value = line.split("//")[0].partition(" =>")
    return ", at " + pattern.strip() if arrow else ""


def depth_of(line):
    return len(line) - len(line.lstrip())
