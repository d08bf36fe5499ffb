"""Writes what the guests saw as vectors. tests/kernel/vectors/README.md says what each section has."""

import json
import os
import re

import vectors
from stacks import concise_of, disks_text, text_of

# Of more places than this the file has the third and the last three.
ALL_PLACES = 80


class Writer:
    """The folder of the vectors, a file for each kind of experiment."""

    def __init__(self, folder):
        self.folder, self.faults = folder, []
        os.makedirs(folder, exist_ok=True)

    def put(self, name, text):
        """Writes a file, in place of the one that may be there."""
        with open(os.path.join(self.folder, name), "w", encoding="utf-8", errors="surrogateescape", newline="") as it:
            it.write(text)

    def put_vector(self, kind, name, sections):
        """Writes a vector into the file of its kind. Sections that can't be told apart in one file are a fault."""
        try:
            vectors.put(self.folder, kind, name, sections)
        except ValueError as why:
            self.faults.append("%s: %s" % (name, why))

    def write(self, job, results):
        """Writes a guest's results; an experiment that has none, or failed, is a fault."""
        parts = {"map": self.write_mappings, "snap": self.write_snapshots, "stores": self.write_stores,
                 "accept": self.write_tables, "groups": self.write_groups, "names": self.write_names, "cuts": self.write_cuts}
        for part, experiments in job.items():
            if part in results:
                parts[part](results[part] if part == "names" else self.done(experiments, results[part]))
            else:
                self.faults.append("%s: it was not run" % part)

    def done(self, experiments, results):
        """The experiments that have results, each with these, by their names."""
        found = {}
        for it in experiments:
            result = results.get(it["name"], {"fault": "it was not run"})
            if "fault" in result:
                self.faults.append("%s: %s" % (it["name"], result["fault"].strip().split("\n")[-1]))
            else:
                found[it["name"]] = (it, result)
        return found

    def write_mappings(self, done):
        for name, (experiment, result) in done.items():
            sections = {**stack_sections(experiment), "kernel-table.txt": result["table"], "kernel-concise.txt": result["concise"],
                        "majmin.txt": "".join("%s %s\n" % it for it in sorted(result["numbers"].items()))}
            if not result["refused"]:
                for section, seen in (("reads.tsv", result["reads"]), ("writes.tsv", result["writes"])):
                    sections[section] = table("device sector lands", landed(seen))
            self.put_vector("mappings", name, {**sections, **message_sections(result)})

    def write_snapshots(self, done):
        for name, (experiment, result) in done.items():
            sections = stack_sections(experiment)
            sections["requests.txt"] = "".join("%s %s %d %d\n" % tuple(it) for it in experiment["requests"])
            if not result["refused"]:
                sections.update(run_sections(experiment, result))
            self.put_vector("snapshots", name, {**sections, **message_sections(result)})

    def write_cuts(self, done):
        for name, (experiment, result) in done.items():
            sections = stack_sections(experiment)
            sections["requests.txt"] = "".join("%s %s %d %d\n" % tuple(it) for it in experiment["requests"])
            sections["events.txt"] = "".join(event_text(*it) + "\n" for it in result["events"])
            self.put_vector("cuts", name, sections)

    def write_stores(self, done):
        head = "case chunk store how create ok_writes last_status_ok status_end fail read0 valid exceptions places dmesg"
        self.put_vector("stores", "store-full", {"cases.tsv": table(head, [store_row(*it) for it in done.values()])})

    def write_tables(self, done):
        lines = []
        for name, (experiment, result) in done.items():
            at, message = result["refused"] or (None, "")
            lines.append({"case": name, "table": text_of(experiment["devices"]), "concise": concise_of(experiment["devices"]),
                          "disks": disks_text(experiment["disks"]), "kernel": "refused" if at else "accepted", "at": at,
                          "message": message, "dmesg": result["messages"], "kernel_table": result["table"]})
        self.put_vector("tables", "accept", {"cases.jsonl": json_lines(lines)})

    def write_names(self, result):
        split = [[name, *out.split("|")] + ([said] if status else []) for name, status, out, said in result["split"]]
        built = [{"vg": group, "lv": volume, "layer": layer, "real": name} for group, volume, layer, name in result["build"]]
        parsed = [{"text": text, "accepted": tree is not None, "tree": tree} for text, tree in result["text"]]
        self.put_vector("names", "splitname", {"splitname.tsv": table("name vg lv layer", split), "build_name.jsonl": json_lines(built)})
        self.put_vector("texts", "lvm-text", {"cases.jsonl": json_lines(parsed)})

    def write_groups(self, done):
        for name, (_, result) in done.items():
            sections = {"commands.txt": "".join(command_text(*it) for it in result["commands"])}
            sections.update((it + ".txt", result[it]) for it in ("table", "concise", "info"))
            sections["majmin.txt"] = "".join("%s %s\n" % it for it in sorted(result["numbers"].items())
                                             if it[1].startswith("/dev/mapper/") or it[0] in result["table"].split())
            sections["probe.tsv"] = table("device sector disk disk_sector", result["probes"])
            for number, (group, texts) in enumerate(result["groups"].items()):
                sections.update((it + ("-" + group if number else "") + ".txt", text or "") for it, text in texts.items())
            if "edits" in result:
                sections.update(edit_sections(*result["edits"]))
            self.put_vector("groups", name, sections)

    def write_versions(self, versions, packages):
        said = "".join(versions[it] for it in ("dmsetup", "targets", "lvm"))
        self.put("versions.txt", "%s\n%s\nDebian packages in the guest:\n%s" % (
            versions["kernel"], said, "".join(it + "\n" for it in sorted(packages))))


def stack_sections(experiment):
    return {"table.txt": text_of(experiment["devices"]), "concise.txt": concise_of(experiment["devices"]),
            "disks.txt": disks_text(experiment["disks"])}


def run_sections(experiment, result):
    """What was seen of each request, and of all disks after the last."""
    steps = list(enumerate(result["steps"], 1))
    starts = {number: experiment["requests"][number - 1][2] for number, _ in steps}
    return {"observed.tsv": table("request what values", observed(steps)),
            "answers.txt": "".join(it for number, step in steps for it in answered(number, starts[number], step)),
            "status-each.txt": "".join("%d\t%s: %s\n" % (number, snapshot, status) for number, step in steps
                                       for snapshot, status in step["status"].items()),
            "final.txt": "".join("%s %d %d = %s\n" % (disk, *it) for disk in sorted(result["final"])
                                 for it in runs(result["final"][disk]))}


def event_text(what, *values):
    """A line of an event: its words, and then, if it is a write or a look, what changed."""
    *words, changed = values if what in ("write", "look") else (*values, [])
    values = {}
    for *of, at, value in changed:
        values.setdefault(" ".join([*of, ""]), []).append((at, value))
    parts = ["%s%d %d %s" % (of, *it) for of, found in values.items() for it in runs(found)]
    return "; ".join([" ".join(map(str, (what, *words))), *parts])


def edit_sections(tested, restored):
    edits = [{"edit": edit, "places": places, "text": text, "status": status, "said": (out + said).strip()}
             for edit, places, text, status, out, said in tested]
    loaded = [{"edit": edit, "text": text, "status": status, "said": said.strip(), "table": tables, "info": info}
              for edit, text, status, said, tables, info in restored]
    return {"edits.jsonl": json_lines(edits), "restored.jsonl": json_lines(loaded)}


def message_sections(result):
    return {"dmesg.txt": "".join(it + "\n" for it in result["messages"])} if result["messages"] else {}


def table(head, rows):
    return "".join("\t".join(map(str, it)) + "\n" for it in [head.split(" "), *rows])


def command_text(command, status, out, said):
    return "$ %s\n%s%s%s" % (command, out, said, "(status %d)\n" % status if status else "")


def json_lines(values):
    return "".join(json.dumps(it) + "\n" for it in values)


def landed(seen):
    """A row for each sector that was read or written, or for a device that couldn't be opened."""
    for device, sectors in seen.items():
        if isinstance(sectors, str):
            yield device, "-", sectors
            continue
        for sector, places in sectors:
            # A label that was read, or the places where one was found that was written.
            yield device, sector, re.sub("^old ", "", places) if isinstance(places, str) else "; ".join(places)


def runs(labels):
    """Start, number and first label of each run of sectors whose labels are the same, or count on."""
    found = []
    for sector, label in labels:
        kind, *rest = label.split(" ")
        if found:
            start, count, first = found[-1]
            after = first.split(" ")
            if kind in ("old", "wrote") and after[0] == kind:
                after[-1] = str(int(after[-1]) + count)
            if sector == start + count and " ".join(after) == label:
                found[-1] = (start, count + 1, first)
                continue
        found.append((sector, 1, label))
    return found


def answered(number, start, step):
    """The lines of what a read gave, in the form of `dmremap replay`."""
    labels = ["error" if it.startswith("error") else it for it in step.get("labels", [])]
    for _, count, label in runs(enumerate(labels, start)):
        yield "%d %s %d\n" % (number, label, count)


def observed(steps):
    """The rows of what was seen of each request: its faults, exceptions, sectors that changed, counters and messages."""
    headers, counts = {}, {}
    for number, step in steps:
        for it in sorted({it for it in step.get("labels", []) if it.startswith("error")}):
            yield number, "read", it
        if "result" in step:
            yield number, "result", step["result"]
            yield from ((number, *it) for it in stored(step, headers, counts))
        for disk, (read, wrote) in sorted(step["io"].items()):
            yield number, "io", "%s read %d wrote %d" % (disk, read, wrote)
        for it in step["messages"]:
            yield number, "dmesg", it


def stored(step, headers, counts):
    """What a write changed: the headers of stores, their exceptions, and sectors of disks."""
    for snapshot, header in step["header"].items():
        if headers.get(snapshot) != header:
            headers[snapshot] = header
            yield "header", "{0} magic={magic:#x} valid={valid} version={version} chunk_size={chunk_size}".format(snapshot, **header)
    for snapshot, taken in step["taken"].items():
        for old, new in taken:
            yield "exception", "%s %d %d %d" % (snapshot, counts.get(snapshot, 0), old, new)
            counts[snapshot] = counts.get(snapshot, 0) + 1
    changed = {}
    for disk, sector, label in step["changed"]:
        changed.setdefault(disk, []).append((sector, label))
    for disk, labels in changed.items():
        for it in runs(labels):
            yield "changed", "%s %d %d = %s" % (disk, *it)


def store_row(experiment, result):
    """A row of a store: how it was made, how many writes were done, and what was seen before and after the one that failed."""
    get = result.get
    places = get("places", [])
    shown = places if len(places) <= ALL_PLACES else places[:3] + places[-3:]
    return [experiment["name"], experiment["chunk"], experiment["len"], experiment["how"], get("created"), get("done", "-"),
            get("last") or "-", get("end", "-"), get("failed") or "-", get("read", "-"), get("valid", "-"),
            len(places) if "places" in result else "-", " ".join(map(str, shown[-4:])) or "-", " | ".join(result["messages"]) or "-"]
