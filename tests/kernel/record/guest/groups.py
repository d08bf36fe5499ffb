"""Volume groups that lvm2 makes: its texts, the tables that it loaded, and where written sectors are on the disks."""

import glob
import os
import re
import shutil
import time

from disks import SECTOR, Direct, Disk, length_of
from kernel import load_module, new_messages, remove_all, run

CONFIGURATION = """
devices {{ obtain_device_list_from_udev=0 external_device_info_source="none" use_devicesfile={devicesfile} scan_lvs=0 {filter}}}
activation {{ udev_sync=0 udev_rules=0 verify_udev_operations=0 monitoring=0 raid_fault_policy="warn" }}
{local}global {{ {source}event_activation=0 use_lvmpolld=0 thin_check_executable="" thin_repair_executable="" cache_check_executable=""
 cache_repair_executable="" cache_dump_executable="" thin_dump_executable="" }}
backup {{ backup=1 archive=0 }}
metadata {{ record_lvs_history={history} }}
"""
BACKUPS, DEVICES = "/etc/lvm/backup/", "/etc/lvm/devices/"
TEXT = "/run/text"
# What may be a physical volume, and how many MiB of it are enough for lvm2 to find it by.
VOLUMES = ("sda1", "sda2", "sdb", "sdc", "sdd", "nvme0n1p1", "nvme0n1p2", "vdb", "vdc", "vdd", "vde")
HEAD = 2
# The disks that are looked at for labels: all but the one of some TiB.
DISKS = ("sda", "sdb", "sdc", "nvme0n1", "vdb", "vdc", "vdd", "vde")
# The seconds after which a command is told of.
SLOW = 10
# Sectors that are read at once when disks are looked at.
AT_ONCE = 2048
ZEROS = bytes(AT_ONCE * SECTOR)


def run_group(experiment):
    """Makes a group by its commands, keeps what is said of it, and takes it down again."""
    for it in experiment.get("modules", []):
        load_module(it)
    configure(experiment)
    commands = experiment["commands"]
    for it in VOLUMES:
        if "/dev/" + it in " ".join(commands):
            overwrite("/dev/" + it)
    result, loops = {"commands": []}, []
    for it in commands:
        carry_out(it, experiment, result, loops)
    groups = run(["lvm", "vgs", "--noheadings", "-o", "vg_name"])[1].split()
    result["groups"] = {it: texts(it) for it in groups}
    result.update(reports())
    disks = ["/dev/" + it for it in DISKS if "/dev/" + it in " ".join(commands)] + [it.device for it in loops]
    result["probes"] = probes(result["table"], disks)
    take_down(groups, " ".join(commands), loops)
    return result


def configure(experiment):
    """Writes lvm2's configuration, and forgets what it kept of the groups before."""
    system_id = experiment.get("system_id")
    for it in (BACKUPS, DEVICES):
        shutil.rmtree(it, ignore_errors=True)
        os.makedirs(it)
    with open("/etc/lvm/lvm.conf", "w") as it:
        it.write(CONFIGURATION.format(
            devicesfile=experiment.get("devicesfile", 0), history=experiment.get("history", 0),
            filter='global_filter=["%s"] ' % experiment["filter"] if "filter" in experiment else "",
            local='local { system_id="%s" }\n' % system_id if system_id else "",
            source='system_id_source="lvmlocal" ' if system_id else ""))


def overwrite(disk):
    return run(["busybox", "dd", "if=/dev/zero", "of=" + disk, "bs=1M", "count=%d" % HEAD])


def carry_out(command, experiment, result, loops):
    """Runs a command, or one of the words that aren't a shell's, and keeps what was run and what it printed."""
    word, *rest = command.split()
    if word == "loops":
        loops += [Disk("l%d" % it, int(rest[1]), is_blank=True) for it in range(int(rest[0]))]
    elif word == "edit":
        result["edits"] = edit(rest[0], experiment["edits"])
    elif word == "overwrite":
        status = overwrite(rest[0])[0]
        result["commands"].append(["(the first %d MiB of %s are overwritten with zeros)" % (HEAD, rest[0]), status, "", ""])
    else:
        command = re.sub(r"LOOP(\d+)", lambda it: loops[int(it[1])].device, command)
        begun = time.time()
        result["commands"].append([command] + list(run(command, seconds=90)))
        if time.time() - begun > SLOW:
            print("guest: %.0f s: %s" % (time.time() - begun, command))


def text_of(path):
    """A file's text; none if it isn't there."""
    if not os.path.exists(path):
        return None
    with open(path, encoding="utf-8", errors="surrogateescape", newline="") as it:
        return it.read()


def texts(group):
    """The text that lvm2 keeps of a group, and the one in the metadata area of its first physical volume."""
    if os.path.exists(TEXT):
        os.remove(TEXT)
    volumes = run(["lvm", "pvs", "--noheadings", "-o", "pv_name", "-S", "vg_name=" + group])[1].split("\n")
    there = [it.strip() for it in volumes if it.strip().startswith("/")]
    run(["lvm", "pvck", "--dump", "metadata", "--file", TEXT] + there[:1])
    return {"backup": text_of(BACKUPS + group), "ondisk": text_of(TEXT)}


def reports():
    """The tables that are loaded, and the names of all devices by their numbers."""
    numbers = {os.path.basename(it): "/dev/" + os.path.basename(os.readlink(it)) for it in glob.glob("/sys/dev/block/*")}
    listed = re.findall(r"^(\S+)\t\((\d+:\d+)\)", run(["dmsetup", "ls"])[1], re.M)
    numbers.update({number: "/dev/mapper/" + device for device, number in listed})
    return {"table": run(["dmsetup", "table"])[1], "concise": run(["dmsetup", "table", "--concise"])[1],
            "info": run(["dmsetup", "info", "-c", "-o", "name,uuid,attr,major,minor"])[1], "numbers": numbers}


def take_down(groups, commands, loops):
    if "pvmove" in commands:
        run(["lvm", "pvmove", "--abort"])
    for it in groups:
        if "vgexport" in commands:
            run(["lvm", "vgimport", it])
        if run(["lvm", "vgremove", "-ff", "-y", it])[0]:
            run(["lvm", "vgreduce", "--removemissing", "--force", it])
            run(["lvm", "vgremove", "-ff", "-y", it])
    remove_all()
    for it in loops:
        it.close()
    new_messages()


def edit(group, edits):
    """What `vgcfgrestore --test` says of each edited text of a group, and what lvm2 made of those that are restored."""
    run(["lvm", "vgcfgbackup", "-f", TEXT, group])
    text = text_of(TEXT)
    run(["lvm", "vgchange", "-an", group])
    tried = [edited(text, it) for it in edits]
    tested = [[name, count, changed] + list(restore(group, changed, "--test")) for name, count, changed in tried]
    restored = [[name, changed] + activated(group, changed) for (name, _, changed), it in zip(tried, edits) if it["restored"]]
    activated(group, text)
    run(["lvm", "vgchange", "-ay", group])
    return [tested, restored]


def edited(text, it):
    """The name of an edit, how many places it changed, and the text with it."""
    changed, count = re.subn(it["pattern"], it["new"], text, count=0 if it["everywhere"] else 1)
    return it["name"], count, changed


def restore(group, text, *words):
    with open(TEXT, "w", newline="") as it:
        it.write(text)
    return run(["lvm", "vgcfgrestore", "-y", *words, "-f", TEXT, group], seconds=30)


def activated(group, text):
    """What came of a text that was restored and activated: status, messages, tables, and which devices are read-only."""
    status, out, said = restore(group, text)
    _, active, told = run(["lvm", "vgchange", "-ay", group])
    tables, info = run(["dmsetup", "table"])[1], run(["dmsetup", "info", "-c", "--noheadings", "-o", "name,attr"])[1]
    run(["lvm", "vgchange", "-an", group])
    return [status, out + said + active + told, tables, info]


def probes(table, disks):
    """Writes a label to some sectors of each volume, and looks for it on the disks, whatever the tables say."""
    mark, found, written = b"PROBE-%d " % time.monotonic_ns(), [], []
    for line in table.split("\n"):
        name, colon, rest = line.partition(": ")
        if colon and rest.split()[2] in ("linear", "striped") and not re.search(r"-(real|cow)$|^(luks-abc|mpatha)$", name):
            start, length = map(int, rest.split()[:2])
            write_probes(name, start, length, mark, found, written)
    for it in disks if written else []:
        found += look_for(it, mark, written)
    return sorted(found)


def write_probes(name, start, length, mark, found, written):
    """Labels for the ends of a line and some sectors between them; a sector that can't be written is found at once."""
    sectors = {start, start + 1, start + length // 3, start + length // 2 + 5, start + length - 1}
    try:
        device = Direct("/dev/mapper/" + name, is_written=True)
    except OSError:
        return
    with device:
        for sector in sorted(it for it in sectors if start <= it < start + length):
            try:
                device.write(sector, (mark + b"%d %s %d\n" % (len(written), name.encode(), sector)).ljust(SECTOR, b"."))
                written.append([name, sector])
            except OSError:
                found.append([name, sector, "error", 0])


def look_for(path, mark, written):
    """Each sector of a disk that holds a label: volume, its sector, the disk, and the sector there."""
    size, found = length_of(path), []
    with Direct(path) as disk:
        for start in range(0, size, AT_ONCE):
            block = disk.read(start, min(AT_ONCE, size - start))
            at = -1 if block == ZEROS else block.find(mark)
            while at >= 0:
                _, number, name, sector = block[at:at + SECTOR].split(b"\n", 1)[0].decode().split()
                if at % SECTOR == 0 and written[int(number)] == [name, int(sector)]:
                    found.append([name, int(sector), path, start + at // SECTOR])
                at = block.find(mark, at + 1)
    return found
