"""The partitions of the disks of the machine on which the vectors of volume groups were recorded."""

# Each partition's disk and first sector there.
PARTITIONS = {
    "/dev/sda1": ("/dev/sda", 2048),
    "/dev/sda2": ("/dev/sda", 527360),
    "/dev/nvme0n1p1": ("/dev/nvme0n1", 2048),
    "/dev/nvme0n1p2": ("/dev/nvme0n1", 206848),
}
