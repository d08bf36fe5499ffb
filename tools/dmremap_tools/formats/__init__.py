"""What stands on disks and in images, byte by byte: which format it is, and what it says."""
