"""Commands that make FILE and DISKS: tables of devices, and the disks that they name."""
