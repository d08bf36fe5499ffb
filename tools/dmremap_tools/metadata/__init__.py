"""Commands that find and mend metadata of LVM."""
