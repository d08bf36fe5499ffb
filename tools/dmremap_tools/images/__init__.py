"""Commands that find everything in a pile of images, and are asked for volumes by name."""
