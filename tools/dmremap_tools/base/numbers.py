"""Whole numbers of sectors and bytes, exact up to 2^64."""

import argparse
import re
from typing import Optional

from dmremap_tools.base import quoting

SECTOR = 512
# The greatest sector that dmremap takes the end of a device for.
LONGEST_DEVICE = 1 << 50
LIMIT = 1 << 64
# As dmremap reads numbers: without a sign and without zeros in front. Longer ones are none, whatever they say.
FORM = re.compile("0|[1-9][0-9]{0,19}")
# The same where it is short enough to be below 2^64 in any case, for forms of lines that are read many at once.
SHORT = "(0|[1-9][0-9]{0,17})"
NO_NUMBER = "give a whole number below 2^64, and not '%s'"


def read(text: str) -> Optional[int]:
    """The number that a text says, or None if it isn't a whole number below 2^64."""
    value = int(text) if FORM.fullmatch(text) else LIMIT
    return value if value < LIMIT else None


def word(text: str) -> int:
    """The same for a word of a command line."""
    value = read(text)
    if value is None:
        raise argparse.ArgumentTypeError(NO_NUMBER % quoting.shown(text))
    return value
