"""What all folders use: words, streams and texts, and how dmremap is asked."""

from dmremap_tools.base.numbers import SECTOR
from dmremap_tools.base.refusal import INCOMPLETE, Refusal, WrongWords

__all__ = ["INCOMPLETE", "SECTOR", "Refusal", "WrongWords"]
