"""How a command says that it has no answer."""


# The status of an answer with gaps, each of which was told.
INCOMPLETE = 4


class Refusal(Exception):
    """There is no answer: `where` is a file, perhaps with a line, or what was asked; `why` is in words."""

    def __init__(self, where: str, why: str) -> None:
        super().__init__("%s: %s" % (where, why))
        self.where, self.why = where, why


class OutputFailed(Exception):
    """An output didn't take all that was written."""


class WrongWords(Exception):
    """The words of the command line make no sense: why, and perhaps how they are used, in lines."""

    def __init__(self, reason: str, usage: str = "") -> None:
        super().__init__(reason)
        self.usage = usage
