"""Keeps one `map` open, and asks it one request after the other. The program is the `dmremap` on the path."""

import os
import subprocess

# In the repository, the first call of dmremap would build and prove the program for half an hour. This forbids it.
ENVIRONMENT = {**os.environ, "DMREMAP_BUILD": "never"}
# The word of a piece that is its length. Copies and fills come before a write, and don't count.
LENGTH = {"R": 4, "W": 4, "zero": 2, "drop": 2, "error": 2}


class Mapper:
    def __init__(self, *words):
        streams = dict.fromkeys(("stdin", "stdout", "stderr"), subprocess.PIPE)
        self.process = subprocess.Popen(["dmremap", "map", *words], **streams, env=ENVIRONMENT, text=True)

    def ask(self, letter, device, start, length):
        """The pieces of one request, each a list of words that begins with the request's number."""
        try:
            print(letter, device, start, length, file=self.process.stdin, flush=True)
        except BrokenPipeError:
            pass  # dmremap has ended, and readline returns nothing
        pieces = []
        while length > 0 or not pieces:
            piece = self.process.stdout.readline().split()
            if not piece:
                self.close()
            pieces.append(piece)
            length -= int(piece[LENGTH[piece[1]]]) if piece[1] in LENGTH else 0
        return pieces

    def close(self):
        """Ends the run, and raises what dmremap says if its status isn't 0."""
        message = self.process.communicate()[1]
        if self.process.returncode != 0:
            raise RuntimeError(f"status {self.process.returncode}, {message.strip()}")


if __name__ == "__main__":
    mapper = Mapper("lvm", "examples/vg0-snapshot.backup")
    for request in ("R", "vg0-snap", 8000, 16), ("W", "vg0-lv0", 8000, 8), ("R", "vg0-snap", 8000, 16):
        print(*mapper.ask(*request), sep="\n")
    try:
        mapper.ask("R", "vg0-lv1", 0, 8)
    except RuntimeError as error:
        print(error)
