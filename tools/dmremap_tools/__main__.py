"""Runs the tools: `python3 -m dmremap_tools`, and the packed file."""

import os
import signal
import sys

# Until a command runs, an interrupt ends the process without a word.
if signal.getsignal(signal.SIGINT) is signal.default_int_handler:
    signal.signal(signal.SIGINT, signal.SIG_DFL)

if sys.version_info < (3, 8):
    sys.stderr.write("dmremap-tools: it needs Python 3.8 or later\n")
    sys.exit(2)

# Paths and texts are UTF-8, or bytes that are none, whatever the locale says.
if sys.getfilesystemencoding().lower() not in ("utf-8", "utf8") and not sys.flags.utf8_mode and sys.executable:
    spec = getattr(sys.modules["__main__"], "__spec__", None)
    again = ["-m", "dmremap_tools"] if spec and spec.name == "dmremap_tools.__main__" else [sys.argv[0]]
    options = ["-X", "utf8"] + ["-I"] * sys.flags.isolated + ["-B"] * sys.dont_write_bytecode
    os.execv(sys.executable, [sys.executable, *options, *again, *sys.argv[1:]])

from dmremap_tools.main import main

main(sys.argv[1:])
