"""python -m rumpsteak WORD .. [FILE]: prints what the program `rumpsteak` prints, and ends with its status.

The text is read from FILE (a last word that has a dot or a slash), or from standard input."""

import os
import sys
from typing import List

from . import ask

USAGE = """Usage: python -m rumpsteak WORD .. [FILE]
  check, explain, verify, migrate, show, project, draw [ROLE], draw --run, improve ROLE, run
A text is read from FILE, or from standard input.
"""


def main(words: List[str]) -> int:
    if words in ([], ["help"], ["--help"]):
        sys.stdout.write(USAGE)
        return 0 if words else 2
    if len(words) > 1 and not words[-1].startswith("-") and ("." in words[-1] or "/" in words[-1]):
        if not os.path.isfile(words[-1]):
            sys.stderr.write("rumpsteak: there is no file %s\n" % words[-1])
            return 66
        with open(words.pop(), "rb") as file:
            data = file.read()
    else:
        data = sys.stdin.buffer.read()
    status, told = ask(*words, text=data)
    sys.stdout.write(told)
    sys.stdout.flush()
    return status


sys.exit(main(sys.argv[1:]))
