"""python3 -m reference COMMAND ..: the commands of `fixprove`, on one thread.

The words, the lines and the statuses are those of docs/FORMATS.md.
"""

import sys

from .commands import DiskFolder, Program

if __name__ == "__main__":
    status, text = Program(DiskFolder()).run(sys.argv[1:])
    sys.stdout.buffer.write(text.encode("utf-8", "surrogateescape"))
    sys.stdout.buffer.flush()
    sys.exit(status)
