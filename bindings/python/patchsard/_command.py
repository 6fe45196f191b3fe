"""The command `patchsard` of a wheel that has the program: it becomes the program."""
import os
import signal
import sys

from patchsard._process import program_beside


def main() -> int:
    program = program_beside()
    if program is None:
        print("patchsard: the program isn't in this package: install a wheel that scripts/package made", file=sys.stderr)
        return 2
    for name in ("SIGPIPE", "SIGXFSZ"):
        # Python ignores them, and what is ignored stays so.
        signal.signal(getattr(signal, name), signal.SIG_DFL)
    try:
        os.execv(program, ["patchsard", *sys.argv[1:]])
    except OSError as error:
        print(f"patchsard: {program} can't be started: {error.strerror}", file=sys.stderr)
        return 2
