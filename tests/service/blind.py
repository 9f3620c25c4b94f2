"""Runs a program, and has a thread that answers connections learn of no more: python3 blind.py PATH PROGRAM ARGUMENT..

Once there is a file at PATH, that is removed, and the next call by which such a thread waits for events fails (by
ptrace, on Linux and x86-64). The status is the program's own.
"""
import contextlib
import ctypes
import errno
import os
import sys

sys.dont_write_bytecode = True
ROOT = os.path.dirname(os.path.dirname(os.path.dirname(os.path.abspath(__file__))))
sys.path.append(f"{ROOT}/tools")

import ptrace

# The calls that wait for events, and how long a thread that answers connections waits where it has nothing to do: no
# other thread waits so long.
WAITS, IDLE = (232, 281), 250


def waits_for(thread):
    """How many milliseconds the call lasts at most with which a thread begins."""
    return ctypes.c_int(ptrace.arguments(thread)[3]).value


def main(path, *words):
    withheld = set()

    def enters(thread, number, *_):
        if number in WAITS and os.path.exists(path) and waits_for(thread) == IDLE:
            with contextlib.suppress(FileNotFoundError):
                os.remove(path)
            ptrace.withhold(thread)
            withheld.add(thread)

    def leaves(thread, _result):
        if thread in withheld:
            withheld.remove(thread)
            ptrace.answer(thread, -errno.EBADF)

    return ptrace.follow(ptrace.begin_or_end(words), enters, leaves)


if __name__ == "__main__":
    sys.exit(main(*sys.argv[1:]))
