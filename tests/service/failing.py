"""Runs a service over a folder, and has one call fail: python3 failing.py FOLDER NUMBER SWITCH PROGRAM ARGUMENT..

Once there is a file SWITCH the calls are counted that write to the folder's files, and that link, rename, remove and
make names: the one with that number finds no room (by ptrace, on Linux and x86-64). Writes to a journal that had its
name before don't count. SWITCH gets a line for each call. The status is the program's own.
"""
import errno
import os
import sys

sys.dont_write_bytecode = True
ROOT = os.path.dirname(os.path.dirname(os.path.dirname(os.path.abspath(__file__))))
sys.path.append(f"{ROOT}/tools")

import ptrace

WRITE = 1
# rename, mkdir, link and unlink, and the same at a folder's handle.
NAMING = {82, 83, 86, 87, 258, 263, 264, 265, 316}


class Failing:
    """Counts calls from when there is a switch on, and has one of them fail."""

    def __init__(self, folder, number, switch):
        self.folder, self.number, self.switch = folder, number, switch
        self.before = None
        self.count = 0
        self.failing = None

    def counts(self, thread, call, first):
        """Whether a call is one of those that are counted."""
        if call != WRITE:
            return call in NAMING
        path = ptrace.file_of(thread, first) or ""
        return path.startswith(self.folder) and path not in self.before

    def enters(self, thread, call, first, _third):
        if call not in NAMING and call != WRITE or self.before is None and not os.path.exists(self.switch):
            return
        if self.before is None:
            self.before = {f"{self.folder}/{name}" for name in os.listdir(self.folder) if name.endswith(".journal")}
        if self.counts(thread, call, first):
            self.count += 1
            with open(self.switch, "a", encoding="ascii") as it:
                it.write(f"{call}\n")
            if self.count == self.number:
                ptrace.withhold(thread)
                self.failing = thread

    def leaves(self, thread, _):
        if thread == self.failing:
            ptrace.answer(thread, -errno.ENOSPC)
            self.failing = None


def main(folder, number, switch, *words):
    failing = Failing(folder, int(number), switch)
    return ptrace.follow(ptrace.begin_or_end(words), failing.enters, failing.leaves)


if __name__ == "__main__":
    sys.exit(main(*sys.argv[1:]))
