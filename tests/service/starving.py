"""Runs a service, and refuses memory once: python3 starving.py FOLDER NUMBER SWITCH PROGRAM ARGUMENT..

Once there is a file SWITCH the calls are counted that want memory of the system: the one with that number fails, and so
do those that its thread makes right behind it, since the C library tries another way where one fails (by ptrace, on
Linux and x86-64). SWITCH gets a line for each call. The status is the program's own.
"""
import os
import sys

sys.dont_write_bytecode = True

import refusing


class Starving:
    """Counts calls that want memory from when there is a switch on, and has one of them fail."""

    def __init__(self, number, switch):
        self.number, self.switch = number, switch
        self.is_on = False
        self.count = 0
        self.lean = None
        self.refusals = refusing.Refusals()

    def is_refused(self, thread):
        """Counts a call, and tells whether it fails."""
        self.is_on = self.is_on or os.path.exists(self.switch)
        if not self.is_on:
            return False
        self.count += 1
        with open(self.switch, "a", encoding="ascii") as it:
            it.write(f"{self.count}\n")
        if self.count == self.number:
            self.lean = thread
        return thread == self.lean

    def enters(self, thread, call, first, _third):
        wants = refusing.wants_memory(call, first)
        if thread == self.lean and call not in refusing.MEMORY:
            self.lean = None
        if wants and self.is_refused(thread):
            self.refusals.refuse(thread, call)
        else:
            self.refusals.enters(thread, call)

    def leaves(self, thread, result):
        self.refusals.leaves(thread, result)


if __name__ == "__main__":
    sys.exit(refusing.run(Starving(int(sys.argv[2]), sys.argv[3]), sys.argv[4:]))
