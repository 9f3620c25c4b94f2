"""Runs a program, and denies it calls while there is a file FLAG: python3 denying.py FLAG PROGRAM ARGUMENT..

Each line of FLAG has the name of a call, the number of the error with which that fails, and a regular expression that
is found in its file's name, where it has one (by ptrace, on Linux and x86-64). FLAG.denied gets a line for each call
that was denied: the moment, by the steady clock. The status is the program's own.
"""
import os
import re
import sys
import time

sys.dont_write_bytecode = True
ROOT = os.path.dirname(os.path.dirname(os.path.dirname(os.path.abspath(__file__))))
sys.path.append(f"{ROOT}/tools")

import ptrace

# The calls by their numbers, and the place of the argument that names the file: a descriptor, a path, or none.
BY_DESCRIPTOR = {1: ("write", 0), 73: ("flock", 0), 74: ("fsync", 0), 75: ("fdatasync", 0), 77: ("ftruncate", 0)}
BY_PATH = {82: ("rename", 1), 83: ("mkdir", 0), 86: ("link", 1), 87: ("unlink", 0), 257: ("openat", 1)}
CALLS = {**BY_DESCRIPTOR, **BY_PATH, 41: ("socket", None)}


class Denying:
    """Watcher that denies the calls that a file has."""

    def __init__(self, flag):
        self.flag = flag
        self.denied = {}

    def rows(self):
        """Returns the call, the error and the expression of each line."""
        try:
            with open(self.flag, encoding="utf-8") as it:
                return [line.split(" ", 2) for line in it.read().splitlines()]
        except FileNotFoundError:
            return []

    def file_of(self, thread, call):
        """Returns the name of the file of the call with which a thread begins."""
        _, place = CALLS[call]
        if place is None:
            return ""
        argument = ptrace.arguments(thread)[place]
        if call in BY_PATH:
            return ptrace.text_at(thread, argument)
        return ptrace.file_of(thread, argument) or ""

    def enters(self, thread, call, _first, _third):
        if call not in CALLS:
            return
        for name, error, pattern in self.rows():
            if name == CALLS[call][0] and re.search(pattern, self.file_of(thread, call)):
                ptrace.withhold(thread)
                self.denied[thread] = -int(error)
                with open(self.flag + ".denied", "a", encoding="ascii") as it:
                    it.write(f"{time.monotonic()}\n")
                return

    def leaves(self, thread, _result):
        if thread in self.denied:
            ptrace.answer(thread, self.denied.pop(thread))


def main(flag, *words):
    denying = Denying(flag)
    return ptrace.follow(ptrace.begin_or_end(words), denying.enters, denying.leaves)


if __name__ == "__main__":
    sys.exit(main(*sys.argv[1:]))
