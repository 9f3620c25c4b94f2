"""Runs a program, and refuses memory to threads: python3 refusing.py FLAG PROGRAM ARGUMENT..

A thread that begins while there is a file FLAG gets no memory of the system, until that file is gone: its calls mmap,
brk, mprotect and mremap fail (by ptrace, on Linux and x86-64). What it could have of memory that is there already is
kept small: all threads share one heap, and pieces of 32 KiB and more are asked of the system each.
The status is the program's own.
"""
import errno
import os
import sys

sys.dont_write_bytecode = True
ROOT = os.path.dirname(os.path.dirname(os.path.dirname(os.path.abspath(__file__))))
sys.path.append(f"{ROOT}/tools")

import ptrace

MMAP, MPROTECT, BRK, MREMAP = 9, 10, 12, 25
MEMORY = {MMAP, MPROTECT, BRK, MREMAP}
# How the C library takes its memory: one heap, which grows and shrinks by what is wanted, and pieces of their own.
TUNABLES = (
    "glibc.malloc.arena_max=1:glibc.malloc.top_pad=0:glibc.malloc.trim_threshold=4096:glibc.malloc.mmap_threshold=32768"
)


def wants_memory(call, first):
    """Whether a call wants memory of the system; `brk` with nothing asks where the heap ends."""
    return call in MEMORY and not (call == BRK and first == 0)


class Refusals:
    """Has calls fail that want memory. `brk` tells where the heap ends in any case."""

    def __init__(self):
        self.calls = {}
        self.heap = 0

    def refuse(self, thread, call):
        ptrace.withhold(thread)
        self.calls[thread] = (call, True)

    def enters(self, thread, call):
        """A call that isn't refused."""
        if call == BRK:
            self.calls[thread] = (call, False)

    def leaves(self, thread, result):
        call, is_refused = self.calls.pop(thread, (None, False))
        if is_refused:
            ptrace.answer(thread, self.heap if call == BRK else -errno.ENOMEM)
        elif call == BRK:
            self.heap = result


class Refusing:
    """Refuses memory to threads that begin while a file is there."""

    def __init__(self, flag):
        self.flag = flag
        self.lean = {}
        self.refusals = Refusals()

    def enters(self, thread, call, first, _third):
        if thread not in self.lean:
            self.lean[thread] = os.path.exists(self.flag)
        if self.lean[thread] and wants_memory(call, first) and os.path.exists(self.flag):
            self.refusals.refuse(thread, call)
        else:
            self.refusals.enters(thread, call)

    def leaves(self, thread, result):
        self.refusals.leaves(thread, result)


def run(watcher, words):
    """Runs a program that takes its memory so, watched, and answers its status."""
    os.environ["GLIBC_TUNABLES"] = TUNABLES
    return ptrace.follow(ptrace.begin_or_end(words), watcher.enters, watcher.leaves)


if __name__ == "__main__":
    sys.exit(run(Refusing(sys.argv[1]), sys.argv[2:]))
