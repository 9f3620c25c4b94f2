"""Runs a program, and holds each of its syncs that begins while a file FLAG is there, until it is gone: python3 hung.py
FLAG PROGRAM ARGUMENT..

All other calls of its threads go on (by ptrace, on Linux and x86-64). The status is the program's own.
"""
import os
import signal
import sys
import time

sys.dont_write_bytecode = True
ROOT = os.path.dirname(os.path.dirname(os.path.dirname(os.path.abspath(__file__))))
sys.path.append(f"{ROOT}/tools")

import ptrace

SYNCS = (74, 75)


class Holder:
    """Who holds syncs while a file is there."""

    def __init__(self, flag):
        self.flag = flag
        self.held = []
        self.begins = False

    def enters(self, _thread, number, _first, _third):
        self.begins = number in SYNCS and os.path.exists(self.flag)

    def let_go(self):
        """Lets all syncs go on that are held, once the file is gone."""
        if self.held and not os.path.exists(self.flag):
            for thread in self.held:
                ptrace.libc.ptrace(ptrace.SYSCALL, thread, None, 0)
            self.held = []

    def next_stop(self):
        """The next thread that stops or ends, and how."""
        while True:
            self.let_go()
            thread, status = os.waitpid(-1, ptrace.WALL | (os.WNOHANG if self.held else 0))
            if thread:
                return thread, status
            time.sleep(0.001)

    def follow(self, process):
        """Lets a program go on until it has ended, and answers its status."""
        ptrace.libc.ptrace(ptrace.SYSCALL, process.pid, None, 0)
        while True:
            thread, status = self.next_stop()
            if os.WIFEXITED(status) or os.WIFSIGNALED(status):
                if thread == process.pid:
                    return os.waitstatus_to_exitcode(status)
                continue
            stopped = os.WSTOPSIG(status)
            self.begins = False
            if stopped == ptrace.AT_CALL:
                ptrace.look(thread, self.enters, lambda *_: None)
            if self.begins:
                self.held.append(thread)
                continue
            other = stopped not in (ptrace.AT_CALL, signal.SIGTRAP, signal.SIGSTOP)
            ptrace.libc.ptrace(ptrace.SYSCALL, thread, None, stopped if other else 0)


def main(flag, *words):
    return Holder(flag).follow(ptrace.begin_or_end(words))


if __name__ == "__main__":
    sys.exit(main(*sys.argv[1:]))
