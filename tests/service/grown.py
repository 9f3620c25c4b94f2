"""Runs a service on a journal that gets longer by a hole once it was read:
python3 grown.py LENGTH FILE PROGRAM ARGUMENT..

The program takes its address after it has read FILE, and before it looks how long FILE is: in between FILE gets LENGTH
bytes (by ptrace, on Linux and x86-64). So what it adds stands behind so many bytes, and nobody has to read them.
SIGTERM ends the program, and then this one.
"""
import os
import signal
import sys

sys.dont_write_bytecode = True
ROOT = os.path.dirname(os.path.dirname(os.path.dirname(os.path.abspath(__file__))))
sys.path.append(f"{ROOT}/tools")

import ptrace

BIND = 49


def main(length, file, *words):
    def enters(_thread, number, _first, _third):
        if number == BIND:
            os.truncate(file, int(length))

    process = ptrace.begin_or_end(words)
    # (Popen.kill looks first whether the process has ended, and so may take a stop that `follow` waits for)
    signal.signal(signal.SIGTERM, lambda *_: os.kill(process.pid, signal.SIGKILL))
    return ptrace.follow(process, enters, lambda *_: None)


if __name__ == "__main__":
    sys.exit(main(*sys.argv[1:]))
