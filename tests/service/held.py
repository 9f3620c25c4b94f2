"""Runs a program, and holds it for some seconds as it begins to read a file in pieces:
python3 held.py SECONDS LENGTH PROGRAM ARGUMENT..

It is held at its first reading of up to LENGTH bytes (by ptrace, on Linux and x86-64). The status is the program's own.
"""
import os
import sys
import time

sys.dont_write_bytecode = True
ROOT = os.path.dirname(os.path.dirname(os.path.dirname(os.path.abspath(__file__))))
sys.path.append(f"{ROOT}/tools")

import ptrace

READ = 0


def main(seconds, length, *words):
    left = [float(seconds)]

    def enters(_thread, number, _first, third):
        if number == READ and third == int(length) and left:
            time.sleep(left.pop())

    return ptrace.follow(ptrace.begin_or_end(words), enters, lambda *_: None)


if __name__ == "__main__":
    sys.exit(main(*sys.argv[1:]))
