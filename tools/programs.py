#!/usr/bin/env python3
"""Finds the built programs that the tools run: tools/programs.py TOOL CRATE [PROGRAM]

Prints where the program of a crate lies that is up to date, or the one that is given. Where there is none, it says so
in the name of the tool, and ends with status 2.
"""
import os
import subprocess
import sys

LAUNCH = os.path.join(os.path.dirname(os.path.abspath(__file__)), "launch")


def find(crate):
    """Finds a crate's program that is up to date, if there is one."""
    words = [LAUNCH, "--where", crate]
    ran = subprocess.run(words, stdout=subprocess.PIPE, stderr=subprocess.DEVNULL, text=True, check=False)
    return ran.stdout.rstrip("\n") if ran.returncode == 0 else None


def choose(tool, crate, given=None):
    """Takes the program that is given, or else the crate's. Where there is none, says so, and ends with status 2."""
    program = os.path.abspath(given) if given else find(crate)
    if program and os.access(program, os.X_OK):
        return program
    why = f"{given} is no program" if given else f"no program of {crate} is up to date, tools/prove {crate} builds it"
    print(f"{tool}: {why}", file=sys.stderr)
    sys.exit(2)


if __name__ == "__main__":
    if len(sys.argv) not in (3, 4):
        sys.exit(__doc__)
    print(choose(*sys.argv[1:]))
