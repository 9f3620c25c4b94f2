"""The plain auditor of tools/plain_audit.rs, as the tools build and ask it."""
import os
import re
import shutil
import subprocess
import sys

SOURCE = f"{os.path.dirname(os.path.abspath(__file__))}/plain_audit.rs"
FAULT = re.compile(rb"unsound line (\d+) (\w+)\n")
# Sound addresses that it doesn't take, and ones that it takes.
ADDRESSES = {
    b"http://[::1]:99/p?q=1#f": b"http://c.test:99/p?q=1",
    b"http://b.test/x%20y": b"http://127.0.0.1:8081/x-y",
    b"http://u:p@h.test/": b"http://h.test/",
}


def build(tool, folder):
    """Its program, in a folder. Where it can't be built, the tool says so, and ends with status 2."""
    program = f"{folder}/plain_audit"
    words = ["rustc", "--edition", "2024", "-O", SOURCE, "-o", program]
    if not shutil.which("rustc") or subprocess.run(words, check=False).returncode != 0:
        print(f"{tool}: rustc doesn't build {SOURCE}", file=sys.stderr)
        sys.exit(2)
    return program


def in_plain_form(journal):
    """The journal with addresses that it takes in place of those that the repository's journals have."""
    for address, plain in ADDRESSES.items():
        journal = journal.replace(address, plain)
    return journal


def agrees(said, also):
    """Whether it says the same of a journal as another auditor, or stops at an address whose form it doesn't take,
    not after a fault."""
    fault, own = FAULT.fullmatch(said), FAULT.fullmatch(also)
    if said == also or not own or own[2] != b"uncommon":
        return said == also
    return not fault or int(fault[1]) > int(own[1]) or (fault[1], fault[2]) == (own[1], b"addresses")
