"""Refuses a service one of its allocations: the one with a number, counted from when that is switched on. Or all those
of a thread, for a while."""
import functools
import os
import shutil
import struct
import subprocess
import tempfile
import threading

from service import LeftOut

SOURCE = os.path.join(os.path.dirname(os.path.abspath(__file__)), "allocations.c")
# Four numbers: whether allocations are counted, which is refused, how many were counted,
# and the thread that is refused each.
SHARED = struct.Struct("=QQQQ")
lock = threading.Lock()


@functools.cache
def library():
    """The library that a program loads first, built once. Its folder goes with the process."""
    if not shutil.which("cc"):
        raise LeftOut("no C compiler")
    folder = tempfile.TemporaryDirectory(prefix="allocations-")
    path = f"{folder.name}/allocations.so"
    subprocess.run(["cc", "-O1", "-fno-builtin", "-fPIC", "-shared", "-o", path, SOURCE], check=True)
    return path, folder


class Allocations:
    """The allocations of a service, in a file that it shares."""

    def __init__(self, path):
        self.path = path
        self.write(0, 0)

    def write(self, is_on, refused, thread=0):
        with open(self.path, "r+b" if os.path.exists(self.path) else "wb") as it:
            it.write(SHARED.pack(is_on, refused, 0, thread))

    def words(self):
        """The words with which the program is begun."""
        with lock:
            path, _ = library()
        return ("env", f"LD_PRELOAD={path}", f"REFUSED={self.path}")

    def refuse(self, number):
        """Counts from now on, and refuses the one with this number; none for 0."""
        self.write(1, number)

    def starve(self, thread):
        """Refuses a thread each allocation from now on; none for 0."""
        self.write(int(thread != 0), 0, thread)

    def counted(self):
        """How many were counted. Where none was, the program has an allocator of its own, and the test is left out."""
        with open(self.path, "rb") as it:
            count = SHARED.unpack(it.read(SHARED.size))[2]
        if not count:
            raise LeftOut("an allocator that can be refused")
        return count
