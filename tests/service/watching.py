"""Services that are watched by one of the scripts beside this one."""
import contextlib
import errno
import os
import sys

import denying
import ptrace
from service import LeftOut


def watched(told):
    """Returns what such a program says. Where the system lets none be watched, the test is left out."""
    if told.startswith(ptrace.REFUSED):
        raise LeftOut(ptrace.REFUSED)
    return told


def denial(call, pattern="", error=errno.EIO):
    """Returns the row of a call that fails with an error, where the pattern is found in its file's name."""
    return f"{call} {error} {pattern}\n"


class Deniable:
    """A service that is denied the calls of some rows, as long as it is."""

    def watch(self, setting):
        """Has the service run by a watcher."""
        self.plain = list(self.words)
        self.rows = f"{setting.folder}/denials"
        self.words[:0] = [sys.executable, denying.__file__, self.rows]

    def first_line(self):
        return watched(super().first_line())

    def deny(self, *rows):
        """Denies these calls, and no others."""
        with open(self.rows + ".new", "w", encoding="utf-8") as it:
            it.writelines(rows)
        os.rename(self.rows + ".new", self.rows)

    def allow(self):
        """Denies nothing any more."""
        os.remove(self.rows)

    def denied(self):
        """Returns the moments at which calls were denied."""
        with contextlib.suppress(FileNotFoundError), open(self.rows + ".denied", encoding="ascii") as it:
            return [float(line) for line in it]
        return []
