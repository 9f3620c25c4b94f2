"""Runs the tests of a suite, prints a line for each, once more the lines of those that failed, and last
'N passed, M failed'."""
import argparse
import os
import shutil
import tempfile
import time
import traceback
from collections import Counter, namedtuple
from concurrent.futures import ThreadPoolExecutor

import service

ROOT = os.path.dirname(os.path.dirname(os.path.abspath(__file__)))
# How many tests run at once where a suite says nothing else, since most of their time is waiting.
AT_ONCE = 10
MEMORY = "/dev/shm"
# How many characters of what failed are told once more at the end: those at its front name the test, and the last ones
# what was wanted, or the fault and where it was raised.
TOLD, FRONT = 590, 190

# A test: its module's name and its own, as they are printed, its module's name alone, and its function.
Test = namedtuple("Test", "name module function")


class Setting:
    """What a test is given: the program, if there is one, the repository's folder, and a folder of its own."""

    root = ROOT
    # What is told before why a test failed.
    note = ""

    def __init__(self, program, in_memory=False):
        self.given = program
        self.folder = tempfile.mkdtemp(dir=MEMORY if in_memory and os.access(MEMORY, os.W_OK) else None)
        self.journal = self.folder + "/journal"

    @property
    def program(self):
        """Returns the program. Where there is none, the test is left out."""
        if not self.given:
            raise service.LeftOut("no program of lra_cli is up to date, tools/prove lra_cli builds it")
        return self.given

    def serve(self, workers=2, port=None):
        """Returns a service of the program, of the test's journal."""
        return service.Service(self.program, self.journal, workers, port)

    def run(self, *words):
        """Runs the program to its end."""
        return service.run(self.program, *words)


def shortened(text):
    """Returns a text on one line, without its middle where it is long."""
    line = " ".join(text.split())
    return line if len(line) <= TOLD else f"{line[:FRONT]} [..] {line[len(line) - TOLD + FRONT + 6 :]}"


class Tally:
    """Counts of what tests came to, by the word for it, and the lines of those that failed."""

    def __init__(self, suite):
        self.suite = suite
        self.counts = Counter()
        self.failures = []

    def add(self, came, told):
        """Counts a test, and prints its line."""
        self.counts[came] += 1
        line = f"{came}: {told}"
        print(line, flush=True)
        if came == "failed":
            self.failures.append(shortened(line))

    def end(self):
        """Prints what failed once more, a line each, and the last line. Returns the status. Where processes are left,
        that is one more failure."""
        left = service.left_over()
        if left:
            self.add("failed", f"processes are left: {left}")
        # At once, so that nothing that a thread tells of its end comes in between.
        last = f"{self.suite}: {self.counts['passed']} passed, {self.counts['failed']} failed"
        print("\n".join([*self.failures, last]), flush=True)
        return 1 if self.counts["failed"] else 0


def words(doc):
    """Returns a parser of the words that each suite takes. Its description is the first line of DOC, up to a colon."""
    parser = argparse.ArgumentParser(description=doc.split(":", maxsplit=1)[0])
    parser.add_argument("program", nargs="?")
    parser.add_argument("--only", default="")
    return parser


def tests(modules):
    """Yields the tests of the modules, in the order in which they are written."""
    for module in modules:
        for name, function in list(vars(module).items()):
            if name.startswith("test_"):
                yield Test(f"{module.__name__}: {name[5:].replace('_', ' ')}", module.__name__, function)


def result(test, setting_of):
    """Runs a test. Returns what came of it, how long it took, its figures, and why it didn't pass."""
    begun = time.monotonic()
    setting = setting_of(test.module)
    came, why, figures = "passed", "", ""
    try:
        figures = test.function(setting) or ""
    except service.LeftOut as it:
        came, why = "left out", f": {it}"
    except AssertionError as it:
        came, why = "failed", f": {setting.note}{it}"
    except Exception as it:  # whatever it is, the test has failed
        came, why = "failed", f": {setting.note}{it!r}\n{traceback.format_exc()}"
    shutil.rmtree(setting.folder, ignore_errors=True)
    return came, f"{time.monotonic() - begun:.1f} s{figures and ': ' + figures}{why}"


def results(chosen, setting_of, at_once):
    """Yields what came of each test, in order. Where one runs at once, it does so in this very thread."""
    if at_once == 1:
        yield from (result(it, setting_of) for it in chosen)
        return
    with ThreadPoolExecutor(at_once) as pool:
        yield from pool.map(lambda it: result(it, setting_of), chosen)


def run(suite, modules, only, setting_of, at_once=AT_ONCE):
    """Runs the tests with ONLY in their names, each in what `setting_of` makes for its module. Returns the status.

    ONLY may have underscores, as a function's name has them. Where it is in no name, that is a failure."""
    chosen = [it for it in tests(modules) if only.replace("_", " ") in it.name]
    if not chosen:
        print(f"{suite}: no test has {only} in its name\n{suite}: 0 passed, 1 failed")
        return 1
    tally = Tally(suite)
    for test, (came, told) in zip(chosen, results(chosen, setting_of, at_once)):
        tally.add(came, f"{test.name}, {told}")
    return tally.end()
