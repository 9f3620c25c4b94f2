"""The crate of tests/units, as `rt try` runs it: in a copy of the crates, since crates.txt has no row of it. Its files
end in .rs, and in .rt in the copy: `rt ci` stops at a .rt file that it doesn't prove."""
import glob
import os
import shutil

ROOT = os.path.dirname(os.path.dirname(os.path.abspath(__file__)))
UNITS = f"{ROOT}/tests/units"
CRATE = "lra_tests"


def row():
    """The row of the crate, as crates.txt would have it."""
    with open(f"{UNITS}/libraries", encoding="utf-8") as it:
        return f"{CRATE}: {' '.join(it.read().split())}\n"


def copy_source(to):
    """Copies the tests' sources to a folder that isn't there yet."""
    shutil.copytree(f"{UNITS}/src", to)
    for path in glob.glob(f"{to}/**/*.rs", recursive=True):
        os.rename(path, path.removesuffix(".rs") + ".rt")


def copy_crates(folder):
    """Copies the sources of all crates and of the tests to a folder. Returns the tests' own folder there."""
    shutil.copy(f"{ROOT}/HANDLES", folder)
    shutil.copytree(f"{ROOT}/crates", f"{folder}/crates", ignore=shutil.ignore_patterns("out", "must-fail"))
    copy_source(f"{folder}/crates/{CRATE}/src")
    with open(f"{ROOT}/crates.txt", encoding="utf-8") as it:
        rows = it.read()
    with open(f"{folder}/crates.txt", "w", encoding="utf-8") as it:
        it.write(rows + row())
    return f"{folder}/crates/{CRATE}"
