"""Loads a server by wrk, as Debian's package of that name has it."""
import re
import subprocess
import tempfile
from collections import namedtuple

# What a load came to: requests a second, and the median and 99th percentile of their times in milliseconds.
Load = namedtuple("Load", "rate median last")
UNITS = {"us": 0.001, "ms": 1.0, "s": 1_000.0}


class Unwell(Exception):
    """A request wasn't answered well, or none was answered."""


def run(address, connections, seconds, script="", threads=2, **keys):
    """Loads a server over kept connections, each request after the reply before, as wrk's script says. The other keys
    are those of `subprocess.run`."""
    with tempfile.NamedTemporaryFile("w", suffix=".lua") as file:
        file.write(script)
        file.flush()
        words = ["wrk", "--latency", f"-t{min(connections, threads)}", f"-c{connections}", f"-d{seconds}"]
        ran = subprocess.run([*words, "-s", file.name, address], capture_output=True, text=True, check=False, **keys)
    if ran.returncode or "Non-2xx" in ran.stdout or "Socket errors" in ran.stdout:
        raise Unwell(ran.stdout + ran.stderr)
    rate = float(re.search(r"Requests/sec:\s*([0-9.]+)", ran.stdout)[1])
    if not rate:
        raise Unwell("nothing was answered")
    return Load(rate, *(percentile(ran.stdout, percent) for percent in (50, 99)))


def percentile(told, percent):
    """Reads a percentile of what wrk tells, in milliseconds."""
    value, unit = re.search(rf"^ +{percent}% +([0-9.]+)(us|ms|s)$", told, re.M).groups()
    return float(value) * UNITS[unit]
