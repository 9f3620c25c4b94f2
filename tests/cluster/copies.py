"""A warm copy of a site's folder by rsync: each of its journals is a front of the site's at every moment,
and it can be served."""
import contextlib
import os
import shutil
import subprocess
import time

import journal
from folders import journals_in
from load import Load, audited
from participant import Participant
from parts import PlainSite
from service import PATIENCE, LeftOut, Service, check, equal

BASE = "http://lra.example.com/"
# How often the copy is looked at, and how many seconds the tool rests between two rounds.
LOOKS, REST = 8, 0.2
# Journals roll and are put away while they are copied.
ROLLS = ("--roll-after", "60", "--remember", "1")


class Copying:
    """The tool, while it runs."""

    def __init__(self, setting, site, to):
        self.words = [f"{setting.root}/examples/cluster/copy", site.folder, to, str(REST)]

    def __enter__(self):
        self.process = subprocess.Popen(
            self.words, stdin=subprocess.DEVNULL, stdout=subprocess.DEVNULL, stderr=subprocess.DEVNULL
        )
        return self

    def __exit__(self, *_):
        self.process.terminate()
        self.process.wait(PATIENCE)


def whole_lines(setting, folder, to):
    """The whole lines of each journal of a copy."""
    shutil.rmtree(to, ignore_errors=True)
    for where in (".", "ended"):
        os.makedirs(f"{to}/{where}")
        for name in journals_in(folder, where):
            with contextlib.suppress(FileNotFoundError):
                journal.write(
                    f"{to}/{where}/{name}.journal", journal.whole(journal.read(f"{folder}/{where}/{name}.journal"))
                )
    for name in set(journals_in(to)) & set(journals_in(to, "ended")):
        os.remove(f"{to}/{name}.journal")
    return audited(setting.program, to)


def test_a_copy_that_is_made_once_tells_what_came_of_it(setting):
    if not shutil.which("rsync"):
        raise LeftOut("there is no rsync")
    site, to = setting.folder + "/site", setting.folder + "/copy"
    os.makedirs(site + "/ended")
    names = ["000000000000001.journal", "base", "ended/000000000000000.journal", "given-up", "newest", "restored"]
    for name in names:
        journal.write(f"{site}/{name}", name.encode())
    copy = lambda *words: subprocess.run(
        [f"{setting.root}/examples/cluster/copy", *words, "0"], capture_output=True, check=False
    ).returncode
    equal("the status", copy(site, to), 0)
    equal("what is in it", [it for it in names if os.path.exists(f"{to}/{it}")], names)
    check("a folder that isn't there", copy(setting.folder + "/none", to) != 0)
    check("a place that can't be made", copy(site, setting.folder + "/none/copy") != 0)


def lines_of(folder):
    """The whole lines of each journal of a folder, wherever it is."""
    found = {}
    for where in (".", "ended"):
        for name in journals_in(folder, where):
            found[name] = journal.whole(journal.read(f"{folder}/{where}/{name}.journal"))
    return found


def moment_of(lines):
    """The last moment of a journal's lines."""
    return int(lines.rstrip(b"\n").rpartition(b"\n")[2].split(b" ")[1])


def test_a_copy_is_a_front_at_every_moment_and_can_be_served(setting):
    if not shutil.which("rsync"):
        raise LeftOut("there is no rsync")
    to = setting.folder + "/copy"
    with contextlib.ExitStack() as stack:
        members = [stack.enter_context(Participant()) for _ in range(2)]
        site = stack.enter_context(PlainSite(setting, 1, BASE, ROLLS))
        with Copying(setting, site, to), Load(site.port, members, setting.seed, 4, nests=(False,)) as load:
            journals = 0
            for _ in range(LOOKS):
                time.sleep(0.7)
                journals = max(journals, whole_lines(setting, to, setting.folder + "/whole"))
            site.kill()
            have, lost = lines_of(to), lines_of(site.folder)
            load.stop()
            time.sleep(2)
            after = lines_of(to)
        lag = max(moment_of(lines) - moment_of(have[name]) if name in have else 0 for name, lines in lost.items())
        missing = sum(lines.count(b"\n") - have.get(name, b"").count(b"\n") for name, lines in lost.items())
        equal("what the copy has in the end", after, lost)
        for name, lines in have.items():
            check(f"{name} isn't a front", lost[name].startswith(lines))
    # What a switch to it at that moment would have lost is told by comparing; here nothing is,
    # since the tool has caught up.
    other = Service(setting.program, to)
    other.words[2:2] = ["--site", "1", "--base", BASE]
    with other, other.client() as client:
        client.start()
    audited(setting.program, to)
    return (
        f"{journals} journals at most, {missing} lines and {lag} ms behind when the site was killed; "
        f"{len(lost)} journals in the end"
    )

