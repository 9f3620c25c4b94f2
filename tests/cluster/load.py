"""Clients of a cluster: they start, nest, join and end actions through the proxy, and note what they were told."""
import http.client
import json
import random
import subprocess
import threading
import time
from collections import Counter

import journal
from folders import journals_in
from service import PATIENCE, Reply, check, equal, id_of

# How many seconds a client repeats a request that wasn't answered.
REPEATS = 4 * PATIENCE
# What a proxy says where nobody answers it.
NOBODY = (502, 503, 504)
# How clients call each proxy: HAProxy looks into bodies for a parent, keeps clients' connections, and says by 503 that
# a request went nowhere.
CLIENTS_OF = {
    "haproxy": {"keep": True, "nests": (True, False), "unsent": (503,)},
    "nginx": {"keep": False, "nests": (True,)},
}
ENDS = {"close": "Closed", "cancel": "Cancelled"}
DISTURBED = (OSError, http.client.HTTPException)


class Told:
    """What clients were told: actions with their parents, members with their actions, and ends;
    and what wasn't answered."""

    def __init__(self):
        self.lock = threading.Lock()
        self.actions, self.members, self.ends, self.asked = {}, {}, {}, {}
        self.faults, self.unknown, self.repeats = [], 0, 0

    def note(self, what, key, value):
        with self.lock:
            if key in what and what is not self.asked:
                self.faults.append(f"{key} was given twice")
            what[key] = value

    def fault(self, text):
        with self.lock:
            self.faults.append(text)

    def count(self, name):
        with self.lock:
            setattr(self, name, getattr(self, name) + 1)


class Unknown(Exception):
    """A start wasn't answered: whether it was done nobody knows."""


class Over(Exception):
    """The client is to stop, and has no answer to what it repeats."""


class Caller:
    """A client that goes on until it is told to stop. `keep` says whether it keeps its connection, `nests` whether its
    nested starts go to their parents' own URIs, one way or several,
    and `unsent` which codes say that a request went nowhere."""

    def __init__(self, port, members, seed, told, over, pause=0.05, keep=True, nests=(True,), unsent=()):
        self.port, self.members, self.told, self.over = port, members, told, over
        self.chance, self.pause, self.keep, self.nests, self.unsent = random.Random(seed), pause, keep, nests, unsent
        self.connection, self.open, self.starts = None, [], Counter()

    def run(self):
        while not self.over.is_set():
            try:
                self.turn()
            except Unknown:
                self.told.count("unknown")
            except Over:
                return
            except AssertionError as fault:
                self.told.fault(str(fault))
                return
            time.sleep(self.pause)
        self.drop()

    def drop(self):
        if self.connection:
            self.connection.close()
        self.connection = None

    def once(self, method, path, keys):
        """A request and its reply, or None where nobody has answered;
        and whether it is sure that it wasn't carried out."""
        try:
            if not self.connection:
                self.connection = http.client.HTTPConnection("127.0.0.1", self.port, timeout=PATIENCE)
            self.connection.request(
                method, path, json.dumps(keys) if keys else None, {} if self.keep else {"Connection": "close"}
            )
            reply = self.connection.getresponse()
            text = reply.read()
        except DISTURBED:
            self.drop()
            return None, False
        if not self.keep:
            self.drop()
        if reply.status in NOBODY and not text.startswith(b"{"):
            return None, reply.status in self.unsent
        body = json.loads(text)
        if reply.status == 503 and body.get("error") == "Full":
            return None, True  # a site that drains has refused it: nothing was done
        return Reply(reply.status, reply.reason, dict(reply.getheaders()), body), False

    def ask(self, method, path, **keys):
        """The answer. What may be repeated is, until it is answered; a start may not be."""
        end = time.monotonic() + REPEATS
        while True:
            reply, is_unsent = self.once(method, path, keys)
            if reply:
                return reply
            if method == "POST" and not is_unsent:
                raise Unknown
            if self.over and self.over.is_set():
                raise Over
            self.told.count("repeats")
            check(f"{method} {path} isn't answered", time.monotonic() < end)
            time.sleep(0.1)

    def start(self, parent=None):
        """Starts an action. A nested start goes to its parent's own URI, or to where all starts go."""
        at_parent = parent and self.chance.choice(self.nests)
        path = f"/lra-coordinator/{id_of(parent)}" if at_parent else "/lra-coordinator"
        reply = self.ask("POST", path, **({"parent": parent} if parent else {}))
        equal(f"a start at {path}: {reply.body}", reply.code, 201)
        action = reply.body["lra"]
        self.told.note(self.told.actions, id_of(action), id_of(parent) if parent else None)
        self.starts[id_of(action)[:4]] += parent is None
        return action

    def join(self, action, member):
        reply = self.ask("PUT", f"/lra-coordinator/{id_of(action)}", **member.addresses("compensate", "complete"))
        equal(f"a join: {reply.body}", reply.code, 200)
        self.told.note(self.told.members, id_of(reply.body["recovery"]), id_of(action))

    def end(self, action):
        how = self.chance.choice(("close", "cancel"))
        self.told.note(self.told.asked, id_of(action), how)
        reply = self.ask("PUT", f"/lra-coordinator/{id_of(action)}/{how}")
        check(f"an end: {reply}", reply.code in (200, 202))
        self.told.note(self.told.ends, id_of(action), how)

    def turn(self):
        """Starts an action with members, now and then with one nested in it, and ends it,
        at once or some turns later."""
        action = self.start()
        self.open.append(action)
        if self.chance.random() < 0.3:
            self.join(self.start(action), self.chance.choice(self.members))
        for member in self.chance.sample(self.members, self.chance.choice((0, 0, 1, 2))):
            self.join(action, member)
        equal("its status", self.ask("GET", f"/lra-coordinator/{id_of(action)}").body["status"], "Active")
        while self.open and (len(self.open) > 5 or self.chance.random() < 0.8):
            self.end(self.open.pop(0))


class Load:
    """Some clients at once."""

    def __init__(self, port, members, seed, count=6, **more):
        self.told, self.over = Told(), threading.Event()
        self.callers = [
            Caller(port, members, f"{seed} {number}", self.told, self.over, **more) for number in range(count)
        ]
        self.threads = [threading.Thread(target=it.run, daemon=True) for it in self.callers]

    def __enter__(self):
        for it in self.threads:
            it.start()
        return self

    def __exit__(self, *_):
        self.stop()

    def stop(self):
        self.over.set()
        for it in self.threads:
            it.join(REPEATS + PATIENCE)

    def starts(self):
        """How many outermost starts each site has answered."""
        return sum((it.starts for it in self.callers), Counter())

    def check(self):
        equal("what clients met", self.told.faults[:3], [])


class Kept:
    """What the journals of some sites had at the last look."""

    def __init__(self, sites):
        self.sites = sites
        self.data = {}

    def look(self):
        """Each journal has what it had, wherever it is now."""
        for site in self.sites:
            for where in (".", "ended"):
                for name in journals_in(site.folder, where):
                    it = journal.whole(journal.read(f"{site.folder}/{where}/{name}.journal"))
                    check(f"{name} has lost something", it.startswith(self.data.get(name, b"")))
                    self.data[name] = it

    def entries(self):
        """The entries of each journal, by the site that has it."""
        for site in self.sites:
            for where in (".", "ended"):
                for name in journals_in(site.folder, where):
                    yield site, name, journal.entries(f"{site.folder}/{where}/{name}.journal")

    def open(self):
        """The actions that nobody has told to end, with those whose start wasn't answered."""
        for _, name, entries in self.entries():
            ended = {it.fields[0] for it in entries if it.deed in ("close", "cancel")}
            yield from (
                identifier(name, it.fields[0]) for it in entries if it.deed == "start" and it.fields[0] not in ended
            )

    def check(self, told):
        """What was answered is in just one journal, of the site that the identifier says.
        Answers how many actions there are."""
        found = {"start": {}, "join": {}, "close": {}, "cancel": {}, "end": {}}
        for site, name, entries in self.entries():
            equal("the journal's site", name[:4], f"{site.number:04x}")
            for it in entries:
                if it.deed in found:
                    found[it.deed].setdefault(identifier(name, it.fields[0]), []).append((name, it.fields))
        for deed, answered in (("start", told.actions), ("join", told.members)):
            equal(
                f"in more than one place, of a {deed}",
                [it for it, places in found[deed].items() if len(places) != 1][:3],
                [],
            )
            equal(f"answered, and nowhere, of a {deed}", [it for it in answered if it not in found[deed]][:3], [])
        for action, parent in told.actions.items():
            (name, fields) = found["start"][action][0]
            equal("its parent", identifier(name, fields[1]) if fields[1] != "*" else None, parent)
        for member, action in told.members.items():
            (name, fields) = found["join"][member][0]
            equal("its action", identifier(name, fields[1]), action)
        for action, how in told.ends.items():
            equal(f"the {how} of {action}", len(found[how].get(action, [])), 1)
            equal(f"how {action} ended", found["end"][action][0][1][1], ENDS[how])
        return len(found["start"])


def identifier(name, number):
    """The identifier of an action or a member of a journal."""
    digits = f"{name[:12]}8{name[12:]}{2**63 | int(number):016x}"
    return "-".join((digits[:8], digits[8:12], digits[12:16], digits[16:20], digits[20:]))


def audited(program, folder):
    """How many journals a folder has, each of which the auditor has found sound."""
    told = subprocess.run([program, "audit", folder], capture_output=True, text=True, timeout=3 * PATIENCE, check=False)
    check(
        f"the audit says {told.stdout[-300:]} {told.stderr}",
        told.returncode == 0 and " unsound 0 unread 0\n" in told.stdout,
    )
    return int(told.stdout.splitlines()[-1].split()[2])

