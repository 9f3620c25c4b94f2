"""A service that is killed again and again under many clients: what it has answered is in the file,
and the file is sound. The same of one that speaks the dialect."""
import http.client
import random
import threading
import time
from collections import Counter

import journal
import narayana
from participant import Participant, wait_until
from service import Client, check, equal, free_port, number_of

ROUNDS = 50
# How often one that speaks the dialect is killed.
FEW = 5
CLIENTS = 8
SEED = 7
# How many lines are told at least before each other kill, however busy the machine is.
SOME = 30


# What an action's status may be after what its client was told last: a close or cancel, or neither. The reply to a
# further one may have been lost.
MAY_BE = {
    "close": {"Closing", "Closed"},
    "cancel": {"Cancelling", "Cancelled"},
    None: {"Active", "Closing", "Closed", "Cancelling", "Cancelled"},
}
# The addresses of members.
KINDS = ("compensate", "complete", "after")


class Told:
    """What clients were told: the lines that have to be in the file, in the spelling of `line_of`."""

    def __init__(self):
        self.lines = []
        self.faults = []


def line_of(it):
    """What a client can know of an entry."""
    shown = {"start": 1, "join": 2, "leave": 1, "renew": 2, "close": 2, "cancel": 2, "end": 2}
    return (it.deed, *it.fields[: shown.get(it.deed, 0)])


def turn(client, member, told, chance):
    """Gives some commands at an action of its own."""
    number = str(number_of(action := client.start()))
    told.lines.append(("start", number))
    if chance.random() < 0.3:
        recovery = client.join(action, **member.addresses(*KINDS))
        told.lines.append(("join", str(number_of(recovery)), number))
    elif chance.random() < 0.3:
        left = client.join(action, **member.addresses("after"))
        client.leave(action, left)
        told.lines.append(("leave", str(number_of(left))))
    if chance.random() < 0.2:
        client.renew(action, 10**9)
        told.lines.append(("renew", number, str(10**9)))
    if chance.random() < 0.9:
        how = chance.choice(("close", "cancel"))
        status = client.end(action, how)
        told.lines.append((how, number, "client"))
        if status in ("Closed", "Cancelled"):
            told.lines.append(("end", number, status))


def work(port, member, told, seed, caller=Client):
    """Gives commands until the service is gone, by such a client."""
    chance = random.Random(seed)
    try:
        with caller(port) as client:
            while True:
                turn(client, member, told, chance)
    except (OSError, http.client.HTTPException):
        return
    except AssertionError as fault:
        told.faults.append(str(fault))


def kill_under_load(given, port, member, told, number, lines):
    """Kills a service that eight clients call. It tells first what those lines of the last one tell."""
    with given as service:
        with service.client() as client:
            check_there(client, member, lines)
            caller = type(client)
        clients = [
            threading.Thread(target=work, args=(port, member, told, SEED + CLIENTS * number + n, caller))
            for n in range(CLIENTS)
        ]
        before = len(told.lines)
        for client in clients:
            client.start()
        time.sleep(random.Random(SEED * number).uniform(0.02, 0.2))
        if number % 2:
            wait_until("some answers", lambda: len(told.lines) >= before + SOME)
        service.kill()
    for client in clients:
        client.join()


class Watch:
    """What the file said so far."""

    def __init__(self, setting):
        self.setting = setting
        self.front = b""
        self.lines = set()
        self.asks = Counter()
        self.members = Counter()

    def look(self):
        """Takes what was added to the file: what stood there before is there still, and the whole of it is sound."""
        data = journal.whole(journal.read(self.setting.journal))
        check("the file keeps what it had", data.startswith(self.front))
        journal.check_sound(self.setting.program, data, self.setting.folder)
        _, _, lines = data.partition(b"\n") if not self.front else (None, None, data[len(self.front) :])
        for it in journal.entries_of(lines):
            self.lines.add(line_of(it))
            if it.deed == "ask":
                self.asks[it.fields[1], it.fields[2]] += 1
        self.front = data

    def check_told(self, told):
        missing = [line for line in told.lines if line not in self.lines]
        equal("answered, and not in the file", missing[:5], [])

    def check_asked(self, requests):
        """Each request that a member got is of an ask in the file."""
        got = Counter((str(number_of(it.fields["Long-Running-Action-Recovery"])), it.path[1:]) for it in requests)
        missing = [member for member, count in got.items() if self.asks[member] < count]
        equal("asked, and not in the file", missing[:5], [])


def prefix_of(client):
    """What the identifiers of a service's actions begin with, up to their numbers."""
    return client.start()[:-12]


def check_there(client, member, lines):
    """Asks a service for what answers told before: each action has the status that was told, or one that may have come
    since, and a member that joins an active one again is the same."""
    told, joined = {}, {}
    for line in lines:
        if line[0] == "start":
            told[line[1]] = MAY_BE[None]
        elif line[0] in MAY_BE:
            told[line[1]] = MAY_BE[line[0]]
        elif line[0] == "end":
            told[line[1]] = {line[2]}
        elif line[0] == "join":
            joined[line[2]] = line[1]
    prefix = prefix_of(client) if told else ""
    for number, wanted in told.items():
        action = f"{prefix}{int(number):012x}"
        status = client.status(action)
        check(f"action {number} is {status}, wanted one of {sorted(wanted)}", status in wanted)
        if status == "Active" and number in joined:
            recovery = client.join(action, **member.addresses(*KINDS))
            equal(f"a member of action {number}", str(number_of(recovery)), joined[number])


def ends(client, told):
    """Waits until the actions that were told to end have ended."""
    prefix = prefix_of(client)

    def has_ended(number):
        return client.status(f"{prefix}{int(number):012x}") in ("Closed", "Cancelled")

    for deed, number, *_ in told.lines:
        if deed in ("close", "cancel"):
            wait_until(f"the end of action {number}", lambda number=number: has_ended(number), 60)


def kill_all(setting, serve, rounds):
    """Kills a service so often under load, and answers what was seen. `serve` makes one that listens at a port."""
    told, watch, port, checked = Told(), Watch(setting), free_port(), 0
    with Participant() as member:
        for number in range(rounds):
            fresh = told.lines[checked:]
            checked += len(fresh)
            kill_under_load(serve(port), port, member, told, number, fresh)
            equal("what clients met", told.faults, [])
            watch.look()
            watch.check_told(told)
            watch.check_asked(member.requests)
        check(f"only {len(told.lines)} commands were answered", len(told.lines) > 10 * rounds)
        with serve(port) as service, service.client() as client:
            check_there(client, member, told.lines[checked:])
            ends(client, told)
    watch.look()
    asks = sum(watch.asks.values())
    return f"{len(told.lines)} lines that answers told of, {asks} asks, {watch.front.count(10) - 1} entries"


def test_what_is_answered_is_in_the_file_after_each_of_fifty_kills(setting):
    return kill_all(setting, lambda port: setting.serve(4, port), ROUNDS)


def test_what_the_dialect_answered_is_in_the_file_after_each_of_five_kills(setting):
    return kill_all(setting, lambda port: narayana.Narayana(setting, workers=4, port=port), FEW)
