"""The connections of vectors/front and of docs/use/http.md by socket: the replies are the same byte for byte.

A case is a journal, an empty line and a connection's bytes; its replies are those of a coordinator whose clock stands
still and which carries nothing to members. A service's clock goes on and its workers carry, so that a case is left out
where that could be seen:
- a limit: an Active action of the journal has one, or a request names one that isn't 0;
- an ask: an action is Closing or Cancelling, in the journal or by a reply, and a request is about a member, whose
  status an ask changes;
- a clerk: the journal has none, and a service enrols its own.
Of vectors/front these stay: 002, 006, 010, 015, 017, 021, 026, 032, 034, 035, 038, 039, 041, 043, 044, 048, 050, 053,
054, 058, 059, 060, 061, 065, 066, 067, 074, 076, 078 and 079;
and of the page the four that end in a refusal of reading.
"""
import glob
import os
import re
import socket
import subprocess
from concurrent.futures import ThreadPoolExecutor

import journal
import service

BASE = b"127.0.0.1:8080"
LIMIT = re.compile(rb'"limit"\s*:\s*0*[1-9]')
MOVES = re.compile(rb'"status":"(Closing|Cancelling)"')
STATUSES = {"start": "Active", "close": "Closing", "cancel": "Cancelling"}


def last_statuses(history):
    """The status of each action, where one that settles at once is ended by a line of its own."""
    statuses = {}
    for it in history:
        if it.deed in STATUSES:
            statuses[it.fields[0]] = STATUSES[it.deed]
        elif it.deed == "end":
            statuses[it.fields[0]] = it.fields[1]
    return statuses


def last_limits(history):
    """The limit of each action."""
    limits = {}
    for it in history:
        if it.deed in ("start", "renew"):
            limits[it.fields[0]] = int(it.fields[-1])
    return limits


def meddles(history, requests, replies):
    """What of a running service could be seen in the replies, if anything."""
    statuses, limits = last_statuses(history), last_limits(history)
    if not any(it.deed == "enrol" for it in history):
        return "a clerk"
    if LIMIT.search(requests) or any(limits[action] and status == "Active" for action, status in statuses.items()):
        return "a limit"
    moves = MOVES.search(replies) or {"Closing", "Cancelling"} & set(statuses.values())
    if moves and re.search(rb" /lra-recovery/", requests):
        return "an ask"
    return None


def replies_of(setting, path, head, requests):
    """The replies of a service that goes on from this journal, with its port in them."""
    journal.write(path, head)
    with service.Service(setting.program, path, 1) as it, it.connect() as stream:
        stream.sendall(requests.replace(BASE, it.address.encode()))
        try:
            stream.shutdown(socket.SHUT_WR)
        except OSError:
            pass  # it is closed already
        data, _ = service.received(stream)  # it may be closed before all that was sent was read
        return data.replace(it.address.encode(), BASE)


def compare(setting, name, wanted):
    """Tries a case, if it can be, and answers whether it was."""
    head, _, requests = journal.read(name).partition(b"\n\n")
    head += b"\n"
    history = journal.entries_of(head.partition(b"\n")[2])
    if meddles(history, requests, wanted):
        return False
    path = f"{setting.folder}/{os.path.basename(name)}"
    service.equal(os.path.basename(name), replies_of(setting, path, head, requests), wanted)
    return True


def compare_all(setting, folder, least):
    cases = [(name.removesuffix(".stdout"), journal.read(name)) for name in sorted(glob.glob(folder + "/*.stdout"))]
    with ThreadPoolExecutor(4) as pool:
        compared = list(pool.map(lambda case: compare(setting, *case), cases))
    service.check(f"only {sum(compared)} cases were compared", sum(compared) >= least)


def test_the_connections_of_the_vectors(setting):
    compare_all(setting, setting.cases, 30)


def test_the_connections_of_the_page(setting):
    folder = setting.folder + "/shown"
    os.mkdir(folder)
    subprocess.run([f"{setting.root}/tools/exchanges", folder], check=True)
    compare_all(setting, folder, 4)
