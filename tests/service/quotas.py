"""Callbacks that go out at once: bounds that all threads and all journals of a service share."""
import contextlib
import threading
import time

import folders
import journal
from options import Stopping
from participant import Participant, wait_for_ends, wait_until
from service import PATIENCE, check, equal

# How many seconds pass in which more callbacks would go out, if they might.
LONG_ENOUGH = 1.5


class Gauge:
    """Counts requests that wait for their answers, and holds each until it is let go."""

    def __init__(self):
        self.lock = threading.Lock()
        self.gate = threading.Semaphore(0)
        self.now = self.most = 0
        self.order = []

    def hold(self, request):
        with self.lock:
            self.now += 1
            self.most = max(self.most, self.now)
            self.order.append(request.path)
        self.gate.acquire(timeout=PATIENCE)
        with self.lock:
            self.now -= 1
        return (200, b"")

    def let(self, count):
        for _ in range(count):
            self.gate.release()

    def check_most(self, count):
        """Waits until so many have come, and sees that no more do."""
        wait_until(f"{count} requests", lambda: self.now >= count)
        time.sleep(LONG_ENOUGH)
        equal("the requests at once", (self.now, self.most), (count, count))


def cancel_all(client, actions):
    for action in actions:
        client.end(action, "cancel")


def begin(client, addresses, count=1):
    """Starts so many actions with a member each, and answers their URIs."""
    actions = [client.start() for _ in range(count)]
    for action in actions:
        client.join(action, **addresses)
    return actions


def count_asks(setting):
    """How many asks the journal has."""
    return sum(it.deed == "ask" for it in journal.entries(setting.journal))


def test_threads_share_a_host(setting):
    """Four callback workers, a share of two, and eight members at one host."""
    gauge = Gauge()
    with Participant(gauge.hold) as member:
        with Stopping(setting, "--host-share", "2", workers=4) as service, service.client() as client:
            actions = begin(client, member.addresses("compensate"), 8)
            cancel_all(client, actions)
            gauge.check_most(2)
            gauge.let(8)
            member.wait("compensate", 8)
            wait_for_ends(client, actions, "Cancelled")
            equal("the most at once", gauge.most, 2)


def test_journals_of_a_folder_share_a_host(setting):
    """Five journals, a share of two, and two members in each."""
    gauge = Gauge()
    with Participant(gauge.hold) as member:
        with folders.Folder(setting, *folders.FAR, "--host-share", "2") as folder, folder.client() as client:
            actions = []
            for count in (2, 3, 4, 5):
                actions += folder.first(3)[:2]
                folder.wait_for(count)
            actions += folder.first(2)
            equal("the journals", len({folders.instance_of(it) for it in actions}), 5)
            for action in actions:
                client.join(action, **member.addresses("compensate"))
            cancel_all(client, actions)
            gauge.check_most(2)
            gauge.let(len(actions))
            member.wait("compensate", len(actions))
            wait_for_ends(client, actions, "Cancelled")
            equal("the most at once", gauge.most, 2)
            folder.kill()
            equal("the journals that are sound", folders.check_sound(folder), 5)


def test_hosts_share_the_whole(setting):
    """Three hosts with three members each, of which two are called at once."""
    gauge = Gauge()
    with contextlib.ExitStack() as stack:
        hosts = [stack.enter_context(Participant(gauge.hold)) for _ in range(3)]
        service = stack.enter_context(Stopping(setting, "--callbacks", "2", workers=2))
        client = stack.enter_context(service.client())
        actions = [action for host in hosts for action in begin(client, host.addresses("compensate"), 3)]
        cancel_all(client, actions)
        gauge.check_most(2)
        gauge.let(len(actions))
        for host in hosts:
            host.wait("compensate", 3)
        equal("the most at once", gauge.most, 2)


def test_hosts_take_turns(setting):
    """One callback at once: a host with one member isn't kept waiting by one with eight, which fell due before."""
    gauge = Gauge()
    with Participant(gauge.hold) as many, Participant(gauge.hold) as one:
        with Stopping(setting, "--callbacks", "1", workers=2) as service, service.client() as client:
            cancel_all(client, begin(client, {"compensate": many.uri("many")}, 8))
            gauge.check_most(1)
            cancel_all(client, begin(client, {"compensate": one.uri("one")}))
            wait_until("the last ask", lambda: count_asks(setting) == 9)
            time.sleep(LONG_ENOUGH)
            gauge.let(9)
            many.wait("many", 8)
            one.wait("one")
            place = gauge.order.index("/one")
            check(f"it was called as number {place}", place <= 4)
            equal("the most at once", gauge.most, 1)
            return f"called as number {place} of {len(gauge.order)}"
