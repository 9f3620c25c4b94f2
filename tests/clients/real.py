"""The client, and members that are made of `MemberHandler`, over the program that is built; each journal is audited."""
import hashlib
import os
import threading
import time
from contextlib import contextmanager

import journal
import raxunto
from bases import Based
from examples import Running, in_the_file, named, on_the_page
from exchanges import raised
from handlers import Quiet, serving
from participant import wait_until
from raxunto import Coordinator
from service import HOST, PATIENCE, check, equal

SECRET = "c2hvcA.4711"


class Shop:
    """A service whose methods answer as `answers` says, in turn or for good, and note what they were asked."""

    def __init__(self, **answers):
        self.answers = answers
        self.asked = []
        shop = self

        class Handler(Quiet):
            @raxunto.complete
            @raxunto.compensate
            @raxunto.status
            @raxunto.forget
            @raxunto.after
            def take(self, asked):
                return shop.answered(asked)

        self.handler = Handler

    def answered(self, asked):
        self.asked.append(asked)
        told = self.answers.get(asked.kind, raxunto.DONE)
        told = told.pop(0) if isinstance(told, list) and len(told) > 1 else told[0] if isinstance(told, list) else told
        if isinstance(told, Exception):
            raise told
        return told

    def addresses(self, port, action, *kinds, work=""):
        """The addresses for these kinds, or for all."""
        made = self.handler.addresses(f"http://{HOST}:{port}/", action, work)
        return {kind: it for kind, it in made.items() if not kinds or kind in kinds}

    def kinds(self, action=None):
        """What it was asked in turn, of an action or at all."""
        return [it.kind for it in self.asked if action in (None, it.action) or it.action == action.uri]


@contextmanager
def shops(setting, **answers):
    """A coordinator and a shop; at the end the journal has to be sound."""
    shop = Shop(**answers)
    with setting.serve() as service, serving(shop.handler) as port:
        yield Coordinator(f"http://{service.address}/"), shop, port
    audited(setting)


def audited(setting):
    """Fails the test where the journal isn't sound."""
    journal.check_sound(setting.program, journal.read(setting.journal), setting.folder)


def test_a_trip_is_closed_and_another_cancelled(setting):
    with shops(setting) as (coordinator, shop, port):
        with coordinator.start(limit=60_000) as trip:
            member = trip.join(**shop.addresses(port, trip))
            equal("inside", (trip.status(), member.status()), ("Active", "Active"))
        equal("the trip", trip.wait(PATIENCE), "Closed")
        wait_until("after", lambda: shop.kinds(trip) == ["complete", "after"])
        equal("its end", shop.asked[-1].end, "Closed")
        check("who is asked", all((it.action, it.recovery, it.work) == (trip.uri, member.uri, "") for it in shop.asked))
        try:
            with coordinator.start() as other:
                other.join(**shop.addresses(port, other, "complete", "compensate", work="a b"))
                raise RuntimeError("as wanted")
        except RuntimeError:
            pass
        equal("the other trip", other.wait(PATIENCE), "Cancelled")
        equal("what is asked", (shop.kinds(other), shop.asked[-1].work), (["compensate"], "a b"))


def test_a_join_is_the_same_member_by_the_same_addresses_alone(setting):
    with shops(setting) as (coordinator, shop, port), coordinator.start() as trip:
        first = trip.join(**shop.addresses(port, trip, work="1"))
        equal("again", trip.join(**shop.addresses(port, trip, work="1")).uri, first.uri)
        check("another one", trip.join(**shop.addresses(port, trip, work="2")).uri != first.uri)


def test_a_trip_in_a_trip(setting):
    with shops(setting) as (coordinator, shop, port):
        outer = coordinator.start()
        with outer.start(limit=60_000) as inner:
            inner.join(**shop.addresses(port, inner, "complete", "compensate", "forget"))
        equal("the inner one", inner.wait(PATIENCE), "Closed")
        equal("what it is asked", shop.kinds(), ["complete"])
        equal("its parent", shop.asked[0].parent, outer.uri)
        outer.cancel()
        equal("the outer one", outer.wait(PATIENCE), "Cancelled")
        equal("what it is asked then", shop.kinds()[:2], ["complete", "compensate"])
        other = coordinator.start()
        below = coordinator.start(parent=other.uri)
        below.join(**shop.addresses(port, below, "complete", "compensate", "forget"))
        below.close()
        equal("the one below", below.wait(PATIENCE), "Closed")
        other.close()
        wait_until("a forget", lambda: shop.kinds(below) == ["complete", "forget"])


def test_who_leaves_isnt_asked(setting):
    with shops(setting) as (coordinator, shop, port):
        trip = coordinator.start()
        member = trip.join(**shop.addresses(port, trip, "complete", "compensate"))
        stays = trip.join(**shop.addresses(port, trip, "complete", "compensate", work="stays"))
        member.leave()
        equal("how it stands", member.status(), "Left")
        raised(raxunto.HasLeft, member.leave)
        raised(raxunto.WrongAction, coordinator.start().leave, stays)
        check("it may join anew", trip.join(**shop.addresses(port, trip, "complete", "compensate")).uri != member.uri)
        coordinator.leave(trip.uri, trip.join(**shop.addresses(port, trip, "complete", "compensate")).uri)
        trip.close()
        equal("the trip", trip.wait(PATIENCE), "Closed")
        equal("who is asked", [it.work for it in shop.asked], ["stays"])


def test_limits(setting):
    with shops(setting) as (coordinator, shop, port):
        # The short one leaves a member time to join.
        short, renewed, endless = (coordinator.start(limit=it) for it in (6000, 6000, 0))
        renewed.renew(60_000)
        short.join(**shop.addresses(port, short, "compensate"))
        wait_until("the limit", lambda: short.status() == "Cancelled")
        equal("what is asked", shop.kinds(), ["compensate"])
        equal("the others", (renewed.status(), endless.status()), ("Active", "Active"))
        equal("what a close is told", raised(raxunto.NotActive, short.close).status, "Cancelled")
        equal("what a renewal is told", raised(raxunto.NotActive, short.renew, 5).status, "Cancelled")
        renewed.renew(0)
        equal("closes", (renewed.close(), endless.close()), ("Closed", "Closed"))


def test_a_member_that_fails(setting):
    for kind, end, state in (("complete", "close", "FailedToComplete"), ("compensate", "cancel", "FailedToCompensate")):
        for answer in (raxunto.FAILED, state):
            setting.journal = f"{setting.folder}/{state}-{answer}.journal"
            with shops(setting, **{kind: answer}) as (coordinator, shop, port):
                trip = coordinator.start()
                member = trip.join(**shop.addresses(port, trip))
                getattr(trip, end)()
                check("the trip has failed", trip.wait(PATIENCE).startswith("FailedTo"))
                equal("the member", member.status(), state)
                wait_until("the rest", lambda: sorted(shop.kinds()) == sorted((kind, "forget", "after")))


def test_a_member_that_is_at_it(setting):
    answers = {"complete": raxunto.AT_IT, "status": [raxunto.AT_IT, "Completing", "Completed"]}
    with shops(setting, **answers) as (coordinator, shop, port):
        trip = coordinator.start()
        trip.join(**shop.addresses(port, trip))
        trip.close()
        equal("the trip", trip.wait(PATIENCE), "Closed")
        equal("what is asked", shop.kinds()[:4], ["complete", "status", "status", "status"])


def test_a_member_that_reports_its_end(setting):
    with shops(setting, compensate=raxunto.AT_IT) as (coordinator, shop, port):
        trip = coordinator.start()
        member = trip.join(**shop.addresses(port, trip, "compensate"))
        raised(raxunto.NotAsked, member.report, "Compensated")
        trip.cancel()
        wait_until("a compensate", lambda: "compensate" in shop.kinds())
        wait_until("its state", lambda: member.status() == "Compensating")
        equal("a report", member.report("Compensated"), "Compensated")
        equal("a report again", coordinator.report(member.uri, "Compensated"), "Compensated")
        equal("the trip", trip.wait(PATIENCE), "Cancelled")


def test_a_method_that_raises_is_asked_again(setting):
    with shops(setting, complete=[RuntimeError("as wanted"), raxunto.AGAIN, None]) as (coordinator, shop, port):
        with coordinator.start() as trip:
            trip.join(**shop.addresses(port, trip, "complete", "compensate"))
        equal("the trip", trip.wait(PATIENCE), "Closed")
        equal("what is asked", shop.kinds(), 3 * ["complete"])


def test_refusals(setting):
    with shops(setting) as (coordinator, shop, port):
        trip = coordinator.start()
        missing = trip.uri[:-12] + "0000000fffff"
        for call in (coordinator.status, coordinator.close, lambda it: coordinator.start(parent=it)):
            raised(raxunto.NoSuchAction, call, missing)
        raised(raxunto.NoSuchMember, coordinator.member_status, missing.replace("coordinator", "recovery"))
        raised(raxunto.BadAddresses, trip.join, complete=f"http://{HOST}:{port}/")
        raised(raxunto.BadAddresses, trip.join, compensate="https://p.test/")
        raised(raxunto.BadAddresses, trip.join, compensate=f"http://{HOST}/{600 * 'x'}")
        raised(raxunto.LimitTooFar, coordinator.start, 2**64 - 1)
        trip.close()
        equal("a join is told", raised(raxunto.NotActive, trip.join, **shop.addresses(port, trip)).status, "Closed")
        equal("a cancel is told", raised(raxunto.NotActive, trip.cancel).status, "Closed")
        equal("a close again", trip.close(), "Closed")
        for _ in range(64):
            above, trip = trip, coordinator.start() if trip.is_ending else trip.start()
        raised(raxunto.TooDeep, trip.start)
        equal("the one above", above.status(), "Active")
        raised(raxunto.NoSuchPath, Coordinator(coordinator.base_url + "other/").start)


def test_a_key(setting):
    keys = setting.folder + "/keys"
    with open(keys, "w", encoding="ascii", opener=lambda path, flags: os.open(path, flags, 0o600)) as it:
        it.write(f"shop {hashlib.sha256(SECRET.encode()).hexdigest()}\n")
    with Based(setting, setting.journal, "--key", keys) as service:
        base = f"http://{service.address}/"
        for key in (None, SECRET + "x"):
            raised(raxunto.WrongKey, Coordinator(base, key).start)
        equal("with it", Coordinator(base, SECRET).start().close(), "Closed")
    audited(setting)


def test_a_coordinator_that_is_killed_and_comes_again(setting):
    with serving(Shop().handler) as port:
        shop = Shop()
        with setting.serve() as service:
            coordinator = quick_at(service)
            trip = coordinator.start()
            trip.join(**shop.addresses(port, trip, "complete", "compensate"))
        check("it isn't there", not raised(raxunto.Unreachable, quick_at(service, patience=0).start).maybe_done)
        told = []
        thread = threading.Thread(target=lambda: told.append(trip.close()))
        thread.start()
        time.sleep(0.5)
        with setting.serve(port=service.port):
            thread.join(PATIENCE)
            check(f"the close is told {told}", told and told[0] in ("Closing", "Closed"))
            equal("the trip", trip.wait(PATIENCE), "Closed")
            equal("a start", coordinator.start().status(), "Active")
    audited(setting)


def quick_at(service, **more):
    """A coordinator at a service that may be away for some seconds."""
    return Coordinator(f"http://{service.address}/", **{"timeout": PATIENCE, "patience": PATIENCE, **more})


def test_a_connection_that_the_coordinator_ends(setting):
    with shops(setting) as (coordinator, _, __):
        trip = coordinator.start()
        for _ in range(2100):
            equal("a status", trip.status(), "Active")
        equal("a close", trip.close(), "Closed")


def test_the_examples(setting):
    for number, source in enumerate((on_the_page(setting), in_the_file(0))):
        setting.journal = f"{setting.folder}/{number}.journal"
        with setting.serve() as service, Running(source, f"http://{service.address}/") as hotel:
            told = []
            text = named(in_the_file(1), f"http://{service.address}/", hotel.port)
            exec(compile(text, "example", "exec"), {"print": told.append})  # pylint: disable=exec-used
            equal("what is printed, and the rooms", (told, list(hotel.rooms.values())), (["Closed"], ["booked"]))
            coordinator = quick_at(service)
            trip = coordinator.start()
            equal("a booking", hotel.book(trip.uri), 200)
            trip.cancel()
            equal("the trip", (trip.wait(PATIENCE), hotel.rooms[trip.id]), ("Cancelled", "free"))
        audited(setting)
