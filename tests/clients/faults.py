"""Replies that are lost, connections that break at each place, slow answers, and what is sent again then."""
import os
import socket
import threading
import time

import raxunto
from exchanges import quick, raised
from participant import wait_until
from raxunto import Coordinator
from service import HOST, LATE, check, equal, free_port
from standin import DROPPED, LAST, LOST, RESET, SILENT, Part, Says, Slow, StandIn, reply

COMPENSATE = "http://p.test/u"
# How often something is tried that a busy machine may hold up.
TRIES = 10
# Where a reply may break off: at its front, in its first line, in a field, behind the head, and in the body.
PLACES = (0, 1, 9, 12, 40, 70, -60, -20, -1)


def repeatable(place, coordinator):
    """Each call that may be repeated, by its name: it is made ready, and then made."""
    trip = coordinator.start()
    ended = coordinator.start()
    ended.close()
    member = trip.join(compensate=COMPENSATE)
    leaving = trip.join(compensate=COMPENSATE + "?2")
    other = coordinator.start()
    asked = other.join(compensate=COMPENSATE)
    other.close()
    place.requests.clear()
    return {
        "status": trip.status,
        "member status": member.status,
        "join": lambda: trip.join(compensate=COMPENSATE),
        "new join": lambda: trip.join(compensate=COMPENSATE + "?3"),
        "renew": lambda: trip.renew(1000),
        "leave": leaving.leave,
        "close": ended.close,
        "report": lambda: asked.report("Completed"),
        "close of an active one": trip.close,
    }


def test_what_may_be_repeated_is_repeated_after_each_fault(_):
    for fault in (LOST, RESET, DROPPED, *map(Part, PLACES)):
        with StandIn() as place:
            coordinator = quick(place, patience=5)
            for name, call in repeatable(place, coordinator).items():
                place.faults = [fault]
                place.requests.clear()
                try:
                    call()
                except raxunto.RaxuntoError as it:
                    raise AssertionError(f"{name} after {fault}: {it!r}") from None
                equal(f"requests of {name} after {fault}", len(place.requests), 2)
                equal("the same twice", place.requests[0][:4], place.requests[1][:4])
            equal("members", len(place.members), 4)


def test_a_start_whose_request_has_arrived_isnt_repeated(_):
    for kept in (False, True):
        for fault in (LOST, RESET, DROPPED, *map(Part, PLACES)):
            with StandIn() as place:
                coordinator = quick(place, patience=5)
                trip = coordinator.start() if kept else None
                place.requests.clear()
                place.faults = [fault]
                error = raised(raxunto.Unreachable, coordinator.start, parent=trip)
                equal(f"starts after {fault}, kept {kept}", len(place.requests), 1)
                check("it may be done", error.maybe_done)
                check(f"it says so: {error}", "may have arrived" in str(error))
                equal("the next start", coordinator.start().status(), "Active")


def test_a_start_that_is_refused_isnt_repeated(_):
    for name in ("Stopped", "Memory", "Full", "Worn"):
        with StandIn(Says(reply(503, {"error": name}), True)) as place:
            error = raised(getattr(raxunto, name), quick(place).start)
            equal(f"starts after {name}", len(place.requests), 1)
            equal(f"whether it may be done after {name}", error.maybe_done, name == "Stopped")


def test_a_start_is_repeated_where_no_connection_came_about(_):
    port = free_port()
    coordinator = Coordinator(f"http://{HOST}:{port}/", patience=30)
    place = StandIn()

    def come_up():
        time.sleep(0.5)
        place.listener = socket.create_server((HOST, port))
        place.port, place.base = port, f"http://{HOST}:{port}/"
        threading.Thread(target=place.accept, daemon=True).start()

    threading.Thread(target=come_up).start()
    trip = coordinator.start()
    equal("starts", (len(place.requests), trip.status()), (1, "Active"))
    place.__exit__()


def test_nobody_is_there(_):
    coordinator = Coordinator(f"http://{HOST}:{free_port()}/", patience=0.5)
    begun = time.monotonic()
    error = raised(raxunto.Unreachable, coordinator.start)
    check("it isn't done", not error.maybe_done)
    check(f"it says so: {error}", "was not sent" in str(error))
    check("it takes its patience", time.monotonic() - begun < LATE)
    begun = time.monotonic()
    hasty = Coordinator(f"http://{HOST}:{free_port()}/", patience=0)
    raised(raxunto.Unreachable, hasty.start)
    check("without patience it takes no time", time.monotonic() - begun < LATE)


def test_a_name_that_leads_nowhere(_):
    error = raised(raxunto.Unreachable, Coordinator("http://nowhere.invalid/", patience=0).start)
    check("it isn't done", not error.maybe_done)


def test_a_refusal_that_may_pass_is_sent_again(_):
    for name in ("Stopped", "Memory"):
        with StandIn() as place:
            trip = quick(place, patience=5).start()
            place.faults = 3 * [Says(reply(503, {"error": name}), True)]
            equal(f"after {name}", (trip.status(), len(place.requests)), ("Active", 5))
    for name in ("Full", "Worn"):
        with StandIn() as place:
            trip = quick(place, patience=5).start()
            place.faults = [Says(reply(503, {"error": name}), True)]
            raised(getattr(raxunto, name), trip.status)
            equal(f"requests after {name}", len(place.requests), 2)


def soon(what, seconds, deed):
    """Fails where that takes so many seconds each time: a busy machine holds it up now and then."""
    took = []
    while len(took) < TRIES and (not took or took[-1] >= seconds):
        begun = time.monotonic()
        deed()
        took.append(time.monotonic() - begun)
    check(f"{what} it takes {took} s", took[-1] < seconds)


# Values of Retry-After that name no seconds.
UNHEEDED = ("", "soon", "-1", "1.5", "0x1", "9" * 30, "Wed, 21 Oct 2065 07:28:00 GMT", "\u00b2")


def refused_later(value):
    """A refusal that may pass, with this Retry-After."""
    return Says(reply(503, {"error": "Stopped"}, (f"Retry-After: {value}",)), True)


def test_a_reply_that_says_when_to_ask_again_is_heeded(_):
    with StandIn() as place:
        trip = quick(place, patience=20).start()
        place.faults = [refused_later(1)]
        begun = time.monotonic()
        equal("the status", trip.status(), "Active")
        check("it waits so long", 1 <= time.monotonic() - begun < 1 + LATE)
        place.faults = [refused_later(10**9 - 1)]
        begun = time.monotonic()
        error = raised(raxunto.Stopped, trip.status)
        check("nothing is waited for that comes too late", time.monotonic() - begun < LATE)
        equal("what the error says", error.retry_after, 10**9 - 1)
        for value in UNHEEDED:

            def ask(value=value):
                place.faults = [refused_later(value)]
                equal(f"after {value!r}", trip.status(), "Active")

            soon(f"after {value!r}, where it waits as ever,", 1, ask)


def test_a_proxy_that_doesnt_reach_the_coordinator_is_asked_again(_):
    for code in (502, 503, 504):
        with StandIn() as place:
            trip = quick(place, patience=5).start()
            page = Says(reply(code, b"<html>Bad Gateway</html>"), False)
            place.faults = [page, page]
            equal(f"after {code}", (trip.close(), len(place.requests)), ("Closed", 4))
            place.faults = [page]
            error = raised(raxunto.BadReply, quick(place).start)
            equal(f"a start after {code}", (error.code, error.maybe_done, len(place.requests)), (code, True, 5))


def test_patience_has_an_end(_):
    with StandIn() as place:
        trip = quick(place, patience=3).start()
        place.faults = 1000 * [Says(reply(503, {"error": "Stopped"}), True)]
        begun = time.monotonic()
        raised(raxunto.Stopped, trip.status)
        check("time", 0.1 < time.monotonic() - begun < 3 + LATE)
        check(f"{len(place.requests)} requests", 3 <= len(place.requests) <= 12)


def test_a_connection_that_ended_is_replaced_before_a_request(_):
    with StandIn() as place:
        coordinator = quick(place, patience=0)
        for _ in range(5):
            place.faults = [LAST]
            coordinator.start()
            wait_until("the end of the connection", lambda: place.ended == place.connections)
        equal("starts and connections", (len(place.actions), place.connections), (5, 5))


def test_what_came_unasked_is_no_answer(_):
    with StandIn() as place:
        coordinator = quick(place, patience=0)
        trip = coordinator.start()
        other = reply(200, {"lra": trip.uri, "status": "Cancelled"})
        place.faults = [Says(reply(200, {"lra": trip.uri, "status": "Active"}) + other, True)]
        equal("the answer", trip.status(), "Active")
        time.sleep(0.05)
        place.faults = []
        equal("the next one", trip.status(), "Active")


def test_a_kept_connection_that_breaks_counts_as_no_try(_):
    with StandIn() as place:
        coordinator = quick(place, patience=0)
        trip = coordinator.start()
        for fault in (DROPPED, LOST, RESET):
            place.faults = [fault]
            equal(f"after {fault}", trip.status(), "Active")
        coordinator.disconnect()
        place.faults = [DROPPED]
        raised(raxunto.Unreachable, trip.status)


def test_a_start_takes_no_connection_that_was_idle_for_long(_):
    with StandIn() as place:
        coordinator = quick(place)

        def start():
            """Starts an action, and answers how many connections that took."""
            before = place.connections
            coordinator.start()
            return place.connections - before

        start()
        # (a busy machine may let so long pass that the connection has been idle)
        check("connections at once", any(start() == 0 for _ in range(TRIES)))
        time.sleep(1.1)
        equal("connections later", start(), 1)
        time.sleep(1.1)
        before = place.connections
        coordinator.status(place.base + "lra-coordinator/" + next(iter(place.actions)))
        equal("connections for a read", place.connections - before, 0)


def test_slow_and_missing_answers_have_their_time(_):
    for fault in (SILENT, Slow(0.02), Slow(0.3)):
        with StandIn() as place:
            coordinator = quick(place, timeout=1.5, patience=0)
            trip = coordinator.action(quick(place).start().uri)
            for call in (trip.status, coordinator.start):
                place.faults = [fault]
                begun = time.monotonic()
                error = raised(raxunto.Unreachable, call)
                check(f"{fault} takes {time.monotonic() - begun:.1f} s", 1 < time.monotonic() - begun < 1.5 + LATE)
                check("it may be done", error.maybe_done)
            equal("the next one", trip.status(), "Active")


def test_a_slow_answer_in_time_is_taken(_):
    with StandIn(Slow(0.002)) as place:
        equal("a start", quick(place, timeout=10).start().status(), "Active")


def test_who_accepts_and_says_nothing_has_its_time(_):
    with socket.create_server((HOST, 0)) as listener:
        coordinator = Coordinator(f"http://{HOST}:{listener.getsockname()[1]}/", timeout=0.3, patience=0)
        check("it may be done", raised(raxunto.Unreachable, coordinator.start).maybe_done)


def test_a_wait_for_who_says_nothing_has_its_time(_):
    with socket.create_server((HOST, 0)) as listener:
        base = f"http://{HOST}:{listener.getsockname()[1]}/"
        trip = Coordinator(base).action(base + "lra-coordinator/00000000-0000-8007-8000-000000000001")
        for seconds, least in ((0, 0.9), (1.5, 1.4)):
            begun = time.monotonic()
            check("it may be done", raised(raxunto.Unreachable, trip.wait, seconds).maybe_done)
            check(f"{seconds} s take {time.monotonic() - begun:.1f} s", least < time.monotonic() - begun < LATE)


def test_a_wait_in_which_answers_cease_returns_what_was_told(_):
    for fault in (SILENT, DROPPED, Says(reply(503, {"error": "Stopped"}), True)):
        with StandIn() as place:
            trip = Coordinator(place.base).start()
            place.faults = [None, *1000 * [fault]]
            begun = time.monotonic()
            if isinstance(fault, Says):
                raised(raxunto.Stopped, trip.wait, 1.5)
            else:
                equal(f"what was told before {fault}", trip.wait(1.5), "Active")
            check(f"{fault} takes {time.monotonic() - begun:.1f} s", 0.5 < time.monotonic() - begun < LATE)
    with StandIn() as place:
        trip = quick(place, patience=0).start()
        place.faults = [None, DROPPED, DROPPED]
        begun = time.monotonic()
        raised(raxunto.Unreachable, trip.wait, 30)
        check("its patience is over before", time.monotonic() - begun < LATE)


def test_a_leave_whose_reply_was_lost_has_left(_):
    with StandIn() as place:
        trip = quick(place, patience=5).start()
        member = trip.join(compensate=COMPENSATE)
        place.faults = [LOST]
        member.leave()
        check("it has left", all(it["left"] for it in place.members.values()))
        error = raised(raxunto.HasLeft, member.leave)
        check("that is told of a second leave", not error.repeated)


def test_a_leave_that_was_refused_before_hasnt_left_by_that(_):
    with StandIn() as place:
        trip = quick(place, patience=5).start()
        member = trip.join(compensate=COMPENSATE)
        member.leave()
        place.faults = [Says(reply(503, {"error": "Memory"}), True)]
        check("nothing was done then", not raised(raxunto.HasLeft, member.leave).repeated)
        place.faults = [Says(reply(503, {"error": "Stopped"}), True)]
        member.leave()
        equal("requests", len(place.sent("PUT", "/remove")), 5)


def test_a_join_whose_reply_was_lost_is_told_as_repeated(_):
    with StandIn() as place:
        trip = quick(place, patience=5).start()
        place.faults = [LOST, Says(reply(412, {"error": "NotActive", "status": "Cancelling"}), True)]
        error = raised(raxunto.NotActive, trip.join, compensate=COMPENSATE)
        equal("what is told", (error.repeated, error.status), (True, "Cancelling"))


def test_a_forked_process_has_a_connection_of_its_own(_):
    with StandIn() as place:
        trip = quick(place).start()
        child = os.fork()
        if child == 0:
            told = "nothing"
            try:
                told = trip.status()
            finally:
                os._exit(0 if told == "Active" else 1)
        equal("the child's end", os.waitpid(child, 0)[1], 0)
        equal("the parent's call", trip.status(), "Active")
        equal("who called on which connection", [it.connection for it in place.requests], [1, 2, 1])
