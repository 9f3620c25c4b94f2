"""Each call over a stand-in, each refusal of docs/use/http.md, what is never sent, and the block of an action."""
import inspect
import json
import re
import threading

import raxunto
from raxunto import Coordinator
from service import check, equal, id_of
from standin import StandIn, reply, Says

ADDRESSES = {
    "compensate": "http://p.test/u?n=1",
    "complete": "http://p.test/c",
    "status": "http://p.test/s",
    "forget": "http://p.test/f",
    "after": "http://p.test/a",
}
ACTION = "http://127.0.0.1:1/lra-coordinator/00000000-0000-8007-8000-000000000001"
MEMBER = "http://127.0.0.1:1/lra-recovery/00000000-0000-8007-8000-000000000001"
# Keys of a refusal's body that stand beside its name.
MORE = {"NotActive": {"status": "Closed"}, "Full": {"which": "Actions"}}


def raised(kind, call, *given, **more):
    """The error that a call raises, of just this class."""
    try:
        told = call(*given, **more)
    except Exception as it:  # which it is, is looked at
        equal(f"what is raised ({it})", type(it), kind)
        return it
    raise AssertionError(f"{told!r} is answered, wanted {kind.__name__}")


def last(place):
    """The last request in short, and what its body says."""
    request = place.requests[-1]
    return request.method, request.path, json.loads(request.body) if request.body else None


def quick(place, **more):
    """A coordinator of a stand-in, which isn't called for long."""
    return Coordinator(place.base, **{"timeout": 10, "patience": 2, **more})


def refusals(setting):
    """The code and the name of each refusal that docs/use/http.md lists."""
    with open(f"{setting.root}/docs/use/http.md", encoding="utf-8") as page:
        part = page.read().split("## Refusals")[1].split("\n## ")[0]
    for code, row in re.findall(r"^\| (\d{3}) [A-Z][^|]*\| (.*) \|$", part, re.MULTILINE):
        for name in re.findall(r"\b[A-Z][a-z]+(?:[A-Z][a-z]+)*\b", re.split(r"[:(]| with ", row)[0]):
            yield int(code), name


def test_each_call_is_sent_as_the_page_says(_):
    with StandIn() as place:
        coordinator = quick(place)
        trip = coordinator.start(limit=60_000)
        path = f"/lra-coordinator/{trip.id}"
        equal("a start", last(place), ("POST", "/lra-coordinator", {"limit": 60_000}))
        equal("its URI", trip.uri, place.base[:-1] + path)
        equal("a status", (trip.status(), last(place)), ("Active", ("GET", path, None)))
        inner = trip.start(limit=0)
        equal("a nested start", last(place), ("POST", "/lra-coordinator", {"limit": 0, "parent": trip.uri}))
        equal("one by a URI", coordinator.start(parent=trip.uri).status(), "Active")
        member = trip.join(**ADDRESSES)
        equal("a join", last(place), ("PUT", path, ADDRESSES))
        equal("the same join", coordinator.join(trip.uri, **ADDRESSES).uri, member.uri)
        other = trip.join(after="http://q.test/a")
        equal("a join in short", last(place), ("PUT", path, {"after": "http://q.test/a"}))
        other.leave()
        equal("a leave", last(place), ("PUT", path + "/remove", {"recovery": other.uri}))
        trip.renew(5)
        equal("a renewal", last(place), ("PUT", path + "/renew", {"limit": 5}))
        equal("a member", member.status(), "Active")
        equal("its request", last(place), ("GET", f"/lra-recovery/{id_of(member.uri)}", None))
        inside = f"/lra-coordinator/{inner.id}"
        equal("a cancel", (inner.cancel(), last(place)), ("Cancelled", ("PUT", inside + "/cancel", None)))
        equal("a close", (trip.close(), last(place)), ("Closing", ("PUT", path + "/close", None)))
        equal("a close again", coordinator.close(trip.uri), "Closing")
        equal("a report", member.report("Completed"), "Completed")
        equal("its request", last(place), ("PUT", f"/lra-recovery/{id_of(member.uri)}", {"status": "Completed"}))
        equal("connections", place.connections, 1)
        fields = place.requests[0].fields
        equal("Host", fields["Host"], f"127.0.0.1:{place.port}")
        check("no key is sent", "Authorization" not in fields)


def test_a_member_that_has_left_is_told_as_that(_):
    with StandIn() as place:
        coordinator = quick(place)
        trip = coordinator.start()
        member = trip.join(**ADDRESSES)
        member.leave()
        equal("how it stands", (member.status(), coordinator.member_status(member.uri)), ("Left", "Left"))
        trip.close()
        raised(raxunto.HasLeft, member.report, "Completed")
        equal("after the end", member.status(), "Left")


def test_a_key_is_sent_with_each_request(_):
    with StandIn() as place:
        action = quick(place, key="c2hvcA.4711").start()
        action.status()
        equal("keys", [it.fields["Authorization"] for it in place.requests], 2 * ["Bearer c2hvcA.4711"])


def test_each_refusal_of_the_page_has_a_class(setting):
    listed = dict((name, code) for code, name in refusals(setting))
    equal("how many the page lists", len(listed), 25)
    kinds = inspect.getmembers(raxunto, lambda it: inspect.isclass(it) and issubclass(it, raxunto.Refused))
    classes = {name: it for name, it in kinds if it is not raxunto.Refused}
    equal("the classes", {name: it.code for name, it in classes.items()}, listed)
    for name, code in listed.items():
        body = {"error": name, **MORE.get(name, {})}
        with StandIn(Says(reply(code, body), False)) as place:
            fault = raised(classes[name], quick(place, patience=0).status, ACTION)
            equal("its name and code", (fault.name, fault.code, fault.body), (name, code, body))
            check(f"{fault} names it", name in str(fault) and str(code) in str(fault))
            for key, value in MORE.get(name, {}).items():
                equal(f"{key} of {name}", getattr(fault, key), value)


def test_refusals_that_nobody_knows_keep_their_name(_):
    for code, name in ((418, "Teapot"), (404, "Full"), (503, "NoSuchAction"), (500, "Refused"), (499, "")):
        with StandIn(Says(reply(code, {"error": name}), False)) as place:
            fault = raised(raxunto.Refused, quick(place, patience=0).status, ACTION)
            equal("its name and code", (fault.name, fault.code), (name, code))


def test_an_outermost_and_a_nested_start_find_their_site(_):
    missing = Says(reply(404, {"error": "NoSuchAction"}), True)
    with StandIn() as place:
        trip = quick(place).start()
        place.faults = [missing, Says(reply(201, {"lra": trip.uri}), True)]
        equal("behind a proxy", trip.start().uri, trip.uri)
        paths = [it.path for it in place.sent("POST")[1:]]
        equal("its paths", paths, ["/lra-coordinator", f"/lra-coordinator/{trip.id}"])
        place.faults = [missing]
        raised(raxunto.NoSuchAction, trip.start)
        equal("requests", len(place.sent("POST")), 5)


def test_identifiers_lead_below_the_base_alone(_):
    name = "00000000-0000-8007-8000-00000000000f"
    cases = {
        "BASElra-coordinator/": "/shop/lra-coordinator/",
        "BASEsite/2/lra-coordinator/": "/shop/site/2/lra-coordinator/",
        "http://elsewhere.test/lra-coordinator/": "/shop/lra-coordinator/",
        "https://elsewhere.test:1/a/b/lra-coordinator/": "/shop/lra-coordinator/",
        "http://127.0.0.2:PORT/shop/site/2/lra-coordinator/": "/shop/lra-coordinator/",
        "BASE../admin/lra-coordinator/": "/shop/lra-coordinator/",
        "BASE%2e%2e/admin/lra-coordinator/": "/shop/lra-coordinator/",
        "BASEa?b/lra-coordinator/": "/shop/lra-coordinator/",
        "BASE/x/lra-coordinator/": "/shop/lra-coordinator/",
        "BASElra-coordinator/lra-coordinator/": "/shop/lra-coordinator/lra-coordinator/",
    }
    with StandIn(prefix="/shop/") as place:
        coordinator = Coordinator(place.base[:-1])
        for uri, path in cases.items():
            uri = uri.replace("BASE", place.base).replace("PORT", str(place.port)) + name
            is_known = path == "/shop/lra-coordinator/"
            raised(raxunto.NoSuchAction if is_known else raxunto.BadMethod, coordinator.status, uri)
            equal(uri, place.requests[-1].path, path + name)
        trip = coordinator.start()
        equal("a start", last(place)[1], "/shop/lra-coordinator")
        raised(raxunto.BadMethod, coordinator.start, parent=f"{place.base}site/2/lra-coordinator/{trip.id}")
        equal("a nested one", last(place)[1], "/shop/site/2/lra-coordinator")


def test_mistakes_are_told_before_anything_is_sent(_):
    with StandIn() as place:
        coordinator = quick(place)
        after = (ACTION + it for it in ("\r\nX: y", "\n", "/", "?x", " "))
        for uri in (None, "", "x", MEMBER, ACTION.upper(), "\n" + ACTION, *after):
            raised(ValueError, coordinator.action, uri)
            if uri is not None:
                raised(ValueError, coordinator.close, uri)
                raised(ValueError, coordinator.start, parent=uri)
        for uri in ("", ACTION, MEMBER + "\n", MEMBER + "#x"):
            raised(ValueError, coordinator.member_status, uri)
            raised(ValueError, coordinator.leave, ACTION, uri)
        bad = ("http://p.test/" + it for it in ("\r\nX: y", "a b", "\0", "\t", "\u00e4"))
        for address in ("", 5, *bad):
            for kind in ADDRESSES:
                raised(ValueError, coordinator.join, ACTION, **{kind: address})
        for limit in (-1, 2**64, 1.5, True, "5"):
            raised(ValueError, coordinator.start, limit)
            raised(ValueError, coordinator.renew, ACTION, limit)
        raised(ValueError, coordinator.report, MEMBER, "Active")
        equal("requests", place.requests, [])
    for key in ("", "a b", "a\r\nX: y", "\u00e4"):
        raised(ValueError, Coordinator, "http://127.0.0.1:1/", key)
    for base in (
        *("", "127.0.0.1:8080", "ftp://h.test/", "http:///", "http://u:p@h.test/", "http://h.test/?x", "file:///etc"),
        *("http://h.test/#", "http://h.test:x/", "http://h.test:65536/", "http://h.test/\r\nX: y", "http://h.test/a b"),
        *("http://h.test/\u00e4", None),
    ):
        raised(ValueError, Coordinator, base)
    for times in ({"timeout": 0}, {"timeout": -1}, {"patience": -1}, {"timeout": float("nan")}):
        raised(ValueError, Coordinator, "http://127.0.0.1:1/", **times)


def test_a_block_closes_its_action(_):
    with StandIn() as place:
        coordinator = quick(place)
        with coordinator.start(limit=5000) as trip:
            with trip.start() as inner:
                equal("inside", inner.status(), "Active")
            equal("the inner one", inner.status(), "Closed")
        equal("the outer one", trip.status(), "Closed")


def test_a_block_that_raises_cancels_its_action(_):
    with StandIn() as place:
        coordinator = quick(place)
        for kind in (RuntimeError, KeyboardInterrupt, SystemExit, GeneratorExit):
            try:
                with coordinator.start() as trip:
                    raise kind("as wanted")
            except kind as it:
                equal("what is raised", str(it), "as wanted")
            equal("the action", trip.status(), "Cancelled")


def test_a_block_that_ends_its_action_is_asked_no_more(_):
    with StandIn() as place:
        coordinator = quick(place)
        with coordinator.start() as trip:
            trip.cancel()
        try:
            with coordinator.start() as other:
                coordinator.close(other)
                raise RuntimeError
        except RuntimeError:
            pass
        equal("how they ended", (trip.status(), other.status()), ("Cancelled", "Closed"))
        equal("requests", len(place.sent("PUT")), 2)


def test_a_block_tells_that_its_limit_has_passed(_):
    with StandIn() as place:
        coordinator = quick(place)
        try:
            with coordinator.start(limit=1) as trip:
                place.actions[trip.id]["status"] = "Cancelled"
            raise AssertionError("nothing is raised")
        except raxunto.NotActive as it:
            equal("its status", it.status, "Cancelled")


def test_what_a_block_raises_isnt_hidden_by_a_cancel_that_fails(_):
    with StandIn() as place:
        coordinator = quick(place, patience=0)
        try:
            with coordinator.start() as trip:
                place.actions[trip.id]["status"] = "Closed"
                raise RuntimeError("as wanted")
        except RuntimeError as it:
            equal("what is raised", str(it), "as wanted")


def test_a_wait_ends_with_the_action_or_with_its_time(_):
    with StandIn() as place:
        trip = quick(place).start()
        equal("in time", trip.wait(0.1), "Active")
        threading.Timer(0.1, lambda: place.actions[trip.id].update(status="FailedToClose")).start()
        equal("later", trip.wait(5), "FailedToClose")


def test_each_thread_has_a_connection_of_its_own(_):
    with StandIn() as place:
        coordinator = quick(place)
        trip = coordinator.start()

        def ask():
            for _ in range(20):
                equal("a status", trip.status(), "Active")

        threads = [threading.Thread(target=ask) for _ in range(8)]
        for it in threads:
            it.start()
        for it in threads:
            it.join()
        equal("requests", len(place.requests), 161)
        equal("connections", place.connections, 9)
        by = {}
        for it in place.requests:
            by.setdefault(it.connection, []).append(it)
        equal("requests of each", sorted(len(it) for it in by.values()), [1] + 8 * [20])
