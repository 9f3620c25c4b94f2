"""A coordinator that is none: garbage, redirections, bodies without end, and replies that say what can't be."""
import json
import time

import raxunto
from exchanges import ACTION, quick, raised
from raxunto import Coordinator
from service import LATE, check, equal
from standin import Says, StandIn, reply

STATUS = {"lra": ACTION, "status": "Active"}
HEAD = b"HTTP/1.1 200 OK\r\n"
BODY = json.dumps(STATUS).encode()
# Replies that aren't HTTP/1.1, or have no length that can be taken.
GARBAGE = {
    "no line": b"\r\n\r\n",
    "other bytes": bytes(range(256)),
    "a greeting": b"220 mail.test ESMTP\r\n",
    "TLS": b"\x15\x03\x01\x00\x02\x02\x46",
    "another version": b"HTTP/2.0 200 OK\r\n\r\n",
    "a code of four digits": b"HTTP/1.1 2000 OK\r\n\r\n",
    "no code": b"HTTP/1.1\r\n\r\n",
    "a line without end": b"HTTP/1.1 200 " + 100_000 * b"x",
    "a field without end": HEAD + b"X: " + 100_000 * b"x",
    "too many fields": HEAD + 1000 * b"X: y\r\n" + b"\r\n",
    "no length": HEAD + b"\r\n" + BODY,
    "two lengths": HEAD + b"Content-Length: 2\r\nContent-Length: %d\r\n\r\n" % len(BODY) + BODY,
    "two lengths, the first right": HEAD + b"Content-Length: %d\r\nContent-Length: 2\r\n\r\n" % len(BODY) + BODY,
    "a length below 0": HEAD + b"Content-Length: -5\r\n\r\n" + BODY,
    "a length that is none": HEAD + b"Content-Length: x\r\n\r\n" + BODY,
    "a chunked body": HEAD + b"Transfer-Encoding: chunked\r\n\r\n%x\r\n" % len(BODY) + BODY + b"\r\n0\r\n\r\n",
    "a chunk below 0": HEAD + b"Transfer-Encoding: chunked\r\n\r\n-1\r\n" + 100_000 * b"x",
    "a length of a terabyte": HEAD + b"Content-Length: 1000000000000\r\n\r\n" + 100_000 * b"x",
    "a body that is just too long": reply(200, b" " * 70_000 + BODY),
}
# Bodies that are no answer.
BODIES = {
    "nothing": b"",
    "no object": b"[]",
    "a text": b'"Active"',
    "a page": b"<html></html>",
    "half an object": BODY[:-1],
    "two objects": BODY + BODY,
    "bytes that aren't UTF-8": b'{"status":"\xff"}',
    "another unicode": json.dumps(STATUS).encode("utf-16"),
    "lists in lists": 60_000 * b"[",
    "a number without end": b'{"status":' + 60_000 * b"9" + b"}",
    "no status": b"{}",
    "a state of a member": b'{"status":"Completed"}',
    "a list": b'{"status":["Active"]}',
    "a state and a blank": b'{"status":"Active "}',
}


def test_garbage_is_told_as_that(_):
    for name, data in GARBAGE.items():
        with StandIn(Says(data, False)) as place:
            try:
                error = raised(raxunto.BadReply, quick(place, patience=5).status, ACTION)
            except AssertionError as it:
                raise AssertionError(f"{name}: {it}") from None
            equal(f"requests for {name}", len(place.requests), 1)
            check(f"{name} is told in short", len(str(error)) < 300)


def test_a_long_line_that_breaks_off_is_told_in_short(_):
    with StandIn(Says(b"HTTP/1.1 " + 60_000 * b"x", False)) as place:
        check("it is", len(str(raised(raxunto.Unreachable, quick(place, patience=0).status, ACTION))) < 300)


def test_a_body_that_is_no_answer_is_told_as_that(_):
    for name, body in BODIES.items():
        with StandIn(Says(reply(200, body), True)) as place:
            try:
                error = raised(raxunto.BadReply, quick(place).status, ACTION)
            except AssertionError as it:
                raise AssertionError(f"{name}: {it}") from None
            check(f"{name} is told in short", len(str(error)) < 300)


def test_a_redirection_isnt_followed(_):
    for code in (300, 301, 302, 303, 304, 307, 308):
        with StandIn() as other, StandIn() as place:
            field = f"Location: {other.base}lra-coordinator"
            place.faults = 3 * [Says(reply(code, {}, (field,)), False)]
            coordinator = quick(place, key="secret")
            for call in (coordinator.start, lambda: coordinator.status(ACTION), lambda: coordinator.close(ACTION)):
                equal("the code", raised(raxunto.BadReply, call).code, code)
            equal("connections elsewhere", other.connections, 0)


def test_other_codes_are_no_answers(_):
    for code in (100, 200, 202, 203, 204, 206):
        with StandIn(Says(reply(code, {"lra": ACTION}), False)) as place:
            raised(raxunto.BadReply, quick(place, patience=0).start)
    for code in (201, 202, 204):
        with StandIn(Says(reply(code, STATUS), False)) as place:
            raised(raxunto.BadReply, quick(place, patience=0).status, ACTION)


def test_interim_replies_without_end_have_their_time(_):
    with StandIn(Says(200_000 * b"HTTP/1.1 100 Continue\r\n\r\n", True)) as place:
        begun = time.monotonic()
        raised(raxunto.Unreachable, quick(place, timeout=0.5, patience=0).start)
        check("time", time.monotonic() - begun < 2 * LATE)


def test_identifiers_in_replies_are_looked_at(_):
    for uri in (
        *(None, "", 5, [ACTION], "x", ACTION + "\r\nX: y", ACTION.replace("coordinator", "recovery"), ACTION + "?x"),
        *("ftp" + ACTION[4:], 30_000 * "x", ACTION.replace("8007", "80078"), "http://h.test/lra-coordinator/../../x"),
    ):
        with StandIn(Says(reply(201, {"lra": uri}), False)) as place:
            error = raised(raxunto.BadReply, quick(place).start)
            check("it is told in short", len(str(error)) < 300)
    for uri in (None, "", ACTION, "x"):
        with StandIn(Says(reply(200, {"recovery": uri}), False)) as place:
            raised(raxunto.BadReply, quick(place).join, ACTION, after="http://p.test/")


def test_an_identifier_of_another_host_has_no_key_sent_there(_):
    with StandIn() as other, StandIn() as place:
        place.faults = [Says(reply(201, {"lra": other.base + "lra-coordinator/" + ACTION[-36:]}), True)]
        action = quick(place, key="secret").start()
        raised(raxunto.NoSuchAction, action.status)
        equal("connections elsewhere", other.connections, 0)
        equal("the path here", place.requests[-1].path, "/lra-coordinator/" + ACTION[-36:])


def test_a_refusal_that_says_too_much_is_told_in_short(_):
    with StandIn(Says(reply(400, {"error": 60_000 * "x\n"}), False)) as place:
        error = raised(raxunto.BadReply, quick(place).status, ACTION)
        equal("a body that is too long", error.code, 400)
    with StandIn(Says(reply(400, {"error": 20_000 * "x\n", "status": 5, "which": {}}), False)) as place:
        error = raised(raxunto.Refused, quick(place).status, ACTION)
        check("it is told in short", len(str(error)) < 300 and "\n" not in str(error))
    for kind, key in ((raxunto.NotActive, "status"), (raxunto.Full, "which")):
        with StandIn(Says(reply(kind.code, {"error": kind.__name__, key: 5}), False)) as place:
            equal(key, getattr(raised(kind, quick(place, patience=0).status, ACTION), key), "")


def test_a_server_of_other_words_speaks_no_tls(_):
    with StandIn() as place:
        coordinator = Coordinator(place.base.replace("http:", "https:"), timeout=1, patience=0)
        check("nothing was sent", not raised(raxunto.Unreachable, coordinator.start).maybe_done)
        equal("requests", place.requests, [])
