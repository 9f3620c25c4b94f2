"""Replies of a service, which `fuzz` holds against docs/use/http.md and docs/use/narayana.md."""
import json
import re

from chunked import CONTINUE
from mutations import ACTIONS

REPLY = re.compile(rb"HTTP/1\.1 (\d{3}) ([A-Za-z ]+)\r\n((?:[A-Za-z-]+: [^\r\n]*\r\n)*)\r\n")
FIELDS = (
    b"Content-Type Content-Length Location Long-Running-Action Long-Running-Action-Recovery Allow Connection"
).split()
PHRASES = {
    200: "OK", 201: "Created", 202: "Accepted",
    400: "Bad Request", 404: "Not Found", 405: "Method Not Allowed", 409: "Conflict", 410: "Gone",
    412: "Precondition Failed", 413: "Payload Too Large", 417: "Expectation Failed",
    500: "Internal Server Error", 501: "Not Implemented", 503: "Service Unavailable",
}
REFUSALS = {
    400: "BadHead BadLength BadBody BadAddresses LimitTooFar", 404: "NoSuchPath NoSuchAction NoSuchMember",
    405: "BadMethod", 409: "WrongAction TooDeep OldJournal", 410: "HasLeft", 412: "NotActive NotAsked", 413: "TooLarge",
    500: "NoSuchClerk", 501: "Chunked", 503: "Full",
}
# What the dialect of narayana.md has besides: fields, versions, and the refusals that are told as in the own interface,
# since the request can't be read.
OTHERS = {*FIELDS, b"Narayana-LRA-API-version"}
VERSIONS = {None, b"1.0", b"1.1", b"1.2"}
UNREAD = {400: "BadHead BadLength", 413: "TooLarge", 501: "Chunked"}
STATES = [it.decode() for it in ACTIONS]


class Finding(Exception):
    """What a case shows to be wrong."""


def want(fact, what):
    if not fact:
        raise Finding(what)


def judged(out, heads, judge, interim=b""):
    """The replies of a connection, each whole, with its code, and whether it closes. One to HEAD has no body. Interim
    responses are passed over."""
    found, at = [], 0
    while at < len(out):
        if interim and out.startswith(interim, at):
            at += len(interim)
            continue
        head = REPLY.match(out, at)
        want(head, f"no reply begins with {out[at : at + 100]}")
        code, fields = int(head[1]), [it.split(b": ", 1) for it in head[3].split(b"\r\n")[:-1]]
        names = [it[0] for it in fields]
        want(PHRASES.get(code) == head[2].decode(), f"a reply says {head[1]} {head[2]}")
        want({b"Content-Type", b"Content-Length"} <= set(names), f"a reply has the fields {names}")
        size = int(dict(fields)[b"Content-Length"])
        body = out[head.end() : head.end() + size]
        if heads and size and (not body or body.startswith(b"HTTP/1.1 ")):
            body = None
        want(body is None or len(body) == size, "a reply is cut")
        try:
            judge(code, names, dict(fields), body)
        except ValueError as fault:
            raise Finding(f"{code} has the body {body}: {fault}") from None
        at = head.end() + len(body or b"")
        found.append((out[head.start() : at], code, b"Connection" in names))
    return found


def own(out, heads=False):
    """The replies of the own interface."""
    return judged(out, heads, judge_own)


def chunked(out, heads=False):
    """The same where bodies may be chunked."""
    return judged(out, heads, judge_own, CONTINUE)


def dialect(out, heads=False):
    """The replies of the dialect."""
    return judged(out, heads, judge_dialect)


def judge_own(code, names, _, body):
    want(names == [it for it in FIELDS if it in names] and names[:2] == FIELDS[:2], f"a reply has the fields {names}")
    want(
        (b"Allow" in names) == (code == 405) and (b"Location" in names) == (code == 201),
        f"{code} has the fields {names}",
    )
    if body is not None:
        judge_body(code, body)


def judge_body(code, body):
    try:
        value = json.loads(body)
    except ValueError:
        raise Finding(f"a reply has the body {body}") from None
    again = json.dumps(value, separators=(",", ":"), sort_keys=True, ensure_ascii=False)
    want(isinstance(value, dict) and again.encode() == body, f"a reply has the body {body}")
    if code < 300:
        want("error" not in value and value, f"{code} has the body {body}")
    else:
        want(value.get("error") in REFUSALS[code].split(), f"{code} has the body {body}")


def judge_dialect(code, names, fields, body):
    """Holds a reply against narayana.md: a text, or the same as a JSON string; or a request isn't read at all."""
    want(len(set(names)) == len(names) and set(names) <= OTHERS, f"a reply has the fields {names}")
    want((b"Allow" in names) == (code == 405), f"{code} has the fields {names}")
    want(fields.get(b"Narayana-LRA-API-version") in VERSIONS, f"a reply has the fields {fields}")
    if body is None:
        return
    text = body.decode()
    if fields[b"Content-Type"] == b"application/json":
        text = json.loads(text)
        if isinstance(text, dict):
            judge_body(code, body)
            unread = text["error"] in UNREAD.get(code, "").split() and b"Connection" in names
            want(unread, f"{code} has the body {body}")
            return
        want(isinstance(text, str), f"{code} has the body {body}")
    else:
        want(fields[b"Content-Type"] == b"text/plain", f"a reply has the fields {fields}")
    judge_text(code, fields, text)


def judge_text(code, fields, text):
    """Holds the text of a reply against its code and fields."""
    told = {name: fields[name].decode() for name in fields if name == b"Location" or name.startswith(b"Long-Running")}
    if code == 201 or code == 200 and told:
        wanted = "Long-Running-Action" if code == 201 else "Long-Running-Action-Recovery"
        want(
            text.startswith("http") and told == {b"Location": text, wanted.encode(): text},
            f"{code} {text!r} has the fields {fields}",
        )
        return
    want(not told, f"{code} {text!r} has the fields {fields}")
    if code < 300:
        states = ("Closing", "Cancelling") if code == 202 else ("", *STATES)
        want(text in states, f"{code} has the text {text!r}")
    else:
        # A sentence, or a name. Those of one word are of the own interface; 410 isn't told.
        want(" " in text or text in REFUSALS.get(code, "").split(), f"{code} has the text {text!r}")
        want(code != 410 and text != "WrongAction", f"{code} has the text {text!r}")
