"""A client of Raxunto's coordinator, and a base for its members. One file, of Python's standard library alone.

A hotel, whole:

    import http.server
    import raxunto

    HERE = "http://127.0.0.1:8081/"
    coordinator = raxunto.Coordinator("http://127.0.0.1:8080/")
    rooms = {}  # a database in a real service, which outlasts a restart

    class Hotel(raxunto.MemberHandler):
        def do_POST(self):
            action = coordinator.action(self.headers["Long-Running-Action"])
            action.join(**self.addresses(HERE, action))
            held = rooms.setdefault(action.id, "held") == "held"  # else it was cancelled in between
            self.reply(200 if held else 409)

        @raxunto.complete
        def keep(self, asked):
            rooms[asked.action_id] = "booked"

        @raxunto.compensate
        def give_back(self, asked):
            rooms[asked.action_id] = "free"  # asked twice it does the same, and so it does before it is held

    if __name__ == "__main__":
        http.server.ThreadingHTTPServer(("127.0.0.1", 8081), Hotel).serve_forever()

And an agency that books there. The trip is closed at the end, or cancelled by whatever is raised in between:

    import urllib.request
    import raxunto

    coordinator = raxunto.Coordinator("http://127.0.0.1:8080/", key=None, timeout=10)

    with coordinator.start(limit=60_000) as trip:  # in milliseconds
        fields = {"Long-Running-Action": trip.uri}
        urllib.request.urlopen(urllib.request.Request("http://127.0.0.1:8081/rooms", b"", fields), timeout=10)
    print(trip.wait(10))  # Closed

What a call raises is a `RaxuntoError`: a `Refused` by the name that docs/use/http.md lists, an `Unreachable`, or a
`BadReply`. A mistake of the caller's is a ValueError, and then nothing was sent.
"""
from __future__ import annotations

import dataclasses
import enum
import http.client
import http.server
import io
import json
import logging
import math
import os
import random
import re
import socket
import ssl
import threading
import time
import types
import urllib.parse
from typing import Any, Callable, ClassVar, Dict, FrozenSet, List, Optional, Set, Tuple, Type, TypeVar, Union

# How an action has ended, and the states before that.
ENDED: FrozenSet[str] = frozenset({"Closed", "FailedToClose", "Cancelled", "FailedToCancel"})
_ACTION_STATES = ENDED | {"Active", "Closing", "Cancelling"}
_MEMBER_ENDS = frozenset({"Completed", "FailedToComplete", "Compensated", "FailedToCompensate"})
_MEMBER_STATES = _MEMBER_ENDS | {"Active", "Completing", "Compensating", "Left"}
_ADDRESSES = ("compensate", "complete", "status", "forget", "after")

_ID = "[0-9a-f]{8}(?:-[0-9a-f]{4}){3}-[0-9a-f]{12}"
_URI = re.compile(rf"https?://[!-~]+/(lra-coordinator|lra-recovery)/({_ID})")
# The segments between a base and `lra-coordinator`. None begins with a dot.
_SEGMENTS = re.compile(r"(?:[A-Za-z0-9_~-][A-Za-z0-9._~-]*/)*")
# What no URL and no key has: blanks, control characters, and what isn't ASCII.
_UNPRINTABLE = re.compile(r"[^!-~]")

# A reply's body is longer than this in no case.
_LONGEST = 65_536
# How many seconds a call waits before it is repeated for the first time, and at most.
_FIRST_PAUSE, _LONGEST_PAUSE = 0.1, 2.0
# How many seconds each question of a wait has at least.
_LEAST = 1.0
# A start takes a connection that is kept only if it has been idle for fewer seconds: a later one may just be ending.
_FRESH = 1.0
# A limit is below this.
_LIMITS = 2**64

_log = logging.getLogger("raxunto")


# Errors


class RaxuntoError(Exception):
    """What kept a call from being carried out, or from being known to be. `maybe_done` says whether it may be.

    `retry_after` is for how many seconds the reply asks that nothing be sent again.
    """

    maybe_done = True
    retry_after = 0


class Unreachable(RaxuntoError):
    """No whole reply came. It may be done if the request may have reached the coordinator."""

    def __init__(self, why: str, maybe_done: bool, stale: bool = False) -> None:
        super().__init__(why, maybe_done, stale)
        self.maybe_done = maybe_done
        # Whether it was sent over a connection that had been kept, and that ended with no reply.
        self._stale = stale

    def __str__(self) -> str:
        return f"{self.args[0]}; the request {'may have arrived' if self.maybe_done else 'was not sent'}"


class BadReply(RaxuntoError):
    """A reply that isn't the coordinator's: a redirection, a proxy's page, garbage."""

    def __init__(self, why: str, code: Optional[int] = None) -> None:
        super().__init__(why[:200], code)
        self.code = code

    def __str__(self) -> str:
        return f"{self.args[0]} (code {self.code})"


class Refused(RaxuntoError):
    """A refusal by the coordinator. One that this file doesn't know is of this class itself."""

    code = 0
    maybe_done = False

    def __init_subclass__(cls, code: int, maybe_done: bool = False) -> None:
        super().__init_subclass__()
        cls.code, cls.maybe_done = code, maybe_done

    def __init__(self, code: int, name: str, body: Optional[Dict[str, Any]] = None) -> None:
        super().__init__(code, name, body)
        self.code = code
        self.name = name
        self.body: Dict[str, Any] = body or {}
        # What the body says beside the name, if it does.
        self.status, self.which = (it if isinstance(it, str) else "" for it in map(self.body.get, ("status", "which")))
        # Whether the same call was sent before, and may have been carried out then.
        self.repeated = False

    def __str__(self) -> str:
        return f"{self.code} {self.name[:100]!r}"


# fmt: off
class BadHead(Refused, code=400): """The request's head can't be read."""
class BadLength(Refused, code=400): """The request's Content-Length is no length."""
class BadBody(Refused, code=400): """The request's body isn't an object with the keys of its route."""
class BadAddresses(Refused, code=400): """A join's addresses aren't those of a member, or are outside the rules."""
class LimitTooFar(Refused, code=400): """The limit would pass the last moment."""
class WrongKey(Refused, code=401): """Keys are asked for, and none that is known was given."""
class WrongHost(Refused, code=403): """The coordinator isn't called by this name."""
class WrongOrigin(Refused, code=403): """The request comes from a page of another place."""
class NoSuchPath(Refused, code=404): """There is no such path."""
class NoSuchAction(Refused, code=404): """There is no such action, or its journal was archived."""
class NoSuchMember(Refused, code=404): """There is no such member, or its journal was archived."""
class BadMethod(Refused, code=405): """The path doesn't take this method."""
class WrongAction(Refused, code=409): """The member is one of another action."""
class TooDeep(Refused, code=409): """Too many actions are nested in each other."""
class OldJournal(Refused, code=409): """The journal's version takes no new limits."""
class HasLeft(Refused, code=410): """The member has left its action."""
class NotActive(Refused, code=412): """The action isn't Active any more. `status` says how it stands."""
class NotAsked(Refused, code=412): """The member reports what it wasn't asked."""
class TooLarge(Refused, code=413): """The request is too long."""
class NoSuchClerk(Refused, code=500): """The coordinator has no clerk for the request."""
class Chunked(Refused, code=501): """The request's body is chunked or packed."""
class Full(Refused, code=503): """There is no room for more, of what `which` says, or no new action is taken."""
class Stopped(Refused, code=503, maybe_done=True): """The coordinator can't write, or is just archiving a journal."""
class Memory(Refused, code=503): """The coordinator was refused memory."""
class Worn(Refused, code=503): """The coordinator's lock has no ticket left."""
# fmt: on

_REFUSALS: Dict[str, Type[Refused]] = {it.__name__: it for it in Refused.__subclasses__()}


# What is sent


def _uri(text: str, route: str) -> Tuple[str, str]:
    """Returns the URI and the ID of an action or a member."""
    found = _URI.fullmatch(text) if isinstance(text, str) else None
    if not found or found[1] != route:
        raise ValueError(f"no URI of {route}: {text!r}")
    return text, found[2]


def _address(kind: str, text: str) -> str:
    """Returns an address of a member, which has no line feed, no blank and nothing else that would end it."""
    if not isinstance(text, str) or not text or _UNPRINTABLE.search(text):
        raise ValueError(f"no address for {kind}: {text!r}")
    return text


def _limit(limit: int) -> int:
    """Returns a limit in milliseconds."""
    if isinstance(limit, bool) or not isinstance(limit, int) or not 0 <= limit < _LIMITS:
        raise ValueError(f"no limit in milliseconds: {limit!r}")
    return limit


@dataclasses.dataclass(frozen=True)
class _Base:
    """What a URL says of which other URLs are made."""

    secure: bool
    host: str
    port: int
    path: str
    text: str

    @classmethod
    def of(cls, url: str) -> _Base:
        """Reads a URL, which ends in a slash whether that is written or not."""
        if not isinstance(url, str) or _UNPRINTABLE.search(url):
            raise ValueError(f"no URL: {url!r}")
        text = url if url.endswith("/") else url + "/"
        parts = urllib.parse.urlsplit(text)
        if parts.scheme not in ("http", "https") or not parts.hostname or "@" in parts.netloc or {"?", "#"} & set(url):
            raise ValueError(f"no URL: {url!r}")
        secure = parts.scheme == "https"
        return cls(secure, parts.hostname, parts.port or (443 if secure else 80), parts.path, text)

    def path_of(self, uri: str, route: str, name: str) -> str:
        """Returns the path at which an identifier is asked for: its own below the base, or the ID's at the base.

        No other host is ever called, and nothing beside the base, whatever a header or a reply names.
        """
        between = uri[len(self.text) : -len(f"{route}/{name}")]
        if not uri.startswith(self.text) or not _SEGMENTS.fullmatch(between):
            between = ""
        return f"{self.path}{between}{route}/{name}"


@dataclasses.dataclass
class _Kept:
    """A connection that is kept for a thread's next call, and since when."""

    connection: http.client.HTTPConnection
    process: int
    since: float

    def is_open(self) -> bool:
        """Returns whether it is this process's, hasn't ended, and has nothing to read that nobody asked for."""
        sock = self.connection.sock
        if sock is None or self.process != os.getpid():
            return False
        try:
            sock.settimeout(0)
            # Of a TLS socket these are the bytes below.
            socket.socket.recv(sock, 1, socket.MSG_PEEK)
        except BlockingIOError:
            return True
        except OSError:
            return False
        return False


class _Timed(io.RawIOBase):
    """Reads what comes until a moment, however slowly it comes."""

    def __init__(self, raw: io.RawIOBase, sock: socket.socket) -> None:
        super().__init__()
        self._raw = raw
        self._sock = sock
        self._end = time.monotonic() + (sock.gettimeout() or 0)
        self.has_ended = False

    def readable(self) -> bool:
        return True

    def readinto(self, room: Any) -> Optional[int]:
        left = self._end - time.monotonic()
        if left <= 0:
            raise socket.timeout("timed out")
        self._sock.settimeout(left)
        got: Optional[int] = self._raw.readinto(room)
        self.has_ended = not got
        return got

    def close(self) -> None:
        self._raw.close()
        super().close()


class _Response(http.client.HTTPResponse):
    """A reply that has to come whole within the time that its socket waits for one byte."""

    def __init__(self, sock: socket.socket, *args: Any, **more: Any) -> None:
        super().__init__(sock, *args, **more)
        self.timed = _Timed(self.fp.detach(), sock)
        self.fp = io.BufferedReader(self.timed)


# The coordinator


class Coordinator:
    """A coordinator at a URL. Threads may share it: each has a connection of its own, which is kept.

    `timeout` is how many seconds one request may take until its reply is there, and until its connection is there.
    `patience` is for how many seconds a call that may be repeated is begun again. `context` is for `https`.
    """

    def __init__(
        self, base_url: str, key: Optional[str] = None, timeout: float = 10.0, patience: float = 10.0,
        context: Optional[ssl.SSLContext] = None,
    ) -> None:
        if key is not None and (not key or _UNPRINTABLE.search(key)):
            raise ValueError("no key: it has blanks or other characters that can't be sent")
        if not timeout > 0 or not patience >= 0:
            raise ValueError(f"no time: {timeout!r}, {patience!r}")
        self._base = _Base.of(base_url)
        self.base_url = self._base.text
        self._fields = {"Content-Type": "application/json"}
        if key is not None:
            self._fields["Authorization"] = f"Bearer {key}"
        self._timeout = timeout
        self._patience = patience
        self._context = (context or ssl.create_default_context()) if self._base.secure else None
        self._own = threading.local()

    def __repr__(self) -> str:
        return f"Coordinator({self.base_url!r})"

    def action(self, uri: str) -> Action:
        """Returns an action by its URI, as a header `Long-Running-Action` has it. Nothing is asked."""
        return Action(self, uri)

    def start(self, limit: Optional[int] = None, parent: Union[Action, str, None] = None) -> Action:
        """Starts an action, which a limit in milliseconds has cancelled, and nests it in its parent if there is one.

        It is repeated only where no connection came about. Where its reply is lost an action may have started of which
        nobody knows: its limit ends it.
        """
        keys: Dict[str, Any] = {} if limit is None else {"limit": _limit(limit)}
        if parent is None:
            return self._start(self._base.path + "lra-coordinator", keys)
        above = self._action(parent)
        keys["parent"] = above.uri
        path = self._path(above)
        try:
            return self._start(path[: -len("/" + above.id)], keys)
        except NoSuchAction as refusal:
            # There is no such parent, or several coordinators are behind one name and this was another's.
            try:
                return self._start(path, keys)
            except BadMethod:
                raise refusal from None

    def join(
        self, action: Union[Action, str], *, compensate: Optional[str] = None, complete: Optional[str] = None,
        status: Optional[str] = None, forget: Optional[str] = None, after: Optional[str] = None,
    ) -> Member:
        """Joins an action with the addresses at which the member is asked. With the same ones it is the same member.

        Where this raises, the member may have joined nevertheless, and may be asked for what it didn't do.
        """
        joined = self._action(action)
        given = zip(_ADDRESSES, (compensate, complete, status, forget, after))
        keys = {kind: _address(kind, it) for kind, it in given if it is not None}
        body = self._call("PUT", self._path(joined), keys, (200,))
        return Member(self, joined, self._told_uri(body, "recovery", "lra-recovery"))

    def close(self, action: Union[Action, str]) -> str:
        """Closes an action, and returns how it stands."""
        return self._end(self._action(action), "close")

    def cancel(self, action: Union[Action, str]) -> str:
        """Cancels an action, and returns how it stands."""
        return self._end(self._action(action), "cancel")

    def leave(self, action: Union[Action, str], member: Union[Member, str]) -> None:
        """Has a member leave its action."""
        recovery = _uri(member if isinstance(member, str) else member.uri, "lra-recovery")[0]
        try:
            self._call("PUT", self._path(self._action(action)) + "/remove", {"recovery": recovery}, (200,))
        except HasLeft as refusal:
            # It left by the request whose reply was lost.
            if not refusal.repeated:
                raise

    def renew(self, action: Union[Action, str], limit: int) -> None:
        """Sets an action's limit anew, in milliseconds from now. 0 takes it away."""
        self._call("PUT", self._path(self._action(action)) + "/renew", {"limit": _limit(limit)}, (200,))

    def status(self, action: Union[Action, str]) -> str:
        """Returns how an action stands."""
        return self._status(self._action(action), math.inf)

    def member_status(self, member: Union[Member, str]) -> str:
        """Returns how a member stands."""
        body = self._call("GET", self._member_path(member), None, (200,))
        return _told_state(body, _MEMBER_STATES)

    def report(self, member: Union[Member, str], end: str) -> str:
        """Tells how a member that said that it is at it has ended, as `Completed`, and returns how it stands."""
        if end not in _MEMBER_ENDS:
            raise ValueError(f"no end of a member: {end!r}")
        body = self._call("PUT", self._member_path(member), {"status": end}, (200,))
        return _told_state(body, _MEMBER_STATES)

    def disconnect(self) -> None:
        """Closes the connection that is kept for this thread."""
        kept: Optional[_Kept] = getattr(self._own, "kept", None)
        self._own.kept = None
        if kept:
            kept.connection.close()

    def _action(self, action: Union[Action, str]) -> Action:
        return Action(self, action) if isinstance(action, str) else action

    def _path(self, action: Action) -> str:
        return self._base.path_of(action.uri, "lra-coordinator", action.id)

    def _member_path(self, member: Union[Member, str]) -> str:
        uri, name = _uri(member if isinstance(member, str) else member.uri, "lra-recovery")
        return self._base.path_of(uri, "lra-recovery", name)

    def _start(self, path: str, keys: Dict[str, Any]) -> Action:
        body = self._call("POST", path, keys, (201,), repeatable=False)
        return Action(self, self._told_uri(body, "lra", "lra-coordinator"))

    def _end(self, action: Action, how: str) -> str:
        body = self._call("PUT", f"{self._path(action)}/{how}", None, (200, 202))
        told = _told_state(body, _ACTION_STATES)
        action.is_ending = True
        return told

    def _status(self, action: Action, last: float) -> str:
        """Returns how an action stands, if that is told until a moment."""
        body = self._call("GET", self._path(action), None, (200,), last=last)
        return _told_state(body, _ACTION_STATES)

    def _told_uri(self, body: Dict[str, Any], key: str, route: str) -> str:
        """Returns the URI that a reply gives."""
        try:
            return _uri(str(body.get(key)), route)[0]
        except ValueError as it:
            raise BadReply(str(it)) from None

    def _call(
        self, method: str, path: str, keys: Optional[Dict[str, Any]], wanted: Tuple[int, ...], repeatable: bool = True,
        last: float = math.inf,
    ) -> Dict[str, Any]:
        """Sends a request, again as long as that is safe and may help, and returns the body of a wanted reply.

        Nothing is waited for after the last moment.
        """
        body = json.dumps(keys, separators=(",", ":")).encode("ascii") if keys else None
        end = min(time.monotonic() + self._patience, last)
        pause, lost = _FIRST_PAUSE, False
        while True:
            try:
                return _read(*self._exchange(method, path, body, repeatable, last), wanted)
            except RaxuntoError as fault:
                if isinstance(fault, Refused):
                    fault.repeated = lost
                lost = lost or fault.maybe_done
                if not _may_pass(fault, repeatable):
                    raise
                stale = isinstance(fault, Unreachable) and fault._stale
                wait = 0.0 if stale else max(random.uniform(pause / 2, pause), fault.retry_after)
                if not stale and time.monotonic() + wait >= end:
                    raise
            time.sleep(wait)
            pause = min(2 * pause, _LONGEST_PAUSE) if wait else pause

    def _time(self, last: float) -> float:
        """Returns how many seconds there are for what begins now."""
        return min(self._timeout, max(last - time.monotonic(), 0.001))

    def _exchange(
        self, method: str, path: str, body: Optional[bytes], repeatable: bool, last: float
    ) -> Tuple[int, bytes, int]:
        """Sends a request once, and returns the code, the body and the `Retry-After` of its reply."""
        connection, is_kept = self._connected(repeatable, last)
        timeout = self._time(last)
        end = time.monotonic() + timeout
        try:
            try:
                connection.sock.settimeout(timeout)
                connection.request(method, path, body, self._fields)
                connection.sock.settimeout(max(end - time.monotonic(), 0.001))
                response = connection.getresponse()
            except (http.client.RemoteDisconnected, ConnectionError) as fault:
                raise Unreachable(_why(fault), maybe_done=True, stale=is_kept) from fault
            reply = response.status, _whole(response), _seconds(response.getheader("Retry-After", ""))
        except (OSError, http.client.HTTPException, ValueError) as fault:
            connection.close()
            if isinstance(fault, (OSError, http.client.IncompleteRead)) or _broke_off(fault):
                raise Unreachable(_why(fault), maybe_done=True) from fault
            raise BadReply(f"no reply in HTTP/1.1: {_why(fault)}") from fault
        except BaseException:
            connection.close()
            raise
        if connection.sock is not None:
            self._own.kept = _Kept(connection, os.getpid(), time.monotonic())
        return reply

    def _connected(self, repeatable: bool, last: float) -> Tuple[http.client.HTTPConnection, bool]:
        """Takes this thread's connection, or makes one, and says whether it was kept."""
        kept: Optional[_Kept] = getattr(self._own, "kept", None)
        self._own.kept = None
        if kept:
            if kept.is_open() and (repeatable or time.monotonic() - kept.since < _FRESH):
                return kept.connection, True
            kept.connection.close()
        connection = self._made(last)
        try:
            connection.connect()
        except (OSError, ValueError) as fault:
            connection.close()
            raise Unreachable(_why(fault), maybe_done=False) from fault
        except BaseException:
            connection.close()
            raise
        return connection, False

    def _made(self, last: float = math.inf) -> http.client.HTTPConnection:
        base, timeout = self._base, self._time(last)
        connection = (
            http.client.HTTPSConnection(base.host, base.port, timeout=timeout, context=self._context)
            if base.secure
            else http.client.HTTPConnection(base.host, base.port, timeout=timeout)
        )
        connection.response_class = _Response
        return connection


def _why(fault: BaseException) -> str:
    """Returns an error in words, which have an end."""
    return f"{type(fault).__name__}: {fault}"[:200]


def _may_pass(fault: RaxuntoError, repeatable: bool) -> bool:
    """Returns whether a call may be repeated after an error, and may fare better then."""
    if isinstance(fault, Unreachable):
        # A certificate doesn't get better.
        return not isinstance(fault.__cause__, ssl.SSLCertVerificationError) and (repeatable or not fault.maybe_done)
    if isinstance(fault, BadReply):
        # A proxy's, which doesn't reach the coordinator.
        return repeatable and fault.code in (502, 503, 504)
    return repeatable and isinstance(fault, (Stopped, Memory))


def _broke_off(fault: Exception) -> bool:
    """Returns whether a reply ended in its first line."""
    line = str(fault)
    is_line = isinstance(fault, http.client.BadStatusLine) and "\n" not in line
    return is_line and line[:7] == "HTTP/1."[: len(line)]


def _whole(response: http.client.HTTPResponse) -> bytes:
    """Reads a reply's body, which has a length."""
    if isinstance(response, _Response) and response.timed.has_ended:
        # The library takes a head that broke off for a whole one.
        raise http.client.IncompleteRead(b"")
    lengths: List[str] = response.headers.get_all("Content-Length", [])
    length = response.length
    if len(lengths) != 1 or length is None or not 0 <= length <= _LONGEST:
        response.close()
        raise BadReply(f"a reply of length {', '.join(lengths)[:40] or 'unknown'}", response.status)
    body = response.read(length) if length else response.read()
    if len(body) < length:
        raise http.client.IncompleteRead(body, length - len(body))
    return body


def _seconds(text: str) -> int:
    """Returns the seconds of a `Retry-After`, or 0 where there is none in seconds."""
    return int(text) if re.fullmatch("[0-9]{1,9}", text) else 0


def _read(code: int, text: bytes, retry_after: int, wanted: Tuple[int, ...]) -> Dict[str, Any]:
    """Returns what a reply says, if its code is one of those that are wanted. A refusal is raised."""
    try:
        return _told(code, text, wanted)
    except RaxuntoError as fault:
        fault.retry_after = retry_after
        raise


def _told(code: int, text: bytes, wanted: Tuple[int, ...]) -> Dict[str, Any]:
    """Returns the body of a reply by its code and its text."""
    try:
        body = json.loads(text.decode("utf-8"))
    except (ValueError, RecursionError):
        body = None
    if not isinstance(body, dict):
        raise BadReply(f"a body that is no object in JSON: {text[:60]!r}", code)
    if code in wanted:
        return body
    name = body.get("error")
    if not 400 <= code <= 599 or not isinstance(name, str):
        raise BadReply(f"neither an answer nor a refusal: {text[:60]!r}", code)
    kind = _REFUSALS.get(name, Refused)
    raise (kind if kind.code == code else Refused)(code, name, body)


def _told_state(body: Dict[str, Any], states: FrozenSet[str]) -> str:
    """Returns the state that a reply tells."""
    told = body.get("status")
    if not isinstance(told, str) or told not in states:
        raise BadReply(f"no state: {told!r:.60}")
    return told


# Actions and members


class Action:
    """An action. As a context manager it is closed at the end of its block, and cancelled where that raises.

    Where the block itself has closed or cancelled it, by this object, nothing is asked at the end.
    """

    def __init__(self, coordinator: Coordinator, uri: str) -> None:
        self.coordinator = coordinator
        self.uri, self.id = _uri(uri, "lra-coordinator")
        # Whether it was closed or cancelled by this object.
        self.is_ending = False

    def __repr__(self) -> str:
        return f"Action({self.uri!r})"

    def __enter__(self) -> Action:
        return self

    def __exit__(
        self, kind: Optional[Type[BaseException]], fault: Optional[BaseException], trace: Optional[types.TracebackType]
    ) -> None:
        if self.is_ending:
            return
        if kind is None:
            self.close()
            return
        try:
            self.cancel()
        except RaxuntoError as why:
            # What was raised in the block matters more.
            _log.warning("%s isn't cancelled: %s", self.uri, why)

    def start(self, limit: Optional[int] = None) -> Action:
        """Starts an action nested in this one."""
        return self.coordinator.start(limit, self)

    def join(
        self, *, compensate: Optional[str] = None, complete: Optional[str] = None,
        status: Optional[str] = None, forget: Optional[str] = None, after: Optional[str] = None,
    ) -> Member:
        """Joins it with the addresses at which the member is asked. With the same ones it is the same member."""
        return self.coordinator.join(
            self, compensate=compensate, complete=complete, status=status, forget=forget, after=after
        )

    def close(self) -> str:
        """Closes it, and returns how it stands."""
        return self.coordinator.close(self)

    def cancel(self) -> str:
        """Cancels it, and returns how it stands."""
        return self.coordinator.cancel(self)

    def leave(self, member: Union[Member, str]) -> None:
        """Has a member leave it."""
        self.coordinator.leave(self, member)

    def renew(self, limit: int) -> None:
        """Sets its limit anew, in milliseconds from now."""
        self.coordinator.renew(self, limit)

    def status(self) -> str:
        """Returns how it stands."""
        return self.coordinator.status(self)

    def wait(self, seconds: float) -> str:
        """Asks how it stands until it has ended, for so many seconds at most, and returns what was told last.

        A question has the time that is left, or a second where less is. Where none is answered by then, this raises.
        """
        end = time.monotonic() + seconds
        pause, told = 0.02, ""
        while True:
            begun = time.monotonic()
            last = max(end, begun + _LEAST)
            try:
                told = self.coordinator._status(self, last)
            except Unreachable:
                # A question that this wait has cut short takes nothing from what was told before.
                if not told or (time.monotonic() < end and begun + self.coordinator._patience < last):
                    raise
            left = end - time.monotonic()
            if told in ENDED or left <= 0:
                return told
            time.sleep(min(pause, left))
            pause = min(2 * pause, 1.0)


@dataclasses.dataclass(frozen=True)
class Member:
    """A member that has joined an action. Its URI is what the coordinator calls its recovery."""

    coordinator: Coordinator
    action: Action
    uri: str

    def status(self) -> str:
        """Returns how it stands."""
        return self.coordinator.member_status(self)

    def leave(self) -> None:
        """Leaves its action."""
        self.coordinator.leave(self.action, self)

    def report(self, end: str) -> str:
        """Tells how it has ended, as `Completed`, and returns how it stands."""
        return self.coordinator.report(self, end)


# What a member is asked


class Answer(enum.Enum):
    """What a member may answer beside the name of a state."""

    DONE = "done"
    AT_IT = "at it"
    FAILED = "failed"
    AGAIN = "again"


DONE, AT_IT, FAILED, AGAIN = Answer.DONE, Answer.AT_IT, Answer.FAILED, Answer.AGAIN

# What a callback's method returns: an answer, the name of a state, or None, which is DONE but of a status.
Result = Union[Answer, str, None]


@dataclasses.dataclass(frozen=True)
class Callback:
    """What the coordinator asks of a member."""

    # One of complete, compensate, status, forget and after.
    kind: str
    # The URIs of the action and of the member, and that of the action's parent, if there is one.
    action: str
    recovery: str
    parent: Optional[str]
    # The action's ID, and the text that the member's addresses were made with: together they name the member's work.
    action_id: str
    work: str
    # How the action has ended, where that is what is told (after).
    end: Optional[str]


_Method = TypeVar("_Method", bound=Callable[[Any, Callback], Result])
# How each callback is asked, and what it comes to.
_METHODS = {"complete": "PUT", "compensate": "PUT", "status": "GET", "forget": "DELETE", "after": "PUT"}
_DIRECTIONS = {
    "complete": ("Completed", "Completing", "FailedToComplete"),
    "compensate": ("Compensated", "Compensating", "FailedToCompensate"),
}


def _marking(kind: str) -> Callable[[_Method], _Method]:
    """Returns a decorator that marks the method of a MemberHandler for a kind of callback."""

    def mark(method: _Method) -> _Method:
        setattr(method, "_raxunto_kinds", (*getattr(method, "_raxunto_kinds", ()), kind))
        return method

    return mark


complete = _marking("complete")  # completes the member's work
compensate = _marking("compensate")  # undoes the member's work
status = _marking("status")  # says how the member's work stands
forget = _marking("forget")  # forgets the member's work
after = _marking("after")  # is told how the action has ended


def _reply_to(kind: str, result: Result) -> Tuple[int, str]:
    """Returns the code and the body of the reply that says what a callback's method returned."""
    if result is AGAIN:
        return 503, ""
    if kind in _DIRECTIONS:
        done, at_it, failed = _DIRECTIONS[kind]
        if result in (None, DONE, done):
            return 200, done
        if result in (AT_IT, at_it):
            return 202, at_it
        if result in (FAILED, failed):
            return 409, failed
    elif kind == "status":
        if result is DONE:
            return 410, ""
        if result is AT_IT:
            return 202, ""
        if isinstance(result, str) and result in _MEMBER_STATES - {"Active", "Left"}:
            return 200, result
    elif result in (None, DONE):
        return 200, ""
    raise TypeError(f"{kind} can't be answered by {result!r}")


class MemberHandler(http.server.BaseHTTPRequestHandler):
    """Answers the coordinator's callbacks by the methods that are marked `@complete`, `@compensate` and so on.

    A method gets a Callback, and returns None or DONE, AT_IT, FAILED, AGAIN or the name of a state; a status returns
    the name of a state, DONE, AT_IT or AGAIN. What it raises is logged, and has the coordinator ask again. Any of them
    may be called again after it was done, and for work that never was: it has to do the same then, or nothing. While a
    method works for a member, in this process, none but a status is called for that member: it is asked again later.

    `do_POST` is the service's own. A `do_GET`, `do_PUT` or `do_DELETE` of its own calls `take_callback` first.
    """

    # What callbacks' paths begin with.
    callbacks: ClassVar[str] = "lra/"
    # How many seconds a client may be silent.
    timeout = 30

    _names: ClassVar[Dict[str, str]] = {}
    _busy: ClassVar[Set[Tuple[str, str]]] = set()
    _lock: ClassVar[threading.Lock] = threading.Lock()

    def __init_subclass__(cls, **more: Any) -> None:
        super().__init_subclass__(**more)
        own: Dict[str, str] = {}
        for name, method in vars(cls).items():
            for kind in getattr(method, "_raxunto_kinds", ()):
                if kind in own:
                    raise TypeError(f"{cls.__name__} has two methods for {kind}: {own[kind]} and {name}")
                own[kind] = name
        cls._names = {**cls._names, **own}
        cls._busy = set()

    @classmethod
    def addresses(cls, base_url: str, action: Union[Action, str], work: str = "") -> Dict[str, str]:
        """Returns the addresses to join an action with: one for each method that is marked.

        The URL is where the coordinator reaches this service. `work` tells members of one action apart, as by a
        booking's number.
        """
        base = _Base.of(base_url)
        name = _uri(action, "lra-coordinator")[1] if isinstance(action, str) else action.id
        query = "?" + urllib.parse.quote(work, safe="") if work else ""
        return {kind: f"{base.text}{cls.callbacks}{name}/{kind}{query}" for kind in cls._names}

    def do_GET(self) -> None:
        """Answers a callback; all else is unknown."""
        self._take()

    def do_PUT(self) -> None:
        """Answers a callback; all else is unknown."""
        self._take()

    def do_DELETE(self) -> None:
        """Answers a callback; all else is unknown."""
        self._take()

    def take_callback(self) -> bool:
        """Answers the request if its path is a callback's, and returns whether it is."""
        path, _, query = self.path.partition("?")
        found = re.fullmatch(rf"/(?:.*/)?{re.escape(self.callbacks)}({_ID})/([a-z]+)", path)
        if not found or found[2] not in _METHODS:
            return False
        # What hasn't been read of a body is no request.
        self.close_connection = True
        try:
            self.reply(*self._answer(found[1], found[2], urllib.parse.unquote(query)))
        except OSError as fault:
            # Who asked is gone, and asks again.
            _log.info("%s isn't answered: %s", path, fault)
        return True

    def reply(self, code: int, body: str = "") -> None:
        """Sends a reply with a text."""
        data = body.encode()
        self.send_response(code)
        self.send_header("Content-Type", "text/plain; charset=utf-8")
        self.send_header("Content-Length", str(len(data)))
        self.end_headers()
        self.wfile.write(data)

    def _take(self) -> None:
        if not self.take_callback():
            self.close_connection = True
            self.reply(404)

    def _answer(self, action_id: str, kind: str, work: str) -> Tuple[int, str]:
        """Returns the code and the body of a callback's reply."""
        if kind not in self._names:
            return 404, ""
        if self.command != _METHODS[kind]:
            return 405, ""
        asked = self._asked(action_id, kind, work)
        return self._carried_out(asked) if asked else (400, "")

    def _asked(self, action_id: str, kind: str, work: str) -> Optional[Callback]:
        """Reads a callback. Its fields have to name the action that its path does."""
        body = self._body()
        action = self._field("Long-Running-Action-Ended" if kind == "after" else "Long-Running-Action")
        recovery = self._field("Long-Running-Action-Recovery")
        parent = self._field("Long-Running-Action-Parent")
        try:
            if body is None or _uri(action or "", "lra-coordinator")[1] != action_id:
                return None
            _uri(recovery or "", "lra-recovery")
            _uri(parent or action or "", "lra-coordinator")
        except ValueError:
            return None
        if kind == "after" and body not in ENDED:
            return None
        end = body if kind == "after" else None
        return Callback(kind, action or "", recovery or "", parent, action_id, work, end)

    def _field(self, name: str) -> Optional[str]:
        """Returns the value of a header that stands there once."""
        values: List[str] = self.headers.get_all(name, [])
        return values[0] if len(values) == 1 else None

    def _body(self) -> Optional[str]:
        """Reads the request's body, which is short."""
        lengths: List[str] = self.headers.get_all("Content-Length", ["0"])
        if "Transfer-Encoding" in self.headers or len(lengths) != 1 or not re.fullmatch("[0-9]{1,4}", lengths[0]):
            return None
        data = self.rfile.read(int(lengths[0]))
        return data.decode("latin-1").strip() if len(data) == int(lengths[0]) else None

    def _carried_out(self, asked: Callback) -> Tuple[int, str]:
        """Calls the method for a callback, unless another one is at work for the same member."""
        member = (asked.action_id, asked.work)
        with self._lock:
            if asked.kind != "status":
                if member in self._busy:
                    # (After a 202 it would be asked for its status alone, also if that method fails.)
                    return 503, ""
                self._busy.add(member)
        try:
            return _reply_to(asked.kind, getattr(self, self._names[asked.kind])(asked))
        except Exception:  # whatever it is, the coordinator has to ask again
            _log.exception("%s of %s has failed, and is asked again", asked.kind, asked.action)
            return 500, ""
        finally:
            if asked.kind != "status":
                with self._lock:
                    self._busy.discard(member)
