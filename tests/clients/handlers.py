"""A member that is made of `MemberHandler`, asked as docs/use/http.md says that a coordinator asks."""
import http.client
import http.server
import socket
import threading
import time
from contextlib import contextmanager

import raxunto
from exchanges import raised
from service import HOST, PATIENCE, check, equal, received

NAME = "00000000-0000-8007-8000-000000000001"
OTHER = "00000000-0000-8007-8000-000000000002"
ACTION = f"http://127.0.0.1:8080/lra-coordinator/{NAME}"
PARENT = f"http://127.0.0.1:8080/lra-coordinator/{OTHER}"
RECOVERY = f"http://127.0.0.1:8080/lra-recovery/{NAME}"
METHODS = {"complete": "PUT", "compensate": "PUT", "status": "GET", "forget": "DELETE", "after": "PUT"}
FAILS = object()

# What a method returns, and the code and the body of the reply, by what is asked. http.md says what these come to.
DIRECTED = {
    "complete": ("Completed", "Completing", "FailedToComplete"),
    "compensate": ("Compensated", "Compensating", "FailedToCompensate"),
}
ANSWERS = {
    "status": (
        *((state, 200, state) for states in DIRECTED.values() for state in states),
        *((raxunto.DONE, 410, ""), (raxunto.AT_IT, 202, ""), (raxunto.AGAIN, 503, "")),
        *((it, 500, "") for it in (None, raxunto.FAILED, "Active", "", FAILS)),
    ),
    "forget": (
        *((None, 200, ""), (raxunto.DONE, 200, ""), (raxunto.AGAIN, 503, "")),
        *((it, 500, "") for it in (raxunto.FAILED, raxunto.AT_IT, "Completed", FAILS)),
    ),
}
ANSWERS["after"] = ANSWERS["forget"]
for kind, (done, at_it, failed) in DIRECTED.items():
    against = next(states for key, states in DIRECTED.items() if key != kind)
    ANSWERS[kind] = (
        *((None, 200, done), (raxunto.DONE, 200, done), (done, 200, done)),
        *((raxunto.AT_IT, 202, at_it), (at_it, 202, at_it)),
        *((raxunto.FAILED, 409, failed), (failed, 409, failed), (raxunto.AGAIN, 503, "")),
        *((it, 500, "") for it in (*against, "Active", "", True, 0, b"", FAILS)),
    )


class Quiet(raxunto.MemberHandler):
    """One that prints nothing."""

    def log_message(self, *_):
        """Prints nothing."""


def made(answer, **more):
    """A class of members whose methods all answer by a function."""

    class Handler(Quiet):
        @raxunto.complete
        @raxunto.compensate
        @raxunto.status
        @raxunto.forget
        @raxunto.after
        def asked(self, asked):
            told = answer(asked)
            if told is FAILS:
                raise RuntimeError("as wanted")
            return told

    for name, value in more.items():
        setattr(Handler, name, value)
    return Handler


@contextmanager
def serving(handler):
    """Serves, and answers the port."""
    server = http.server.ThreadingHTTPServer((HOST, 0), handler)
    server.daemon_threads = True
    thread = threading.Thread(target=server.serve_forever, args=(0.02,), daemon=True)
    thread.start()
    try:
        yield server.server_address[1]
    finally:
        server.shutdown()
        server.server_close()


def fields_of(kind, action=ACTION, recovery=RECOVERY, parent=None):
    """The fields of a callback."""
    fields = {"Long-Running-Action-Ended" if kind == "after" else "Long-Running-Action": action}
    if parent:
        fields["Long-Running-Action-Parent"] = parent
    return {**fields, "Long-Running-Action-Recovery": recovery, "Connection": "close"}


def ask(port, kind, path=None, method=None, fields=None, body=...):
    """A callback's reply: its code and its body."""
    connection = http.client.HTTPConnection(HOST, port, timeout=PATIENCE)
    text = (b"Closed" if kind == "after" else None) if body is ... else body
    path = path or f"/lra/{NAME}/{kind}"
    connection.request(method or METHODS[kind], path, text, fields_of(kind) if fields is None else fields)
    reply = connection.getresponse()
    told = reply.status, reply.read().decode()
    connection.close()
    return told


def test_what_a_method_returns_is_answered_as_the_page_says(_):
    told = []
    with serving(made(lambda asked: told[-1])) as port:
        for kind, answers in ANSWERS.items():
            for result, code, body in answers:
                told.append(result)
                equal(f"{kind} by {result!r}", ask(port, kind), (code, body))


def test_a_method_is_told_what_the_callback_says(_):
    calls = []
    with serving(made(lambda asked: calls.append(asked) or raxunto.DONE)) as port:
        for kind in METHODS:
            ask(port, kind, f"/lra/{NAME}/{kind}?a%20b%2F%C3%A4%0D", fields=fields_of(kind, parent=PARENT))
            end = "Closed" if kind == "after" else None
            wanted = raxunto.Callback(kind, ACTION, RECOVERY, PARENT, NAME, "a b/\u00e4\r", end)
            equal(kind, calls[-1], wanted)
            ask(port, kind)
            equal(f"{kind} in short", (calls[-1].parent, calls[-1].work), (None, ""))
        for end in ("Closed", "FailedToClose", "Cancelled", "FailedToCancel"):
            ask(port, "after", body=end.encode())
            equal("its end", calls[-1].end, end)


def test_addresses_are_made_for_each_action_and_member(_):
    handler = made(lambda asked: None)
    addresses = handler.addresses("http://shop.test:8081", ACTION)
    equal("addresses", addresses, {kind: f"http://shop.test:8081/lra/{NAME}/{kind}" for kind in METHODS})
    path = handler.addresses("http://shop.test/a/", ACTION, "../x?y#z \r\n")["after"]
    equal("with a text", path, f"http://shop.test/a/lra/{NAME}/after?..%2Fx%3Fy%23z%20%0D%0A")
    action = raxunto.Coordinator("http://h.test/").action(ACTION)
    made_of_it = handler.addresses("http://h.test/", action, "1")
    equal("of an object", made_of_it, handler.addresses("http://h.test/", ACTION, "1"))
    for base in ("http://h.test/\r\n", "http://h.test/?x", "h.test", ""):
        raised(ValueError, handler.addresses, base, ACTION)
    raised(ValueError, handler.addresses, "http://h.test/", RECOVERY)

    class Short(Quiet):
        callbacks = "back/"

        @raxunto.compensate
        def undo(self, asked):
            """Undoes nothing."""

    path = f"/back/{NAME}/compensate"
    equal("in short", Short.addresses("http://h.test/", ACTION), {"compensate": "http://h.test" + path})
    with serving(Short) as port:
        equal("its path", ask(port, "compensate", path), (200, "Compensated"))
        equal("below a proxy's", ask(port, "compensate", "/shop/1" + path), (200, "Compensated"))
        equal("another one", ask(port, "complete", f"/back/{NAME}/complete"), (404, ""))
        equal("another prefix", ask(port, "compensate")[0], 404)


def test_what_is_no_callback_calls_no_method(_):
    calls = []
    with serving(made(lambda asked: calls.append(asked))) as port:
        for kind, method in METHODS.items():
            for other in ("GET", "PUT", "DELETE"):
                if other != method:
                    equal(f"{kind} by {other}", ask(port, kind, method=other)[0], 405)
            for fields in (
                *({}, fields_of(kind, action=PARENT), fields_of(kind, action=RECOVERY), fields_of(kind, action="x")),
                *(fields_of(kind, recovery=ACTION), fields_of(kind, recovery=""), fields_of(kind, parent=RECOVERY)),
                fields_of("complete" if kind == "after" else "after"),
            ):
                equal(f"{kind} with {fields}", ask(port, kind, fields=fields)[0], 400)
        for path in ("", "lra/", f"lra/{NAME}", f"lra/{NAME}/x", f"lra/{NAME[:-1]}/complete", f"lra/{NAME}/complete/"):
            equal(path, ask(port, "complete", "/" + path)[0], 404)
        for body in (None, b"", b"Active", b"Closing", b"x" * 100, b"closed"):
            equal(f"after with {body}", ask(port, "after", body=body)[0], 400)
    equal("calls", calls, [])


def exchange(port, data):
    """What is answered to bytes, after which the client sends no more."""
    with socket.create_connection((HOST, port), timeout=PATIENCE) as stream:
        stream.sendall(data)
        stream.shutdown(socket.SHUT_WR)
        return received(stream)[0]


def test_requests_that_are_made_to_harm_are_refused(_):
    calls = []
    head = f"PUT /lra/{NAME}/complete HTTP/1.1\r\nHost: h\r\n"
    fields = "".join(f"{name}: {value}\r\n" for name, value in fields_of("complete").items() if name != "Connection")
    second = f"{head}{fields}\r\n"
    for version in ("HTTP/1.0", "HTTP/1.1"):
        with serving(made(lambda asked: calls.append(asked), protocol_version=version)) as port:
            for lines in (
                *(f"Content-Length: {it}\r\n" for it in ("99999", "-1", "+1", "5", "1\r\nContent-Length: 2")),
                *("Transfer-Encoding: chunked\r\n", f"Long-Running-Action: {PARENT}\r\n"),
            ):
                body = "" if lines == "Content-Length: 5\r\n" else second
                told = exchange(port, f"{head}{fields}{lines}\r\n{body}".encode())
                equal(f"replies to {lines!r}", (told.count(b"HTTP/1."), b" 400 " in told), (1, True))
            equal("a head that ends", exchange(port, head.encode()).count(b" 200 "), 0)
            told = exchange(port, (second + second).encode())
            equal("one after another", told.count(b"HTTP/1."), 1)
    equal("calls", len(calls), 2)


def test_a_method_at_work_for_a_member_is_left_alone(_):
    begun, go_on, calls = threading.Event(), threading.Event(), []

    def answer(asked):
        calls.append(asked.kind)
        if asked.kind == "complete" and not asked.work:
            begun.set()
            go_on.wait(PATIENCE)
        return raxunto.DONE

    with serving(made(answer)) as port:
        told = []
        thread = threading.Thread(target=lambda: told.append(ask(port, "complete")))
        thread.start()
        check("it begins", begun.wait(PATIENCE))
        equal("asked again", ask(port, "complete"), (503, ""))
        equal("asked otherwise", ask(port, "compensate"), (503, ""))
        equal("its status", ask(port, "status"), (410, ""))
        equal("to be forgotten", ask(port, "forget"), (503, ""))
        equal("after its end", ask(port, "after"), (503, ""))
        equal("another member", ask(port, "complete", f"/lra/{NAME}/complete?2"), (200, "Completed"))
        go_on.set()
        thread.join(PATIENCE)
        equal("the first reply", told, [(200, "Completed")])
        equal("a later one", ask(port, "complete"), (200, "Completed"))
        equal("calls", calls, ["complete", "status", "complete", "complete"])


def test_a_method_that_raised_is_called_again(_):
    answers = [FAILS, FAILS, None]
    with serving(made(lambda asked: answers.pop(0))) as port:
        equal("codes", [ask(port, "compensate")[0] for _ in range(3)], [500, 500, 200])


def test_a_service_has_routes_of_its_own_beside(_):
    class Handler(made(lambda asked: None)):
        def do_POST(self):
            self.reply(201, "booked \u00e4")

        def do_PUT(self):
            if not self.take_callback():
                self.reply(200, "its own")

    with serving(Handler) as port:
        equal("a POST", ask(port, "complete", "/rooms", "POST"), (201, "booked \u00e4"))
        equal("a PUT", ask(port, "complete", "/rooms"), (200, "its own"))
        equal("a callback", ask(port, "complete"), (200, "Completed"))
        equal("a GET", ask(port, "status", "/rooms")[0], 404)


def test_who_asks_and_goes_away_harms_nobody(_):
    with serving(made(lambda asked: time.sleep(0.05))) as port:
        for _ in range(5):
            with socket.create_connection((HOST, port)) as stream:
                fields = "".join(f"{name}: {value}\r\n" for name, value in fields_of("complete").items())
                stream.sendall(f"PUT /lra/{NAME}/complete HTTP/1.1\r\n{fields}\r\n".encode())
        time.sleep(0.3)
        equal("the next one", ask(port, "complete"), (200, "Completed"))


def test_a_class_with_two_methods_for_a_kind_is_none(_):
    def two():
        class Handler(raxunto.MemberHandler):
            @raxunto.complete
            def first(self, asked):
                """Does nothing."""

            @raxunto.complete
            def second(self, asked):
                """Does nothing."""

        return Handler

    raised(TypeError, two)


def test_a_class_below_another_has_its_methods_and_its_own(_):
    class Above(Quiet):
        @raxunto.complete
        def done(self, asked):
            return raxunto.FAILED

        @raxunto.compensate
        def undone(self, asked):
            return raxunto.FAILED

    class Below(Above):
        def done(self, asked):
            return raxunto.DONE

        @raxunto.compensate
        def other(self, asked):
            return raxunto.AT_IT

    with serving(Below) as port:
        equal("replies", (ask(port, "complete")[0], ask(port, "compensate")[0]), (200, 202))
    with serving(Above) as port:
        equal("those above", (ask(port, "complete")[0], ask(port, "compensate")[0]), (409, 409))
