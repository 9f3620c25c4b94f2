"""Traces of requests that end actions, which their callbacks bear by an option of the service: which values are passed
on, to whom, for how long, and what none is passed on of. The values are by Trace Context, level 1."""
import uuid

from asks import ALL, ask_fields
from bases import Based
from folders import Folder
from options import config, refused, told_of
from participant import Participant, wait_until
from service import PATIENCE, Service, check, equal, id_of, received

OPTION = "--trace-context"
TRACE, SPAN = "0af7651916cd43dd8448eb211c80319c", "b7ad6b7169203331"
BODY = f"-{TRACE}-{SPAN}-01"
OWN, OTHER, THIRD = f"00{BODY}", f"00-{TRACE[::-1]}-{SPAN}-00", f"00-{TRACE}-{SPAN[::-1]}-ff"
# Values of the field, one for each that a request has, and what a callback bears.
VALUES = (
    ((), None),
    ((OWN,), OWN),
    ((f"00-{TRACE}-{SPAN}-00",), f"00-{TRACE}-{SPAN}-00"),
    ((f"00-{TRACE}-{SPAN}-fe",), f"00-{TRACE}-{SPAN}-fe"),
    ((f"00-{31 * '0'}1-{15 * '0'}a-01",), f"00-{31 * '0'}1-{15 * '0'}a-01"),
    ((f" \t{OWN} \t",), OWN),
    ((f"01{BODY}",), OWN),
    ((f"fe{BODY}",), OWN),
    ((f"01{BODY}-",), OWN),
    ((f"cc{BODY}-what-the-future-will-be-like",), OWN),
    ((f"cc{BODY}.what-the-future-will-be-like",), None),
    ((f"01{BODY}0",), None),
    ((f"{OWN}-",), None),
    ((f"{OWN}-01",), None),
    ((f"{OWN}0",), None),
    ((f"ff{BODY}",), None),
    ((f"ff{BODY}-more",), None),
    ((f"0g{BODY}",), None),
    ((f"0A{BODY}",), None),
    ((OWN.upper(),), None),
    ((OWN.replace("af", "AF"),), None),
    ((f"00-{TRACE}-{SPAN}-0A",), None),
    ((f"00-{TRACE}-{SPAN}-0",), None),
    ((f"00-{32 * '0'}-{SPAN}-01",), None),
    ((f"00-{TRACE}-{16 * '0'}-01",), None),
    ((f"00-{TRACE[1:]}-{SPAN}-01",), None),
    ((f"00-{TRACE}0-{SPAN[1:]}-01",), None),
    ((f"00_{TRACE}-{SPAN}-01",), None),
    ((f"00-{TRACE}_{SPAN}-01",), None),
    ((f"00-{TRACE}-{SPAN}_01",), None),
    ((OWN[1:],), None),
    (("",), None),
    (("00",), None),
    ((f"00-{TRACE[:-1]}\u00e4-{SPAN}-01",), None),
    ((OWN, OWN), None),
    ((OWN, OTHER), None),
    ((OWN, ""), None),
)
# How many actions have a trace at most.
MOST = 65_536
# How many requests go out before their replies are read.
BATCH = 256


def request_of(target, *values, name="traceparent"):
    """The bytes of a request by PUT with these values of the field."""
    lines = [f"PUT {target} HTTP/1.1", "Host: h.test", "Content-Length: 0", *(f"{name}: {value}" for value in values)]
    return ("\r\n".join(lines) + "\r\n\r\n").encode("latin-1")


def code_of(service, target, *values, name="traceparent"):
    """The code by which a request with these values is answered."""
    with service.connect() as stream:
        stream.sendall(request_of(target, *values, name=name).replace(b"\r\n\r\n", b"\r\nConnection: close\r\n\r\n"))
        return int(received(stream)[0].split()[1])


def end(service, action, how, *values, name="traceparent"):
    """Ends an action by a request with these values."""
    code = code_of(service, f"/lra-coordinator/{id_of(action)}/{how}", *values, name=name)
    check(f"a {how} is answered {code}", code in (200, 202))


def traces_of(requests):
    """The trace of each request. A field of this name has it in lower case."""
    return [request.fields.get("traceparent") for request in requests]


def check_values(service):
    """Each value is passed on as it is to be, and no request is refused for it."""
    with service.client() as client:
        for values, wanted in VALUES:
            with Participant() as member:
                action = client.start()
                recovery = client.join(action, **member.addresses("complete", "compensate"))
                end(service, action, "close", *values)
                request, = member.wait("complete")
                host = request.fields["Host"]
                fields = list(ask_fields("complete", host, action, recovery, "").items())
                if wanted:
                    fields[-1:-1] = [("traceparent", wanted)]
                equal(f"the fields after {values}", list(request.fields.items()), fields)


def whole_way(service, how, answers, wanted):
    """Ends an action with a trace, with a member that answers each kind in turn so. All that it is asked bears it."""
    with Participant(lambda request: answers[request.path[1:]].pop(0)) as member, service.client() as client:
        action = client.start()
        client.join(action, **member.addresses(*ALL))
        end(service, action, how, OTHER)
        wait_until("the end", lambda: len(member.requests) >= len(wanted))
        equal(f"what is asked after a {how}", [request.path[1:] for request in member.requests], wanted)
        equal(f"the traces after a {how}", traces_of(member.requests), len(wanted) * [OTHER])


def check_kinds(service):
    """Callbacks of each kind bear the trace, also those that are made again."""
    done, later = (200, b""), (202, b"")
    answers = {"complete": [later], "status": [later, (200, b"Completed")], "after": [(500, b""), done]}
    whole_way(service, "close", answers, ["complete", "status", "status", "after", "after"])
    answers = {"compensate": [(500, b""), (409, b"")], "forget": [(500, b""), done], "after": [done]}
    whole_way(service, "cancel", answers, ["compensate", "compensate", "forget", "forget", "after"])


def check_nested(service):
    """A nested action's callbacks bear the trace of the last request that ended it or its parent."""
    with Participant() as member, service.client() as client:
        parent = client.start()
        closed, active = client.start(parent=parent), client.start(parent=parent)
        bare = client.start(parent=active)
        client.join(closed, complete=member.uri("a/complete"), compensate=member.uri("a/compensate"))
        client.join(active, compensate=member.uri("b/compensate"))
        client.join(bare, compensate=member.uri("c/compensate"))
        end(service, closed, "close", OWN)
        equal("a nested one's own", traces_of(member.wait("a/complete")), [OWN])
        end(service, parent, "cancel", OTHER)
        equal("its parent's, which came later", traces_of(member.wait("a/compensate")), [OTHER])
        equal("its parent's alone", traces_of(member.wait("b/compensate")), [OTHER])
        equal("its grandparent's", traces_of(member.wait("c/compensate")), [None])


def check_others(service):
    """Only ends that are done have a trace: others replace none, and one that gives none keeps what there is."""
    with Participant(lambda request: (503, b"")) as member, service.client() as client:
        timed, action, other = client.start(limit=500), client.start(), client.start()
        client.join(timed, compensate=member.uri("timed"))
        client.join(other, complete=member.uri("other"), compensate=member.uri("none"))
        path = f"/lra-coordinator/{id_of(action)}"
        for target, code in ((path, 400), (f"{path}/renew", 400), (f"{path}/remove", 400)):
            equal(f"a request at {target}", code_of(service, target, THIRD), code)
        equal("by its limit", traces_of(member.wait("timed"))[:1], [None])
        client.join(action, complete=member.uri("complete"), compensate=member.uri("compensate"))
        end(service, action, "close", OWN, name="TraceParent")
        check("one bears another", set(traces_of(member.wait("complete", 2))) == {OWN})
        equal("a cancel of what closes", code_of(service, f"{path}/cancel", THIRD), 412)
        end(service, action, "close")
        end(service, other, "close", THIRD)
        check("a callback bears the trace of another action", set(traces_of(member.wait("other", 1))) == {THIRD})
        came = len(member.at("complete"))
        check("a refused one replaced it", set(traces_of(member.wait("complete", came + 2))) == {OWN})
        end(service, action, "close", OTHER)
        came = len(member.at("complete"))
        equal("a later one's", traces_of(member.wait("complete", came + 2))[-1], OTHER)


def test_values_are_passed_on_or_dropped(setting):
    with Based(setting, setting.journal, OPTION) as service:
        check_values(service)


def test_callbacks_of_each_kind_bear_the_trace(setting):
    with Based(setting, setting.journal, OPTION) as service:
        check_kinds(service)


def test_nested_actions_end_by_the_trace_of_their_parent(setting):
    with Based(setting, setting.journal, OPTION) as service:
        check_nested(service)


def test_other_requests_have_none(setting):
    with Based(setting, setting.journal, OPTION, "--retry-last", "200") as service:
        check_others(service)


def test_a_folder_passes_traces_on(setting):
    with Folder(setting, OPTION, "--retry-last", "200", "--roll-after", "3") as folder:
        check_kinds(folder)
        check_nested(folder)
        check_others(folder)


def test_without_the_option_none_is_passed_on(setting):
    with Service(setting.program, setting.journal) as service, Participant() as member, service.client() as client:
        for how, kind in (("close", "complete"), ("cancel", "compensate")):
            action = client.start()
            recovery = client.join(action, **member.addresses("complete", "compensate"))
            end(service, action, how, OWN)
            request, = member.wait(kind)
            fields = ask_fields(kind, request.fields["Host"], action, recovery, "")
            equal(f"the fields of {kind}", list(request.fields.items()), list(fields.items()))


def test_a_restart_loses_the_traces(setting):
    """Callbacks go on after a restart, and bear none until the action is ended once more."""
    with Participant(lambda request: (503, b"")) as member:
        with Based(setting, setting.journal, OPTION) as service, service.client() as client:
            action = client.start()
            client.join(action, **member.addresses("complete", "compensate"))
            end(service, action, "close", OWN)
            member.wait("complete")
        equal("before", set(traces_of(member.requests)), {OWN})
        before = len(member.requests)
        with Based(setting, setting.journal, OPTION, "--retry-last", "200") as service:
            member.wait("complete", before + 1)
            equal("after", traces_of(member.requests)[before], None)
            end(service, action, "close", OTHER)
            wait_until("the trace of a second close", lambda: traces_of(member.requests)[-1] == OTHER)


def replied(replies):
    """The code of the next reply."""
    code, length = int(replies.readline().split()[1]), 0
    while (line := replies.readline()) != b"\r\n":
        name, value = line.split(b":", 1)
        if name.lower() == b"content-length":
            length = int(value)
    replies.read(length)
    return code


def fill(service, count):
    """Asks to close so many actions that there aren't, with a trace each. A connection has 1,000 requests at most."""
    for begun in range(0, count, BATCH):
        targets = [f"/lra-coordinator/{uuid.uuid4()}/close" for _ in range(min(BATCH, count - begun))]
        with service.connect() as stream, stream.makefile("rb") as replies:
            stream.sendall(b"".join(request_of(target, THIRD) for target in targets))
            equal("the replies", {replied(replies) for _ in targets}, {404})


def test_the_oldest_traces_leave(setting):
    """As many actions as there is room for push one out, and half as many don't."""
    with Participant(lambda request: (503, b"")) as member, Based(
        setting, setting.journal, OPTION, "--retry-last", "200"
    ) as service, service.client() as client:
        action = client.start()
        client.join(action, **member.addresses("complete", "compensate"))
        end(service, action, "close", OWN)
        fill(service, MOST // 2 - 1)
        came = len(member.wait("complete"))
        equal("while there is room", traces_of(member.wait("complete", came + 2))[-1], OWN)
        fill(service, MOST // 2 + 1)
        came = len(member.at("complete"))
        equal("once there is none", traces_of(member.wait("complete", came + 2, PATIENCE))[-1], None)


def test_a_file_of_settings_passes_traces_on(setting):
    path = config(setting, "trace-context = true\n")
    equal("what is told", told_of(setting, "--config", path).get("trace-context"), "true")
    equal("on the line", told_of(setting, OPTION).get("trace-context"), "true")
    off = config(setting, "trace-context = false\n", "off.toml")
    for words in ((), ("--config", off)):
        equal(f"with {words}", told_of(setting, *words).get("trace-context"), None)
    equal("the line goes before it", told_of(setting, "--config", off, OPTION).get("trace-context"), "true")
    wrong = config(setting, "trace-context = 1\n", "wrong.toml")
    refused(setting, f"{wrong}: trace-context: neither true nor false", "--config", wrong)
    with Based(setting, setting.journal, "--config", path) as service:
        check_nested(service)
