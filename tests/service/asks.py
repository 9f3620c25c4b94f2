"""What members are asked, when, and what their replies come to."""
import errno
import socket
import time

import journal
from participant import Participant, wait_until
from service import LATE, LeftOut, check, equal, number_of

ALL = ("compensate", "complete", "status", "forget", "after")
# How many milliseconds a year has.
YEAR = 365 * 24 * 3600 * 1000
# How many milliseconds late what is due is at most, where a busy machine doesn't hold it up.
SOON = 1000
# Limits of some actions, in milliseconds. A member joins the first one, which leaves it time for that.
LIMITS = (6000, 300, 400)
METHODS = {"compensate": "PUT", "complete": "PUT", "status": "GET", "forget": "DELETE", "after": "PUT"}


def recorded(setting, recovery, count):
    """Waits until so many asks of a member have their reply in the journal, and answers kinds and outcomes."""
    number = number_of(recovery)

    def replies():
        return [it for it in journal.asks_of(journal.entries(setting.journal), number) if it[2]]

    wait_until(f"reply {count} of member {number}", lambda: len(replies()) >= count)
    return replies()


def kinds_and_outcomes(asks):
    return [(kind, outcome) for kind, _, outcome, _ in asks]


def in_file_first(setting, answer):
    """An answer that is given only where the ask's line was in the file when its request came."""

    def look(request):
        kind = request.path[1:]
        member = number_of(request.fields["Long-Running-Action-Recovery"])
        equal("the ask in the file", journal.outstanding(journal.entries(setting.journal), member), kind)
        return answer(request)

    return look


def ask_fields(kind, host, action, recovery, body, parent=None):
    """Returns the fields of an ask's request, in their order."""
    fields = {"Host": host}
    fields["Long-Running-Action-Ended" if kind == "after" else "Long-Running-Action"] = action
    if parent:
        fields["Long-Running-Action-Parent"] = parent
    fields["Long-Running-Action-Recovery"] = recovery
    if kind == "after":
        fields["Content-Type"] = "text/plain"
    if METHODS[kind] == "PUT":
        fields["Content-Length"] = str(len(body))
    fields["Connection"] = "close"
    return fields


def check_request(request, kind, action, recovery, ended=None, parent=None):
    """Compares an ask's request: its method, each field, and its body."""
    fields = ask_fields(kind, request.fields["Host"], action, recovery, ended or "", parent)
    equal(f"the method of {kind}", request.method, METHODS[kind])
    equal(f"the fields of {kind}", list(request.fields.items()), list(fields.items()))
    equal(f"the body of {kind}", request.body.decode(), ended or "")


def whole_way(setting, how, answers, wanted, ended):
    """Ends an action with one member that answers each kind in turn as told, and compares what it was asked."""

    def answer(request):
        return answers[request.path[1:]].pop(0)

    with setting.serve() as service, Participant(in_file_first(setting, answer)) as member, service.client() as client:
        action = client.start()
        recovery = client.join(action, **member.addresses(*ALL))
        client.end(action, how)
        asks = recorded(setting, recovery, len(wanted))
        equal("faults of the member", member.faults, [])
        equal("asks", kinds_and_outcomes(asks), wanted)
        equal("the action", client.status(action), ended)
        for request, (kind, _) in zip(member.requests, wanted):
            check_request(request, kind, action, recovery, ended if kind == "after" else None)
        time.sleep(0.3)
        equal("requests", len(member.requests), len(wanted))
        journal.check_sound(setting.program, journal.read(setting.journal), setting.folder)


def test_a_member_completes_and_is_told_the_end(setting):
    wanted = [("complete", "done"), ("after", "done")]
    whole_way(setting, "close", {"complete": [(200, b"Completed")], "after": [(200, b"")]}, wanted, "Closed")


def test_a_member_compensates_and_is_told_the_end(setting):
    wanted = [("compensate", "done"), ("after", "done")]
    whole_way(setting, "cancel", {"compensate": [(204, b"")], "after": [(204, b"")]}, wanted, "Cancelled")


def test_a_member_that_completes_later_is_asked_for_its_status(setting):
    answers = {
        "complete": [(202, b"")],
        "status": [(202, b""), (200, b'"Completing"'), (200, b"Completed")],
        "after": [(200, b"")],
    }
    wanted = [("complete", "accepted")] + [("status", "accepted")] * 2 + [("status", "done"), ("after", "done")]
    whole_way(setting, "close", answers, wanted, "Closed")


def test_a_member_that_compensates_later_is_asked_for_its_status(setting):
    answers = {"compensate": [(202, b"")], "status": [(202, b""), (410, b"")], "after": [(410, b"")]}
    wanted = [("compensate", "accepted"), ("status", "accepted"), ("status", "done"), ("after", "done")]
    whole_way(setting, "cancel", answers, wanted, "Cancelled")


def test_a_member_that_cannot_complete_is_told_to_forget(setting):
    answers = {"complete": [(409, b"")], "forget": [(500, b""), (200, b"")], "after": [(200, b"")]}
    wanted = [("complete", "failed"), ("forget", "silent"), ("forget", "done"), ("after", "done")]
    whole_way(setting, "close", answers, wanted, "FailedToClose")


def test_a_member_that_cannot_compensate_is_told_to_forget(setting):
    answers = {"compensate": [(200, b"FailedToCompensate")], "forget": [(410, b"")], "after": [(200, b"")]}
    wanted = [("compensate", "failed"), ("forget", "done"), ("after", "done")]
    whole_way(setting, "cancel", answers, wanted, "FailedToCancel")


def test_a_nested_action_is_compensated_with_its_parent(setting):
    with setting.serve() as service, Participant() as member, service.client() as client:
        parent = client.start()
        action = client.start(parent=parent)
        recovery = client.join(action, **member.addresses("compensate", "complete"))
        equal("the close", client.end(action, "close"), "Closing")
        check_request(member.wait("complete")[0], "complete", action, recovery, parent=parent)
        wait_until("the end", lambda: client.status(action) == "Closed")
        client.end(parent, "cancel")
        check_request(member.wait("compensate")[0], "compensate", action, recovery, parent=parent)
        wait_until("the end", lambda: client.status(parent) == "Cancelled")
        equal("the nested action", client.status(action), "Cancelled")


# Of a reply's code and body, what comes of it at a member that is asked to complete.
OUTCOMES = [
    (200, b"", "done"),
    (200, b"ok", "done"),
    (200, b' "Completed"\r\n', "done"),
    (200, b"Completing", "accepted"),
    (200, b"FailedToComplete", "failed"),
    (200, b"Compensated", "silent"),
    (202, b"Completed", "accepted"),
    (204, b"", "done"),
    (409, b"", "failed"),
    (410, b"", "done"),
    (301, b"", "silent"),
    (404, b"", "silent"),
    (412, b"", "silent"),
    (500, b"", "silent"),
    (503, b"", "silent"),
]


def test_each_reply_comes_to_its_outcome(setting):
    def answer(request):
        code, body, _ = OUTCOMES[int(request.path.rsplit("/", 1)[1])]
        return (code, body)

    with setting.serve(4) as service, Participant(answer) as member, service.client() as client:
        recoveries = []
        for place in range(len(OUTCOMES)):
            action = client.start()
            uri = member.uri(f"complete/{place}")
            recoveries.append(client.join(action, compensate=uri, complete=uri))
            client.end(action, "close")
        for (code, body, wanted), recovery in zip(OUTCOMES, recoveries):
            equal(f"{code} {body}", kinds_and_outcomes(recorded(setting, recovery, 1))[0], ("complete", wanted))


def test_a_chunked_reply_is_read(setting):
    chunked = b"HTTP/1.1 200 OK\r\nTransfer-Encoding: chunked\r\n\r\n4\r\nComp\r\n5\r\nleted\r\n0\r\n\r\n"
    with setting.serve() as service, Participant(lambda _: [chunked]) as member, service.client() as client:
        action = client.start()
        recovery = client.join(action, **member.addresses("compensate", "complete"))
        client.end(action, "close")
        equal("its ask", kinds_and_outcomes(recorded(setting, recovery, 1)), [("complete", "done")])


def pauses(asks):
    """From each reply to the next ask, in milliseconds."""
    return [later[1] - earlier[3] for earlier, later in zip(asks, asks[1:])]


def check_late(what, late):
    """None is early, by these milliseconds, nor later than a busy machine makes it. It doesn't make all late."""
    check(f"{what} {late} ms late", 0 <= min(late) <= SOON and max(late) <= 1000 * LATE)


def check_pauses(asks):
    """Each pause is twice the one before, from 100 ms on, and not much more."""
    check_late("the pauses end", [pause - 100 * 2**place for place, pause in enumerate(pauses(asks))])


def test_a_silent_member_is_asked_again_after_longer_and_longer_pauses(setting):
    replies = [None, (500, b""), None, (503, b""), (200, b"")]

    with setting.serve() as service, Participant(lambda _: replies.pop(0)) as member, service.client() as client:
        action = client.start()
        recovery = client.join(action, **member.addresses("compensate"))
        client.end(action, "cancel")
        asks = recorded(setting, recovery, 5)
        equal("asks", kinds_and_outcomes(asks), [("compensate", "silent")] * 4 + [("compensate", "done")])
        check_pauses(asks)
        wait_until("the end", lambda: client.status(action) == "Cancelled")


def is_refused_at_once(host, port):
    """Whether the system refuses at once to connect to an address, or has no socket for such addresses."""
    try:
        with socket.socket(socket.AF_INET6) as stream:
            stream.setblocking(False)
            return stream.connect_ex((host, port)) not in (0, errno.EINPROGRESS)
    except OSError:
        return True


def test_a_member_at_an_address_that_no_socket_reaches_is_silent(setting):
    """The system refuses at once to connect to an address of a link where none is named. That is the address's fault,
    and none of the system's own."""
    if not is_refused_at_once("fe80::1", 9):
        raise LeftOut("addresses of a link are connected to where none is named")
    with setting.serve() as service, service.client() as client:
        action = client.start()
        recovery = client.join(action, compensate="http://[fe80::1]:9/undo")
        client.end(action, "cancel")
        asks = recorded(setting, recovery, 3)[:3]
        equal("asks", kinds_and_outcomes(asks), [("compensate", "silent")] * 3)
        check_pauses(asks)


def test_a_member_that_answers_202_without_a_status_address_is_asked_again(setting):
    replies = [(202, b""), (202, b""), (202, b""), (200, b"")]
    with setting.serve() as service, Participant(lambda _: replies.pop(0)) as member, service.client() as client:
        action = client.start()
        recovery = client.join(action, **member.addresses("compensate", "complete"))
        client.end(action, "close")
        asks = recorded(setting, recovery, 4)
        equal("asks", kinds_and_outcomes(asks), [("complete", "accepted")] * 3 + [("complete", "done")])
        check_pauses(asks)


def test_a_member_that_reports_is_not_asked_again(setting):
    with setting.serve() as service, Participant(lambda _: (202, b"")) as member, service.client() as client:
        action = client.start()
        recovery = client.join(action, **member.addresses("compensate", "complete"))
        client.end(action, "close")
        recorded(setting, recovery, 1)
        reply = client.call("PUT", "/lra-recovery/" + recovery.rsplit("/", 1)[1], status="Completed")
        equal("the report", (reply.code, reply.body), (200, {"status": "Completed"}))
        equal("the action", client.status(action), "Closed")
        time.sleep(1)
        deeds = [it.deed for it in journal.entries(setting.journal)]
        equal("the asks after its report", deeds[deeds.index("report") :].count("ask"), 0)


def lateness_of_limits(path):
    """How many milliseconds late each limit has cancelled its action, by the journal."""
    entries = journal.entries(path)
    ends = {it.fields[0]: it.moment + int(it.fields[2]) for it in entries if it.deed == "start"}
    return [it.moment - ends[it.fields[0]] for it in entries if it.deed == "cancel" and it.fields[1] == "limit"]


def limit_cancels(setting):
    """Limits pass in time, by the clock and by the journal's moments."""
    with setting.serve() as service, Participant() as member, service.client() as client:
        actions = [client.start(limit=limit) for limit in LIMITS]
        client.join(actions[0], **member.addresses("compensate"))
        equal("at first", client.status(actions[0]), "Active")
        wait_until("the ends", lambda: all(client.status(it) == "Cancelled" for it in actions))
        late = lateness_of_limits(setting.journal)
        equal("the limits that have passed", len(late), len(LIMITS))
        check_late("the limits pass", late)


def test_a_limit_cancels(setting):
    limit_cancels(setting)


def test_a_limit_cancels_where_the_journal_lies_a_year_ahead(setting):
    ahead = int(time.time() * 1000) + YEAR
    journal.write(setting.journal, f"lra-journal 2 1\n1 {ahead} enrol\n".encode())
    limit_cancels(setting)
    last = journal.entries(setting.journal)[-1].moment
    check(f"the journal goes on at its own pace, {last - ahead} ms", LIMITS[0] <= last - ahead < 60_000)
