"""Replies that say when to send again, by an option of the service: for a file and for a folder. Those do that are
refused for what goes away by itself, and no others (RFC 9110, section 10.2.3)."""
import errno
from collections import Counter

import allocations
import files
import folders
from bases import Based
from folders import Folder
from participant import Participant, wait_until
from service import CLOSED, calm, check, equal, id_of
from watching import Deniable, denial

SECONDS = "7"
OPTION = ("--retry-after", SECONDS)
# Where no allocation is refused any more, all that a request takes were tried.
MOST_REFUSED = 200
JSON = {"Content-Type": "application/json"}


class Unarchived(Deniable, Folder):
    """A service of a folder by options, to which calls of the system can be denied."""

    def __init__(self, setting, *options):
        super().__init__(setting, *folders.SOON, *options)
        self.watch(setting)


def said(reply):
    """What a reply says of when to send again."""
    return reply.fields.get("Retry-After")


def is_bare(what, reply):
    """Fails the test where a reply says when to send again."""
    equal(f"when to send {what} again", said(reply), None)


def memory_refused(service, counter, wanted):
    """Refuses the allocations of starts, one in each. Those refused with 503 say what is wanted, the others nothing.
    Answers how many there were of each code."""
    codes = Counter()
    with service, service.client() as client:
        client.start()
        calm(service)
        for number in range(1, MOST_REFUSED):
            counter.refuse(number)
            try:
                reply = client.call("POST", "/lra-coordinator")
                codes[reply.code] += 1
                if reply.code == 503:
                    # A journal that can't be followed for want of memory is `Stopped`, where no coordinator was asked.
                    check(f"the reply is {reply.body}", reply.body["error"] in ("Memory", "Stopped"))
                    equal("what it says", said(reply), wanted)
                else:
                    is_bare("a start", reply)
            except CLOSED:
                client.connection.close()
            counted = counter.counted()
            counter.refuse(0)
            is_bare("the next start", client.call("POST", "/lra-coordinator"))
            if counted < number:
                break
    check(f"the codes are {codes}", codes[503])
    return codes[503]


def test_refused_memory_says_when_to_send_again(setting):
    counts = []
    for options, wanted in ((OPTION, SECONDS), ((), None)):
        for kind in ("file", "folder"):
            service = Based(setting, setting.journal, *options) if kind == "file" else Folder(setting, *options)
            counter = allocations.Allocations(f"{setting.folder}/allocations")
            service.words[:0] = counter.words()
            counts.append(memory_refused(service, counter, wanted))
    return f"{counts} starts were refused"


def being_archived(setting, options, wanted):
    """A journal that has left and isn't archived yet: what names it is refused, and says what is wanted."""
    with Unarchived(setting, *options) as service, service.client() as client:
        actions = folders.leave_unarchived(service, client)
        for action in actions:
            for method, rest in (("GET", ""), ("HEAD", ""), ("PUT", "/close")):
                path = f"/lra-coordinator/{id_of(action)}{rest}"
                with service.client() as other:
                    reply = other.call(method, path)
                if method == "HEAD":
                    equal("a HEAD", (reply.code, said(reply)), (405, None))
                    continue
                equal(f"{method} {rest}", (reply.code, reply.body), (503, {"error": "Stopped"}))
                length = {"Content-Length": str(len('{"error":"Stopped"}'))}
                retry = {"Retry-After": wanted} if wanted else {}
                equal(f"the fields of {method} {rest}", reply.fields, JSON | length | retry)
        is_bare("a start", client.call("POST", "/lra-coordinator"))
        service.allow()
        wait_until("it is archived", lambda: service.ended() == [folders.instance_of(actions[0])])
        # Its file has left a moment before the threads know.
        path = f"/lra-coordinator/{id_of(actions[0])}"
        wait_until("it is unknown", lambda: client.call("GET", path).code != 503)
        reply = client.call("GET", path)
        equal("once it is archived", (reply.code, said(reply)), (404, None))


def test_a_journal_that_is_just_being_archived_says_when_to_send_again(setting):
    being_archived(setting, OPTION, SECONDS)


def test_without_the_option_it_says_nothing(setting):
    being_archived(setting, (), None)


def test_a_journal_that_has_stopped_says_nothing(setting):
    """It stays so until a restart."""
    with Based(setting, setting.journal, *OPTION) as service, service.client() as client:
        path = "/lra-coordinator/" + id_of(client.start())
        files.fill(service, setting, 0)
        for method, target in (("POST", "/lra-coordinator"), ("PUT", path + "/close"), ("PUT", path + "/cancel")):
            reply = client.call(method, target)
            equal(f"{method} {target}", (reply.code, reply.body), (503, {"error": "Stopped"}))
            is_bare(f"{method} {target}", reply)
        is_bare("a read", client.call("GET", path))
    with Unarchived(setting, *OPTION) as service, service.client() as client:
        path = f"/lra-coordinator/{id_of(service.first(3)[0])}/close"
        older = min(service.journals())
        service.wait_for(2)
        service.deny(denial("write", older + ".journal", errno.ENOSPC))
        for _ in range(3):
            reply = client.call("PUT", path)
            equal("a close", (reply.code, reply.body, said(reply)), (503, {"error": "Stopped"}, None))


def test_a_folder_that_drains_says_nothing(setting):
    with Folder(setting) as folder:
        folder.first()
    with Folder(setting, "--drain", *OPTION) as folder, folder.client() as client:
        reply = client.call("POST", "/lra-coordinator")
        full = {"error": "Full", "which": "Entries"}
        equal("a start", (reply.code, reply.body, said(reply)), (503, full, None))


def test_no_other_reply_says_when_to_send_again(setting):
    """Those of each code that a service can be brought to by requests alone."""
    codes = set()
    with Participant() as member, Based(setting, setting.journal, *OPTION) as service, service.client() as client:

        def ask(method, path, body=None):
            reply = client.send(method, path, body)
            is_bare(f"{method} {path}", reply)
            codes.add(reply.code)
            return reply.body

        action = ask("POST", "/lra-coordinator")["lra"]
        path = "/lra-coordinator/" + id_of(action)
        address = member.uri("compensate")
        recovery = ask("PUT", path, f'{{"compensate":"{address}"}}')["recovery"]
        other = "/lra-coordinator/" + id_of(ask("POST", "/lra-coordinator")["lra"])
        ask("GET", path)
        ask("GET", "/lra-recovery/" + id_of(recovery))
        ask("PUT", other + "/remove", f'{{"recovery":"{recovery}"}}')
        ask("PUT", path + "/remove", f'{{"recovery":"{recovery}"}}')
        ask("PUT", "/lra-recovery/" + id_of(recovery), '{"status":"Compensated"}')
        ask("PUT", path + "/close")
        ask("PUT", path, f'{{"compensate":"{address}"}}')
        ask("GET", "/nowhere")
        ask("DELETE", path)
        ask("PUT", path + "/renew", "5")
    equal("the codes", codes, {200, 201, 400, 404, 405, 409, 410, 412})
