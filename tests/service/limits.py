"""Limits of starts that give none, by an option of the service: for a file and for a folder, on the line and in a file
of settings. What a journal has of a start shows what it meant."""
import time

import journal
from bases import Based
from folders import Folder
from options import config
from participant import Participant, wait_until
from service import Service, check, equal, id_of

# A default limit that doesn't pass in a test, and one that does, but not before a member has joined.
FAR, NEAR = 600_000, 8000
BAD_BODY = (400, "BadBody")
# Bodies of starts, with PARENT for the URI of an action, and the limits that they mean under a default of FAR; or what
# they are refused by.
STARTS = (
    ("", FAR),
    ("{}", FAR),
    (' {\n} ', FAR),
    ('{"parent":"PARENT"}', FAR),
    ('{"parent":"PARENT","limit":5000}', 5000),
    ('{"limit":5000}', 5000),
    ('{"limit":0}', 0),
    ('{"li\\u006dit":0}', 0),
    ('{"limit":5000,"limit":0}', 0),
    ('{"limit":900000}', 900_000),
    ('{"limit":null}', BAD_BODY),
    ('{"limit":"5000"}', BAD_BODY),
    ('{"limit":1.5}', BAD_BODY),
    ('{"Limit":5000}', BAD_BODY),
    ('{"parent":5}', BAD_BODY),
    ("[]", BAD_BODY),
    ("5", BAD_BODY),
    ('{"limit"', BAD_BODY),
    ('{"parent":"http://elsewhere.test/"}', (404, "NoSuchAction")),
)


def limits_of(path):
    """The limit of each start of a journal, in order."""
    return [int(it.fields[-1]) for it in journal.entries(path) if it.deed == "start"]


def check_starts(service, path, default):
    """Each start has the limit that it means, and what is refused starts nothing."""
    with service.client() as client:
        parent = client.start(limit=1_000_000)
        for body, wanted in STARTS:
            before = limits_of(path)
            reply = client.send("POST", "/lra-coordinator", body.replace("PARENT", parent))
            if isinstance(wanted, int):
                equal(f"a start by {body}", reply.code, 201)
                equal(f"its limit by {body}", limits_of(path)[len(before):], [default if wanted == FAR else wanted])
            else:
                equal(f"a start by {body}", (reply.code, reply.body["error"]), wanted)
                equal(f"the journal after {body}", limits_of(path), before)


def check_others(service):
    """No other request gets a limit: each is refused or done as ever."""
    with Participant() as member, service.client() as client:
        action = client.start(limit=FAR)
        client.join(action, compensate=member.uri("compensate"))
        path = f"/lra-coordinator/{id_of(action)}"
        for target in (path + "/renew", path + "/remove", path):
            equal(f"no body at {target}", client.send("PUT", target, "").code, 400)
        equal("a limit of a join", client.call("PUT", path, compensate=member.uri("other"), limit=5).code, 400)
        how = client.end(action, "cancel")
        check(f"an end is {how}", how in ("Cancelling", "Cancelled"))


def test_starts_without_a_limit_get_the_default(setting):
    with Based(setting, setting.journal, "--default-limit", str(FAR)) as service:
        check_starts(service, setting.journal, FAR)
        check_others(service)
    journal.check_sound(setting.program, journal.read(setting.journal), setting.folder)


def test_without_the_option_they_get_none(setting):
    with Service(setting.program, setting.journal) as service:
        check_starts(service, setting.journal, 0)
        check_others(service)


def test_a_file_of_settings_has_a_default_limit(setting):
    path = config(setting, f"default-limit = {FAR}\n")
    with Based(setting, setting.journal, "--config", path) as service, service.client() as client:
        client.start()
    with Based(setting, setting.journal, "--config", path, "--default-limit", "9000000") as service:
        with service.client() as client:
            client.start()
    equal("the limits", limits_of(setting.journal), [FAR, 9_000_000])


def check_ends(service):
    """Under a near default limit what gave none is cancelled once it has passed, and what gave another one stays."""
    with Participant() as member, service.client() as client:
        kept, free = client.start(limit=FAR), client.start(limit=0)
        parent = client.start(limit=FAR)
        begun = time.monotonic()
        bare, nested = client.start(), client.start(parent=parent)
        client.join(bare, **member.addresses("compensate"))
        wait_until("the end", lambda: client.status(bare) == "Cancelled")
        seconds = time.monotonic() - begun
        check(f"it was cancelled after {seconds:.3f} s", NEAR / 1000 <= seconds)
        wait_until("the end of the nested one", lambda: client.status(nested) == "Cancelled")
        for action in (kept, free, parent):
            equal("one with a limit of its own", client.status(action), "Active")


def test_a_default_limit_cancels(setting):
    with Based(setting, setting.journal, "--default-limit", str(NEAR)) as service:
        check_ends(service)
    check("no end is in the journal", any(it.deed == "cancel" for it in journal.entries(setting.journal)))


def test_a_default_limit_cancels_in_a_folder(setting):
    with Folder(setting, "--default-limit", str(NEAR)) as folder:
        check_ends(folder)


def test_a_default_limit_past_the_last_moment_is_refused(setting):
    """A journal near the last moment takes no start under it, but one with a limit of 0."""
    late = 2**64 - 10**9
    journal.write(setting.journal, f"lra-journal 2 1\n1 {late} enrol\n".encode())
    with Based(setting, setting.journal, "--default-limit", str(2**53)) as service, service.client() as client:
        reply = client.call("POST", "/lra-coordinator")
        equal("a start", (reply.code, reply.body), (400, {"error": "LimitTooFar"}))
        client.start(limit=0)
