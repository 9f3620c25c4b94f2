"""What becomes of one site of several: it is drained, its folder is restored from a copy,
and its folder is another's."""
import json
import os
import shutil
import time

import journal
from crowds import refused_starts
from folders import FAR, Folder, check_sound, instance_of, refused
from operators import LIVE, READY, WatchedFolder
from participant import Participant, wait_until
from service import HOST, PATIENCE, check, equal, free_port, id_of

# How many seconds a journal stays that is done.
REMEMBERED = 1
# What identifiers begin with, whichever port is served.
BASE = ("--base", "http://lra.test/")


def path_of(action):
    return f"/lra-coordinator/{id_of(action)}"


def full(reply):
    """Fails the test where a reply doesn't say that nothing is begun there."""
    equal("the reply", (reply.code, reply.body), (503, {"error": "Full", "which": "Entries"}))


def leave(folder, seconds=PATIENCE):
    """Waits until a service has ended by itself, and answers its status and what it told."""
    status = folder.process.wait(seconds)
    return status, folder.told()


def checks(service, probe):
    """What a probe is told, by the name of each check."""
    reply = service.ask("/health" + probe)
    return reply.code, {it["name"]: it["status"] for it in json.loads(reply.body)["checks"]}


def test_a_site_that_drains_ends_once_its_actions_have(setting):
    with Participant() as member:
        with Folder(setting, *BASE) as folder, folder.client() as client:
            action = client.start()
            client.join(action, **member.addresses("complete", "compensate"))
        with (
            WatchedFolder(setting, *BASE, "--drain", "--remember", str(REMEMBERED)) as service,
            service.client() as client,
        ):
            full(client.call("POST", "/lra-coordinator"))
            equal("what is ready", checks(service, "/ready"), (503, dict.fromkeys(READY, "UP") | {"starts": "DOWN"}))
            equal("what lives", checks(service, "/live"), (200, dict.fromkeys(LIVE, "UP")))
            nested = client.start(parent=action)
            client.join(nested, **member.addresses("compensate", "complete"))
            full(client.call("POST", "/lra-coordinator", limit=5))
            stray = client.call("PUT", "/lra-coordinator/none", **member.addresses("compensate"))
            equal("a join that names no action", (stray.code, stray.body["error"]), (404, "NoSuchAction"))
            time.sleep(2 * REMEMBERED)
            equal("it goes on", service.process.poll(), None)
            equal("the nested one", client.status(nested), "Active")
            client.end(action, "cancel")
            wait_until("it is cancelled", lambda: client.status(action) == "Cancelled")
            status, told = leave(service)
            equal("how it ended", (status, told), (0, f"lra: {service.folder} is drained\n"))
            equal("the members", sorted(it.path.rsplit("/")[-1] for it in member.requests), ["compensate"] * 2)
    equal("sound journals", check_sound(folder), 1)
    with Folder(setting, *BASE) as folder, folder.client() as client:
        equal("the next start has it", client.status(action), "Cancelled")
        client.start()


def test_a_site_with_nothing_to_do_drains_at_once(setting):
    with Folder(setting, "--drain", "--remember", str(REMEMBERED)) as folder:
        equal("how it ended", leave(folder)[0], 0)


def test_a_site_drains_while_it_refuses_starts_without_a_pause(setting):
    """No thread has a quiet moment, and none is asked for anything of a journal: each lets go of what has ended."""
    with Folder(setting, *BASE, *FAR) as folder:
        actions = folder.first(3)
        folder.wait_for(2)
        actions += folder.first()
    equal("the journals", len(set(map(instance_of, actions))), 2)
    with Folder(setting, *BASE, "--drain", "--remember", str(REMEMBERED)) as folder, folder.client() as client:
        with refused_starts(folder, 503) as codes:
            wait_until("some are refused", lambda: len(codes) > 100)
            for action in actions:
                equal("an end", client.end(action, "close"), "Closed")
            begun = time.monotonic()
            wait_until("it has ended", lambda: folder.process.poll() is not None)
            took = time.monotonic() - begun
            equal("how it ended", leave(folder), (0, f"lra: {folder.folder} is drained\n"))
            equal("what is archived", folder.ended(), [instance_of(actions[0])])
    check_sound(folder)
    return f"{took:.1f} s, {len(codes)} starts refused"


def test_nothing_is_begun_in_what_was_restored(setting):
    copy = f"{setting.folder}/copy"
    with Participant() as member:
        addresses = member.addresses("complete", "compensate")
        with Folder(setting, *BASE) as folder, folder.client() as client:
            kept, open_still = client.start(), client.start()
            client.join(kept, **addresses)
            shutil.copytree(folder.folder, copy)
            lost = client.start()
            client.join(kept, **member.addresses("compensate", "after"))
        shutil.rmtree(folder.folder)
        shutil.copytree(copy, folder.folder)
        with Folder(setting, *BASE, "--restored") as folder, folder.client() as client:
            older, newer = sorted(folder.journals())
            check("what is noted", int(older, 16) <= int(journal.read(folder.path("restored"))) < int(newer, 16))
            begun = client.start()
            equal("its journal", instance_of(begun), newer)
            equal("what was lost", client.call("GET", path_of(lost)).code, 404)
            full(client.call("PUT", path_of(kept), **addresses))
            full(client.call("POST", "/lra-coordinator", parent=kept))
            client.join(begun, **addresses)
            client.start(parent=begun)
            client.end(kept, "close")
            wait_until("it is closed", lambda: client.status(kept) == "Closed")
            equal("what is told", folder.told(), "")
        with Folder(setting, *BASE) as folder, folder.client() as client:
            full(client.call("PUT", path_of(open_still), **addresses))
            equal("a new one is of the newest", instance_of(client.start()), newer)
            equal("the journals", sorted(folder.journals()), [older, newer])
    equal("sound journals", check_sound(folder), 2)


def put_fence(setting, text, name="fence"):
    """Puts a text in the place of what the fence had, by another file of its name."""
    path = f"{setting.folder}/{name}"
    journal.write(path + ".new", text)
    os.rename(path + ".new", path)
    return path


def test_a_folder_that_is_another_s_is_written_no_more(setting):
    def replaced():
        put_fence(setting, b"2\n")

    def rewritten():
        journal.write(f"{setting.folder}/fence", b"2\n")

    def removed():
        os.remove(f"{setting.folder}/fence")

    for how in (replaced, rewritten, removed):
        fence = put_fence(setting, b"1\n")
        with Folder(setting, "--fence", fence) as folder, folder.client() as client:
            client.start()
            name = max(folder.journals())
            how()
            had = os.path.getsize(folder.path(name + ".journal"))
            status, told = leave(folder)
            equal("how it ended", (status, told.splitlines()[-1]), (2, f"lra: cannot write {folder.folder}"))
            check(f"why: {told}", "lra: the fence is another's now: nothing is written any more\n" in told)
            equal("how long the journal is", os.path.getsize(folder.path(name + ".journal")), had)
        check_sound(folder)


def test_a_start_behind_a_fallen_fence_is_in_no_journal(setting):
    """Requests that come in the moment in which the fence falls are answered only where they are in the journal."""
    fence = put_fence(setting, b"1\n")
    with Folder(setting, "--fence", fence) as folder, folder.client() as client:
        answered = [client.start()]
        name = max(folder.journals())
        put_fence(setting, b"2\n")
        had = os.path.getsize(folder.path(name + ".journal"))
        try:
            reply = client.call("POST", "/lra-coordinator")
            equal("a start", (reply.code, reply.body), (503, {"error": "Stopped"}))
        except (ConnectionError, OSError):
            pass  # it had ended before
        leave(folder)
        equal("how long the journal is", os.path.getsize(folder.path(name + ".journal")), had)
    with Folder(setting) as folder, folder.client() as client:
        equal("what was answered", [client.status(it) for it in answered], ["Active"])


def test_what_only_a_folder_can_do_is_refused_of_a_file(setting):
    fence = put_fence(setting, b"1\n")
    for option, words in (("drain", ["--drain"]), ("restored", ["--restored"]), ("fence", ["--fence", fence])):
        for check_alone in ([], ["--check"]):
            told = setting.run("serve", *words, *check_alone, f"{HOST}:{free_port()}", setting.journal, "2")
            equal("the refusal", told, (2, "", f"lra: --{option}: {setting.journal} is no folder\n"))
    check("nothing is made", not os.path.exists(setting.journal))
    folder = Folder(setting)
    journal.write(f"{setting.folder}/long", b"1" * 4097)
    for path, why in (
        (f"{setting.folder}/missing", "cannot read {}"),
        (setting.folder, "cannot read {}"),
        (f"{setting.folder}/long", "{}: too long"),
    ):
        equal("the refusal", refused(folder, "--fence", path), (2, "", f"lra: {why.format(path)}\n"))
    told = refused(folder, "--check", "--drain", "--restored", "--fence", fence)
    equal(
        "the check",
        (told.status, told.told, told.output.splitlines()[-3:]),
        (0, "", [f'fence = "{fence}"', "drain = true", "restored = true"]),
    )
    equal("what is there", os.listdir(folder.folder), [])
