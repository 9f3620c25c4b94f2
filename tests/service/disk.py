"""What is on disk when something leaves, and when the power goes; and a disk that fails."""
import errno
import subprocess
import time

import files
import folders
import journal
import operators
from participant import Participant, wait_until
from service import CLOSED, PATIENCE, LeftOut, Telling, equal, id_of
from watching import Deniable, denial

# How many seconds after a journal gave way no other does, of a minute.
SOON = 10


class File(Deniable, operators.Port, Telling):
    """A service of a file on a disk that can be made to fail."""

    def __init__(self, setting):
        super().__init__(setting.program, setting.journal)
        self.words[2:2] = self.open_port(setting, None)
        self.watch(setting)


class Folder(Deniable, operators.WatchedFolder):
    """The same of a folder, whose journals rotate soon and stay."""

    def __init__(self, setting):
        super().__init__(setting, *folders.FAR, key=None)
        self.watch(setting)


def ends_unanswered(service, client, method, path):
    """Fails the test unless a request has no reply, and the service ends with status 2."""
    try:
        raise AssertionError(f"{method} {path} is answered {client.call(method, path)}")
    except CLOSED:
        client.connection.close()
    equal("the status", service.process.wait(PATIENCE), 2)
    equal("what is told last", service.told().splitlines()[-1], f"lra: cannot write {service.journal}")


def test_nothing_leaves_before_the_journal_is_synced_and_what_left_outlasts_the_power(setting):
    done = subprocess.run(
        [f"{setting.root}/tools/syncs", setting.program, "10"], capture_output=True, timeout=600, check=False
    )
    if done.returncode == 2:
        raise LeftOut(done.stderr.decode().strip())
    said = done.stdout.decode()
    equal(f"the status, where it says {said}", (done.returncode, done.stderr), (0, b""))
    return said.replace("syncs: ", "").strip().replace("\n", "; ")


def test_a_cut_that_fails_ends_the_service(setting):
    """A write fails, and what it may have left can't be cut off."""
    for kind in (File, Folder):
        with kind(setting) as service, service.client() as client:
            path = f"/lra-coordinator/{id_of(client.start())}/close"
            service.deny(denial("write", "journal$", errno.ENOSPC), denial("ftruncate", "journal$"))
            ends_unanswered(service, client, "PUT", path)
            service.allow()


def test_a_sync_that_fails_ends_the_service(setting):
    """Of a folder it may be that of an older journal."""
    with File(setting) as service, service.client() as client:
        path = f"/lra-coordinator/{id_of(client.start())}/close"
        service.deny(denial("fdatasync", "journal$"))
        ends_unanswered(service, client, "PUT", path)
        service.allow()
    with Folder(setting) as service, service.client() as client:
        older = service.first(3)[0]
        service.wait_for(2)
        client.start()
        service.deny(denial("fdatasync", folders.instance_of(older) + ".journal"))
        ends_unanswered(service, client, "PUT", f"/lra-coordinator/{id_of(older)}/close")


def test_a_journal_that_cannot_be_written_stops_and_others_go_on(setting):
    """An older one of a folder: it is read, its commands are refused until a restart, and health is DOWN. The newest
    takes starts, and calls members."""
    with Participant() as member, Folder(setting) as service, service.client() as client:
        older = service.first(3)[0]
        newest = service.wait_for(2)
        path = f"/lra-coordinator/{id_of(older)}/close"
        name = folders.instance_of(older) + ".journal"
        before = journal.read(service.path(name))
        for way in (lambda: service.deny(denial("write", name, errno.ENOSPC)), service.allow):
            way()
            files.stopped(client, "PUT", path)
            equal("a read", client.status(older), "Active")
            action = client.start()
            equal("the journal of a start", folders.instance_of(action), newest)
            client.join(action, **member.addresses("compensate"))
            client.end(action, "cancel")
            wait_until("its end", lambda action=action: client.status(action) == "Cancelled")
            equal("health", service.ask("/health").code, 503)
        equal("the journal", journal.read(service.path(name)), before)
        service.kill()
    with Folder(setting) as service, service.client() as client:
        equal("a close after a restart", client.end(older, "close"), "Closed")


def test_the_newest_journal_gives_way_where_it_cannot_be_written(setting):
    """The next one takes the starts, and gives way in its turn after a minute at the soonest."""
    with Folder(setting) as service, service.client() as client:
        actions = [client.start()]
        newest = max(service.journals())
        service.deny(denial("write", newest + ".journal", errno.ENOSPC))
        files.stopped(client, "POST", "/lra-coordinator")
        wait_until("the next journal", lambda: max(service.journals()) > newest)
        wait_until("a start", lambda: client.call("POST", "/lra-coordinator").code == 201)
        actions.append(client.start())
        equal("the journals", len(set(map(folders.instance_of, actions))), 2)
        equal("a read", client.status(actions[0]), "Active")
        equal("health", service.ask("/health").code, 503)
        newest = max(service.journals())
        service.deny(denial("write", ".journal", errno.ENOSPC))
        files.stopped(client, "POST", "/lra-coordinator")
        time.sleep(SOON)
        equal("the newest", max(service.journals()), newest)
