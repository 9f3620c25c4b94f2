"""A service over a folder of journals: how they roll and are put away, what goes to which,
and the bad worlds of a folder."""
import contextlib
import errno
import glob
import os
import re
import resource
import shutil
import socket
import subprocess
import tempfile
import time
import uuid

import journal
from files import SOUND, UNSOUND
from participant import Participant, wait_for_ends, wait_until
from service import HOST, PATIENCE, LeftOut, Run, Telling, check, equal, free_port, id_of, least_share
from watching import denial

# The name that a journal has until it is in use.
NEXT = re.compile(r"([0-9a-f]{15})\.next")
# The instance of files.SOUND, as a journal's name has it.
SEVENTH = f"{7:015x}"
# How many milliseconds a folder's clock is ahead, where it is.
AHEAD = 10**9
# What is said of a folder so that its journals roll and are put away soon.
SOON = ("--roll-after", "3", "--remember", "1")
FAR = ("--roll-after", "3", "--remember", "3600")
# How many entries a journal may have.
ENTRIES = 4_000_000
# How many files a service may open beside those that it has open, where they are to be too few for a next journal.
FEW_FILES = 40
# The first identifier of the journal that is nearly full.
NEAR = "/lra-coordinator/00000000-0000-8007-8000-000000000001"


def instance_of(uri):
    """The name, without its end, of the journal that an identifier is of:
    all of it that is neither the version nor behind it."""
    digits = uuid.UUID(id_of(uri)).hex
    return digits[:12] + digits[13:16]


def leave_unarchived(service, client):
    """Ends all actions of a folder's first journal, which leaves, but can't be archived: the disk is full. Returns the
    actions. The service is one that calls can be denied to."""
    actions = service.first(3)
    service.wait_for(2)
    service.deny(denial("link", "/ended/.*.journal$", errno.ENOSPC))
    for action in actions:
        equal("an end", client.end(action, "close"), "Closed")
    wait_until("it can't be archived", service.denied)
    return actions


class Folder(Telling):
    """The program, serving a folder of journals by options. What it tells on standard error goes to a file."""

    def __init__(self, setting, *options, port=None, workers=2, front=()):
        self.folder = f"{setting.folder}/journals"
        os.makedirs(self.folder, exist_ok=True)
        super().__init__(setting.program, self.folder, workers, port)
        self.words[2:2] = options
        self.words[:0] = front
        self.stops = "--stop-at-eof" in options

    def path(self, name):
        return f"{self.folder}/{name}"

    def journals(self, where="."):
        return journals_in(self.folder, where)

    def ended(self):
        return self.journals("ended")

    def has_next(self):
        """Whether the journal behind the newest one is there. It is begun once that one is in use, whose name comes
        before."""
        found = filter(None, map(NEXT.fullmatch, os.listdir(self.folder)))
        return max((it[1] for it in found), default="") > max(self.journals())

    def wait_for_next(self):
        """Waits until the journal behind the newest one is there."""
        wait_until("the next journal", self.has_next)

    def wait_for(self, count, seconds=PATIENCE):
        """Waits until there are so many journals, those that were put away among them, and answers the newest one, once
        it is in use."""
        wait_until(f"a folder of {count} journals", lambda: len(self.journals()) + len(self.ended()) >= count, seconds)
        self.wait_for_next()
        return max(self.journals())

    def wait_for_told(self, wanted):
        """Waits until that is told, and nothing else."""

        def is_over():
            told = self.told()
            return told == wanted or not wanted.startswith(told)

        wait_until(f"that {wanted!r} is told", is_over)
        equal("what is told", self.told(), wanted)

    def first(self, count=1):
        """Starts so many actions one after another, and answers their URIs."""
        with self.client() as client:
            return [client.start() for _ in range(count)]

    def missing(self, action):
        """Whether an action is of no journal that is served."""
        with self.client() as client:
            return client.call("GET", "/lra-coordinator/" + id_of(action)).code == 404


def journals_in(folder, where="."):
    """The names of a folder's journals, without their ends, in their order."""
    path = os.path.join(folder, where)
    return (
        sorted(name.removesuffix(".journal") for name in os.listdir(path) if name.endswith(".journal"))
        if os.path.isdir(path)
        else []
    )


def refused(folder, *options):
    """What a service over the folder says that ends by itself."""
    words = [*folder.words[:2], *options, *folder.words[2:]]
    done = subprocess.run(words, stdin=subprocess.DEVNULL, capture_output=True, timeout=PATIENCE, check=False)
    return Run(done.returncode, done.stdout.decode(), done.stderr.decode())


def put(setting, name, data):
    """Puts a file into the folder, before there is a service."""
    os.makedirs(f"{setting.folder}/journals", exist_ok=True)
    journal.write(f"{setting.folder}/journals/{name}", data)


def check_sound(folder):
    """The audit of the folder finds each journal sound. Answers how many there are."""
    told = subprocess.run(
        [folder.words[0], "audit", folder.folder],
        stdin=subprocess.DEVNULL,
        capture_output=True,
        timeout=PATIENCE,
        check=False,
    )
    last = re.search(rb"^journals sound (\d+) unsound 0 unread 0\n\Z", told.stdout, re.M)
    check(f"the audit says {told}", told.returncode == 0 and last)
    return int(last[1])


def test_a_first_start_makes_the_first_journal(setting):
    before = time.time_ns() // 10**6
    with Folder(setting) as folder:
        action = folder.first()[0]
        names = folder.journals()
        equal("the journals", names, [instance_of(action)])
        instance = int(names[0], 16)
        check(f"its instance is {instance}", before <= instance <= time.time_ns() // 10**6)
        equal(
            "its header",
            journal.read(folder.path(names[0] + ".journal")).split(b"\n")[0],
            b"lra-journal 2 %d" % instance,
        )
        equal("its mode", oct(os.stat(folder.path(names[0] + ".journal")).st_mode & 0o777), oct(0o600))
        check("the newest instance", int(journal.read(folder.path("newest"))) >= instance)
        check("a line feed", journal.read(folder.path("newest")).endswith(b"\n"))
        equal("what is told", folder.told(), "")


def test_a_check_tells_what_would_be_served_and_makes_nothing(setting):
    put(setting, SEVENTH + ".journal", SOUND)
    folder = Folder(setting)
    told = refused(folder, "--check", "--site", "3", "--operators", "127.0.0.1:9090")
    equal("the status, and what is told", (told.status, told.told), (0, ""))
    lines = told.output.splitlines()
    equal(
        "what is served",
        lines[:6],
        [
            f'address = "{folder.address}"',
            f'base = "http://{folder.address}/"',
            f'folder = "{folder.folder}"',
            "workers = 2",
            "journals = 1",
            "entries = 5",
        ],
    )
    check(f"the settings: {lines}", "site = 3" in lines and lines[-1] == 'operators = "127.0.0.1:9090"')
    equal("what is there", os.listdir(folder.folder), [SEVENTH + ".journal"])


def test_what_names_an_identifier_goes_to_its_journal(setting):
    """Actions of three journals are read, joined, nested and ended, each in its own."""
    with Participant() as member, Folder(setting, *FAR) as folder, folder.client() as client:
        actions = []
        for count in (2, 3, 4):
            actions += folder.first(3)
            folder.wait_for(count)
            equal(
                "the journals of the actions",
                [instance_of(it) for it in actions],
                sorted(instance_of(it) for it in actions),
            )
        check("they are of three journals", len({instance_of(it) for it in actions}) == 3)
        for action in actions:
            equal("its status", client.status(action), "Active")
            recovery = client.join(action, **member.addresses("complete", "compensate"))
            equal("the member's journal", instance_of(recovery), instance_of(action))
            nested = client.start(parent=action)
            equal("the nested action's journal", instance_of(nested), instance_of(action))
            client.end(action, "close")
        wait_for_ends(client, actions, "Closed")
        member.wait("complete", len(actions))
        equal("the identifiers", len(set(actions)), len(actions))
        folder.kill()
        return f"{check_sound(folder)} journals"


def test_an_identifier_of_no_journal_is_not_found(setting):
    with Folder(setting) as folder, folder.client() as client:
        path = "/lra-coordinator/00000000-0000-8000-8000-000000000001"
        equal("a read", client.call("GET", path).code, 404)
        equal("a close", client.call("PUT", path + "/close").code, 404)
        equal("a join", client.call("PUT", path, compensate="http://127.0.0.1:1/").code, 404)
        equal(
            "a nested start", client.call("POST", "/lra-coordinator", parent=f"http://{folder.address}{path}").code, 404
        )
        client.start()


def test_a_limit_passes_in_an_older_journal(setting):
    with Participant() as member, Folder(setting, *FAR) as folder, folder.client() as client:
        # It leaves a member time to join.
        action = client.start(limit=5000)
        client.join(action, **member.addresses("compensate"))
        folder.first(3)
        newest = folder.wait_for(2)
        check("the newest is another", newest != instance_of(action))
        wait_until("the end", lambda: client.status(action) == "Cancelled")
        member.wait("compensate")


def test_a_journal_that_has_ended_is_put_away_and_the_newest_never_is(setting):
    with Participant() as member, Folder(setting, *SOON) as folder, folder.client() as client:
        actions = folder.first(3)
        recovery = client.join(actions[0], **member.addresses("complete", "compensate"))
        status = f"/lra-recovery/{id_of(recovery)}"
        equal("the member before", client.call("GET", status).code, 200)
        for action in actions:
            client.end(action, "close")
        first = instance_of(actions[0])
        wait_until("it is put away", lambda: folder.ended() == [first])
        for action in actions:
            check("it is found", folder.missing(action))
        equal("the member", client.call("GET", status).code, 404)
        newest = client.start()
        client.end(newest, "close")
        time.sleep(3)
        equal("the newest's action", client.status(newest), "Closed")
        equal("what was put away", folder.ended(), [first])
        equal("the journals", folder.journals(), [instance_of(newest)])
        folder.kill()
        equal("the journals that are sound", check_sound(folder), 2)


def test_a_journal_that_can_not_be_put_away_stays_served_until_it_can(setting):
    """A file has its name already: that stays as it is, and it is tried again."""
    with Folder(setting, *SOON) as folder, folder.client() as client:
        actions = folder.first(3)
        first = instance_of(actions[0])
        os.makedirs(folder.path("ended"))
        put(setting, f"ended/{first}.journal", b"another's")
        for action in actions:
            client.end(action, "close")
        line = f"lra: cannot put away {folder.path(first)}.journal\n"
        wait_until("that it can't be put away", lambda: line in folder.told())
        time.sleep(1.5)
        for action in actions:
            equal("its status", client.status(action), "Closed")
        equal("the other file", journal.read(folder.path(f"ended/{first}.journal")), b"another's")
        equal("what is told", folder.told(), line)
        os.remove(folder.path(f"ended/{first}.journal"))
        wait_until("it is put away", lambda: first not in folder.journals())
        wait_until("it is gone", lambda: all(folder.missing(action) for action in actions))
        equal("what is among those that were put away", os.listdir(folder.path("ended")), [first + ".journal"])
        folder.kill()
        equal("the journals that are sound", check_sound(folder), 2)


def test_a_journal_that_can_not_be_put_away_is_told_of_once_for_each_reason(setting):
    """A file has its name already; then the folder lies on another disk; then it can be put away."""
    with tempfile.TemporaryDirectory() as elsewhere, Folder(setting, *SOON) as folder, folder.client() as client:
        if os.stat(elsewhere).st_dev == os.stat(folder.folder).st_dev:
            raise LeftOut("a second disk")
        actions = folder.first(3)
        first = instance_of(actions[0])
        # One link takes the place of the other at once: in between the service could make the folder itself.
        beside, other = f"{setting.folder}/beside", f"{setting.folder}/other"
        os.makedirs(beside)
        journal.write(f"{beside}/{first}.journal", b"another's")
        os.symlink(beside, folder.path("ended"))
        os.symlink(elsewhere, other)
        for action in actions:
            client.end(action, "close")
        line = f"lra: cannot put away {folder.path(first)}.journal\n"
        wait_until("that it can't be put away", lambda: line in folder.told())
        os.rename(other, folder.path("ended"))
        wait_until("that it can't for another reason", lambda: folder.told().count(line) == 2)
        time.sleep(5)
        equal("what is told", folder.told(), 2 * line)
        equal("the statuses", {client.status(action) for action in actions}, {"Closed"})
        os.remove(folder.path("ended"))
        wait_until("it is put away", lambda: folder.ended() == [first])
        folder.kill()
        equal("the journals that are sound", check_sound(folder), 2)


def test_a_move_that_was_cut_off_is_taken_back_at_the_start(setting):
    put(setting, SEVENTH + ".journal", SOUND)
    os.makedirs(f"{setting.folder}/journals/ended", exist_ok=True)
    for name in (SEVENTH + ".journal", SEVENTH + ".next"):
        os.link(f"{setting.folder}/journals/{SEVENTH}.journal", f"{setting.folder}/journals/ended/{name}")
    with Folder(setting, *FAR) as folder:
        equal("what is among those that were put away", os.listdir(folder.path("ended")), [])
        equal("the journals", folder.journals(), [SEVENTH])
        folder.first()


def files_of(process, stem):
    """How many files of this name a process has open."""
    found = 0
    for name in glob.glob(f"/proc/{process.pid}/fd/*"):
        with contextlib.suppress(FileNotFoundError):
            found += f"{stem}.journal" in os.readlink(name)
    return found


def test_a_journal_s_file_is_closed_while_nobody_asks(setting):
    with Folder(setting, *SOON) as folder, folder.client() as client:
        actions = folder.first(3)
        first = instance_of(actions[0])
        check("its file is open", files_of(folder.process, first) > 0)
        for action in actions:
            client.end(action, "close")
        wait_until("it is put away", lambda: folder.ended() == [first])
        wait_until("its file is closed", lambda: files_of(folder.process, first) == 0)


def test_a_journal_with_an_action_that_has_not_ended_stays(setting):
    with Folder(setting, *SOON) as folder, folder.client() as client:
        actions = folder.first(3)
        for action in actions[:2]:
            client.end(action, "close")
        folder.wait_for(2)
        time.sleep(3)
        equal("what was put away", folder.ended(), [])
        equal("its status", client.status(actions[2]), "Active")
        client.end(actions[2], "cancel")
        wait_until("it is put away", lambda: folder.ended() == [instance_of(actions[2])])


def test_a_journal_whose_member_was_not_told_stays(setting):
    with (
        Participant(lambda _: None) as member,
        Folder(setting, "--retry-last", "200", *SOON) as folder,
        folder.client() as client,
    ):
        actions = folder.first(3)
        client.join(actions[0], **member.addresses("compensate"))
        for action in actions:
            client.end(action, "cancel")
        folder.wait_for(2)
        time.sleep(3)
        equal("what was put away", folder.ended(), [])
        member.answer = lambda _: (200, b"")
        wait_until("it is put away", lambda: folder.ended() == [instance_of(actions[0])])


def test_a_service_that_is_killed_goes_on_with_each_journal(setting):
    with Folder(setting, *FAR) as folder:
        actions = []
        for count in (2, 3):
            actions += folder.first(3)
            folder.wait_for(count)
        folder.kill()
    before = folder.journals()
    with Folder(setting, *FAR) as folder, folder.client() as client:
        check("a journal is gone", set(before) <= set(folder.journals()))
        for action in actions:
            equal("its status", client.status(action), "Active")
            equal("its end", client.end(action, "close"), "Closed")
        more = folder.first(3)
        check("an identifier was given again", not set(map(id_of, more)) & set(map(id_of, actions)))
        check("a start went to an older journal", min(map(instance_of, more)) >= max(before))


def test_a_gentle_end_is_one(setting):
    with Folder(setting, "--stop-at-eof", *FAR) as folder:
        actions = folder.first(4)
        folder.wait_for(2)
        folder.process.stdin.close()
        equal("the status", folder.process.wait(PATIENCE), 0)
        equal("what is told", folder.told(), "")
    check_sound(folder)
    with Folder(setting, *FAR) as folder, folder.client() as client:
        equal("the statuses", [client.status(it) for it in actions], ["Active"] * 4)


def test_instances_begin_with_the_site(setting):
    with Folder(setting, "--site", "258") as folder:
        action = folder.first()[0]
        equal("the site", instance_of(action)[:4], "0102")
    told = refused(folder, "--site", "257")
    check(
        f"a smaller site: {told}",
        told.status == 2 and told.output == "" and told.told.startswith("lra: ") and "site" in told.told,
    )
    with Folder(setting, "--site", "259", "--roll-after", "1") as folder:
        folder.first()
        newest = folder.wait_for(2)
        wait_until("one of the site", lambda: max(folder.journals())[:4] == "0103")
    return newest


def test_a_clock_that_went_back_gives_no_instance_twice(setting):
    ahead = time.time_ns() // 10**6 + AHEAD
    put(setting, "newest", b"%d\n" % ahead)
    with Folder(setting, "--roll-after", "1") as folder:
        first = int(folder.journals()[0], 16)
        check("it isn't greater", first > ahead)
        folder.first()
        check("the next isn't greater", int(folder.wait_for(2), 16) > first)
        check("the newest isn't told", int(journal.read(folder.path("newest"))) >= int(max(folder.journals()), 16))


def test_what_was_put_away_counts_for_the_next_instance(setting):
    ahead = time.time_ns() // 10**6 + AHEAD
    os.makedirs(f"{setting.folder}/journals/ended")
    put(setting, f"ended/{ahead:015x}.journal", b"lra-journal 2 %d\n1 0 enrol\n" % ahead)
    with Folder(setting) as folder:
        check("it isn't greater", int(max(folder.journals()), 16) > ahead)


def test_a_half_made_next_journal_is_made_anew(setting):
    for data in (b"", b"lra-jour", b"lra-journal 2 7\n1 0 en"):
        put(setting, SEVENTH + ".next", data)
        with Folder(setting, "--roll-after", "1") as folder:
            check("it is there", not os.path.exists(folder.path(SEVENTH + ".next")))
            check("it was taken for a journal", SEVENTH not in folder.journals())
            count = len(folder.journals())
            folder.first()
            folder.wait_for(count + 1)
            folder.kill()
        check_sound(folder)


def test_a_torn_last_line_is_cut_off(setting):
    put(setting, SEVENTH + ".journal", SOUND + b"1 9 clos")
    with Folder(setting) as folder, folder.client() as client:
        equal("its action", client.status("/00000000-0000-8007-8000-000000000001"), "Active")
        folder.kill()
    check_sound(folder)
    check("the whole lines stay", journal.read(folder.path(SEVENTH + ".journal")).startswith(SOUND))


def test_a_stray_file_is_told_and_left_alone(setting):
    put(setting, "notes.txt", b"of nobody\n")
    put(setting, "old.journal", SOUND)
    with Folder(setting) as folder:
        folder.first()
        for name in ("notes.txt", "old.journal"):
            equal(f"how often {name} is told", folder.told().count(name), 1)
        equal("it", journal.read(folder.path("notes.txt")), b"of nobody\n")
        equal("the other", journal.read(folder.path("old.journal")), SOUND)


def test_names_that_are_no_text_or_have_control_characters_are_told(setting):
    folder = Folder(setting)
    for name in (b"\xff\xfe.journal", b"a\x1b[2Jb\n"):
        journal.write(os.path.join(folder.folder.encode(), name), b"")
    wanted = [f"lra: {folder.folder}/{name} is no journal" for name in ("?", "a?[2Jb?")]
    with folder:
        folder.first()
        equal("what is told", sorted(folder.told().splitlines()), wanted)
    told = setting.run("audit", folder.folder)
    equal("an audit", (told.status, sorted(told.told.splitlines())), (0, wanted))


def make_socket(path):
    """Makes a socket of a name."""
    with socket.socket(socket.AF_UNIX) as it:
        it.bind(path)


def test_what_is_no_file_or_no_folder_is_named(setting):
    """A pipe, a socket and a folder under names that a service keeps, and a file under that of `ended`."""
    seventh = SEVENTH + ".journal"
    kept = (seventh, SEVENTH + ".next", "newest", "newest.next", "base", "restored")
    made = [(name, os.mkfifo, "cannot read") for name in kept]
    made += [(seventh, os.mkdir, "cannot read"), ("newest", os.mkdir, "cannot read")]
    made += [("base", make_socket, "cannot read"), ("ended", os.mknod, "cannot write")]
    for name, make, line in made:
        folder = Folder(setting)
        make(folder.path(name))
        equal(name, refused(folder), Run(2, "", f"lra: {line} {folder.path(name)}\n"))
        shutil.rmtree(folder.folder)


def test_where_few_files_may_be_open_clients_have_some(setting):
    """The newest journal goes on where there is no room for a next one, which is told."""
    if not shutil.which("prlimit"):
        raise LeftOut("prlimit")
    with Folder(setting, "--roll-after", "1", "--remember", "3600", front=("prlimit", "--nofile=128")) as folder:
        line = f"lra: too many files are open for a next journal of {folder.folder}"
        wait_until("no next journal", lambda: folder.first() and line in folder.told())
        time.sleep(1.2)
        actions = folder.first(30)
        # What there is at once is lowered at the start, and that is told.
        lowered, *others = folder.told().splitlines()
        check(lowered, lowered.startswith("lra: at most ") and lowered.endswith("the limit of open files is 128"))
        equal("what is told", set(others), {line})
        with folder.client() as client:
            equal("the statuses", {client.status(it) for it in actions}, {"Active"})
        return f"{len(folder.journals())} journals"


def test_two_journals_of_one_instance_are_refused_and_both_are_named(setting):
    put(setting, SEVENTH + ".journal", SOUND)
    os.makedirs(f"{setting.folder}/journals/ended", exist_ok=True)
    put(setting, f"ended/{SEVENTH}.journal", SOUND)
    folder = Folder(setting)
    told = refused(folder)
    said = told.output + told.told
    check(f"it is served: {told}", told.status in (1, 2))
    check(f"both aren't named: {told}", said.count(SEVENTH + ".journal") >= 2 and f"ended/{SEVENTH}.journal" in said)
    equal("the files", (folder.journals(), folder.ended()), ([SEVENTH], [SEVENTH]))


def test_a_copy_under_another_name_is_refused_and_named(setting):
    put(setting, SEVENTH + ".journal", SOUND)
    put(setting, f"{8:015x}.journal", SOUND)
    folder = Folder(setting)
    told = refused(folder)
    check(f"it is served: {told}", told.status in (1, 2))
    check(f"it isn't named: {told}", f"{8:015x}.journal" in told.output + told.told)
    equal("the files", folder.journals(), [SEVENTH, f"{8:015x}"])


def test_an_unsound_journal_is_named_and_all_is_as_it_was(setting):
    put(setting, SEVENTH + ".journal", UNSOUND)
    put(setting, f"{9:015x}.journal", SOUND.replace(b"journal 2 7", b"journal 2 9"))
    folder = Folder(setting)
    told = refused(folder)
    equal("the status", told.status, 1)
    check(f"it isn't named: {told}", f"{SEVENTH}.journal" in told.output and "unsound line 7 unsettled" in told.output)
    check(f"the way isn't told: {told}", f"lra salvage {folder.path(SEVENTH)}.journal" in told.told)
    equal("the file", journal.read(folder.path(SEVENTH + ".journal")), UNSOUND)
    equal("the other's", journal.read(folder.path(f"{9:015x}.journal")), SOUND.replace(b"journal 2 7", b"journal 2 9"))


def test_a_second_service_on_the_folder_is_refused(setting):
    with Folder(setting) as folder, folder.client() as client:
        action = client.start()
        other = Folder(setting)
        told = refused(other)
        equal("the second one", told, (2, "", f"lra: cannot write {folder.folder}\n"))
        one = folder.path(f"{instance_of(action)}.journal")
        alone = setting.run("serve", f"{HOST}:{free_port()}", one, "1")
        equal("one on its journal", alone, (2, "", f"lra: cannot write {one}\n"))
        equal("the first one", client.end(action, "close"), "Closed")


@contextlib.contextmanager
def unwritable(path):
    """The folder of a path can't be written by one that obeys modes."""
    os.chmod(path, 0o500)
    try:
        yield
    finally:
        os.chmod(path, 0o700)


def obeying():
    """What a program is run by so that modes count for it too, where root runs these."""
    return ("setpriv", "--bounding-set", "-dac_override") if os.geteuid() == 0 else ()


def test_a_folder_that_cannot_be_written_is_told(setting):
    folder = Folder(setting, front=obeying())
    with unwritable(folder.folder):
        done = subprocess.run(
            folder.words, stdin=subprocess.DEVNULL, capture_output=True, timeout=PATIENCE, check=False
        )
    equal("the status, and the output", (done.returncode, done.stdout), (2, b""))
    check(f"it tells {done.stderr}", done.stderr.startswith(f"lra: cannot write {folder.folder}".encode()))
    equal("what is there", os.listdir(folder.folder), [])


def test_a_folder_that_cannot_be_written_any_more_keeps_its_newest_journal_until_it_can(setting):
    with Folder(setting, *FAR, front=obeying()) as folder:
        # One that isn't begun yet fails by one step and then by another, which are two reasons.
        folder.wait_for_next()
        with unwritable(folder.folder):
            actions = folder.first(30)
            wait_until("that it is told", folder.told)
            time.sleep(2.5)
            told = folder.told()
            check("it has rolled", len(folder.journals()) == 1)
            actions += folder.first()
            equal("the journals of the actions", len(set(map(instance_of, actions))), 1)
            check(
                f"it is told {told.count(chr(10))} times: {told!r}", told.count("\n") == 1 and told.startswith("lra: ")
            )
        folder.wait_for(2)
        check("a start goes to the old one", instance_of(folder.first()[0]) != instance_of(actions[0]))


def test_each_reason_why_there_is_no_next_journal_is_told_once(setting):
    """There are too few files for it; then the folder can't be written; then there is one."""
    with Folder(setting, *FAR, front=obeying()) as folder:
        # Before that is begun so many files are opened for a moment that this shows whether there are enough.
        folder.wait_for_next()
        pid = folder.process.pid
        used = len(os.listdir(f"/proc/{pid}/fd"))
        before = resource.prlimit(pid, resource.RLIMIT_NOFILE)
        # So many more leave room for clients, and none for the next journal but one. No client calls while that is
        # tried, since all that may be open is open then for a moment.
        resource.prlimit(pid, resource.RLIMIT_NOFILE, (used + FEW_FILES, before[1]))
        folder.first(3)
        few = f"lra: too many files are open for a next journal of {folder.folder}\n"
        folder.wait_for_told(few)
        unwritten = f"lra: cannot write {folder.folder}\n"
        with unwritable(folder.folder):
            folder.wait_for_told(few + unwritten)
            time.sleep(2.5)
            equal("what is told", folder.told(), few + unwritten)
            resource.prlimit(pid, resource.RLIMIT_NOFILE, before)
        folder.wait_for_next()
        folder.first(3)
        folder.wait_for(3)
        equal("what is told in all", folder.told(), few + unwritten)
        folder.kill()
    equal("the audit's status", setting.run("audit", folder.folder).status, 0)


@contextlib.contextmanager
def small_disk(path):
    """A disk of a megabyte at a path. Not everybody may have one."""
    os.makedirs(path)
    mounted = subprocess.run(
        ["mount", "-t", "tmpfs", "-o", "size=1m", "tmpfs", path], capture_output=True, check=False
    )
    if mounted.returncode != 0:
        raise LeftOut("there is no disk to be filled")
    try:
        yield
    finally:
        subprocess.run(["umount", "--lazy", path], check=False)


def fill(path):
    """Leaves no room on the disk of a path."""
    with open(path, "wb", buffering=0) as it, contextlib.suppress(OSError):
        while it.write(bytes(4096)):
            pass


def join_until_it_stops(client, action):
    """Lets members join an action until its journal can't be written."""
    path, address = "/lra-coordinator/" + id_of(action), "http://127.0.0.1:1/"
    while (reply := client.call("PUT", path, compensate=address)).code == 200:
        address += "a"
    equal("the last join", (reply.code, reply.body), (503, {"error": "Stopped"}))


def test_a_full_disk_stops_two_journals_and_no_reads(setting):
    """The log has each of them."""
    with small_disk(f"{setting.folder}/journals"):
        with Folder(setting, *FAR, "--log", "error") as folder, folder.client() as client:
            actions = folder.first(3)
            folder.wait_for(2)
            actions += folder.first(2)
            fill(folder.path("filler"))
            while (reply := client.call("POST", "/lra-coordinator")).code == 201:
                actions.append(reply.body["lra"])
            equal("the last start", (reply.code, reply.body), (503, {"error": "Stopped"}))
            join_until_it_stops(client, actions[0])
            for action in (actions[0], actions[-1]):
                equal("a read", client.status(action), "Active")
                equal("a close", client.call("PUT", f"/lra-coordinator/{id_of(action)}/close").code, 503)
                line = f"error write failed journal={instance_of(action)}"
                wait_until(f"that the log has {line}", lambda line=line: line in folder.told())
            folder.kill()
        os.remove(folder.path("filler"))
        with Folder(setting, *FAR) as folder, folder.client() as client:
            for action in actions:
                equal("its end", client.end(action, "close"), "Closed")
            folder.kill()
        check_sound(folder)


def nearly_full(setting, port, entries, after="*"):
    """A journal of so many entries, with an action that has a member at a port, which may want to be told its end."""
    begun = (
        b"lra-journal 2 7\n1 0 enrol\n1 5 start 1 * 0\n1 6 join 1 1 http://%s:%d/compensate * * * %s\n"
        % (HOST.encode(), port, after.encode())
    )
    put(setting, SEVENTH + ".journal", begun + b"1 7 restart\n" * (entries - 3))


def is_refused(folder, line):
    """A start over a folder ends with status 2 and that line, after any that it tells of other files."""
    run = refused(folder)
    equal("the end", (run.status, run.output, run.told.splitlines()[-1]), (2, "", line))


def test_a_journal_with_no_room_for_a_start_ends_that_and_is_named(setting):
    """The first clerk and its restart have room, or not; each other thread's clerk takes an entry."""
    for room in (1, 4):
        nearly_full(setting, 1, ENTRIES - room)
        folder = Folder(setting, workers=3)
        is_refused(folder, f"lra: {folder.path(SEVENTH)}.journal is full")


def restarts_up_to(room):
    """A journal that leaves fewer than so many bytes and no fewer than 12 less of a page of the disk."""
    data = b"lra-journal 2 7\n1 0 enrol\n"
    while not room - 12 <= -len(data) % 4096 < room:
        data += b"1 7 restart\n"
    return data


def test_a_full_disk_ends_a_start_and_the_journal_is_named(setting):
    """The first clerk and its restart have room on its last page, or not; the clerks of other threads have none."""
    with small_disk(f"{setting.folder}/journals"):
        folder = Folder(setting)
        with folder:
            folder.kill()
        for name in os.listdir(folder.folder):
            if name.endswith((".journal", ".next")):
                os.remove(folder.path(name))
        for room in (20, 65):
            put(setting, SEVENTH + ".journal", restarts_up_to(room))
            fill(folder.path("filler"))
            is_refused(folder, f"lra: cannot write {folder.path(SEVENTH)}.journal")
            os.remove(folder.path("filler"))
            os.remove(folder.path(SEVENTH + ".journal"))


def line_of(folder, said):
    """What is told of the journal that is nearly full."""
    return f"lra: {folder.path(SEVENTH)}.journal has {said}\n"


def test_from_three_quarters_on_a_silent_member_is_asked_once(setting):
    """It is in the journal that is nearly full, where the same member of another is asked again and again."""
    with Participant(lambda _: (500, b"")) as member:
        nearly_full(setting, member.port, ENTRIES * 3 // 4)
        with Folder(setting, "--retry-last", "200", "--remember", "3600") as folder, folder.client() as client:
            wait_until(
                "it is told",
                lambda: folder.told() == line_of(
                    folder, "3/4 of its entries: silent members are asked once in ten minutes"
                ),
            )
            client.end(NEAR, "cancel")
            other = client.start()
            client.join(other, **member.addresses("complete", "compensate"))
            client.end(other, "close")
            time.sleep(3)
            equal("how often it was asked", len(member.at("compensate")), 1)
            asked = len(member.at("complete"))
            check(f"the other was asked {asked} times", asked > 5)
            folder.kill()
            return f"{asked} asks of the other; {check_sound(folder)} journals"


def test_from_fifteen_sixteenths_on_nothing_is_begun_and_what_was_begun_ends(setting):
    full = (503, {"error": "Full", "which": "Entries"})
    with Participant() as member:
        nearly_full(setting, member.port, ENTRIES * 15 // 16)
        with Folder(setting, "--remember", "3600") as folder, folder.client() as client:
            wait_until(
                "it is told",
                lambda: folder.told() == line_of(
                    folder, "15/16 of its entries: silent members aren't asked again, and nothing new is begun in it"
                ),
            )
            folder.wait_for(2)
            path = folder.path(SEVENTH + ".journal")
            before = len(journal.read(path))
            reply = client.call("PUT", NEAR, compensate=member.uri("late"))
            equal("a join", (reply.code, reply.body), full)
            reply = client.call("POST", "/lra-coordinator", parent=f"http://{folder.address}{NEAR}")
            equal("a nested start", (reply.code, reply.body), full)
            equal("what was added", journal.read(path)[before:], b"")
            equal("its status", client.status(NEAR), "Active")
            check("an outermost start isn't the newest's", instance_of(client.start()) != SEVENTH)
            client.end(NEAR, "cancel")
            wait_until("its end", lambda: client.status(NEAR) == "Cancelled")
            equal("how often its member was asked", len(member.at("compensate")), 1)
            folder.kill()
            return f"{check_sound(folder)} journals"


def test_a_folder_moves(setting):
    """It is served under another name, and another time at another address."""
    with Folder(setting, *FAR) as folder:
        actions = folder.first(4)
        folder.wait_for(2)
        folder.kill()
    shutil.copytree(folder.folder, folder.folder + ".moved")
    shutil.rmtree(folder.folder)
    os.rename(folder.folder + ".moved", folder.folder)
    with Folder(setting, *FAR) as folder, folder.client() as client:
        equal("the statuses", {client.status(it) for it in actions}, {"Active"})


def test_a_backup_of_a_folder_in_use_is_sound(setting):
    """Whole lines of each journal, copied one after another while clients call."""
    with Folder(setting, "--roll-after", "50", "--remember", "1") as folder:
        actions = folder.first(20)
        backup = f"{setting.folder}/backup"
        os.makedirs(backup)
        with folder.client() as client:
            for path in glob.glob(folder.path("*.journal")):
                for _ in range(40):
                    client.end(client.start(), "close")
                journal.write(f"{backup}/{os.path.basename(path)}", journal.whole(journal.read(path)))
        told = setting.run("audit", backup)
        equal("the status", told.status, 0)
        check("the actions", all(instance_of(it) + ".journal" in os.listdir(backup) for it in actions))


def test_an_unused_folder_takes_little_of_a_processor(setting):
    with Folder(setting, *SOON) as folder:
        for count in (2, 3, 4):
            folder.first(3)
            folder.wait_for(count)
        taken = least_share(folder, 3)
        check(f"it takes {taken:.2f} of a processor", taken < 0.1)
        return f"{taken:.3f} of a processor with four journals"
