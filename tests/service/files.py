"""The journal's file: what is there when the service begins, and when it can't be written any more."""
import os
import resource
import signal
import sys
import time
from subprocess import Popen

import grown
import journal
from participant import wait_until
from service import HOST, Client, Service, check, equal, free_port, id_of, run, started
from watching import watched

SOUND = b"lra-journal 2 7\n1 0 enrol\n1 5 start 1 * 0\n1 6 start 2 1 0\n1 7 close 2 client\n1 7 end 2 Closed\n"
# Its first action, and the one that is started next.
FIRST = "/lra-coordinator/00000000-0000-8007-8000-000000000001"
STARTED = "/lra-coordinator/00000000-0000-8007-8000-000000000003"
UNSOUND = SOUND + b"1 9 end 1 Closed\n"
VERDICT = "unsound line 7 unsettled\n"
# How many bytes a file may have, and how many clerks a journal.
LONGEST, CLERKS = 2**30, 10**6


def hint(setting):
    """The line that names the way to what is sound of a journal that isn't."""
    return f"lra: what is sound of it: lra salvage {setting.journal}\n"


def stopped(client, method, path, **keys):
    reply = client.call(method, path, **keys)
    equal(
        f"{method} {path}", (reply.code, reply.phrase, reply.body), (503, "Service Unavailable", {"error": "Stopped"})
    )


def fill(service, setting, spare):
    """Lets the file grow by so many bytes, and no more."""
    most = os.path.getsize(setting.journal) + spare
    resource.prlimit(service.process.pid, resource.RLIMIT_FSIZE, (most, resource.RLIM_INFINITY))


def full_disk(setting, spare):
    """A disk that is full in the middle of a command's lines, after so many bytes."""
    with setting.serve() as service, service.client() as client:
        action = client.start()
        path = "/lra-coordinator/" + id_of(action)
        before = journal.read(setting.journal)
        fill(service, setting, spare)
        stopped(client, "PUT", path, compensate="http://127.0.0.1:1/" + "u" * 100)
        equal("what is left of the journal", journal.read(setting.journal), before)
        equal("a read", client.status(action), "Active")
        resource.prlimit(service.process.pid, resource.RLIMIT_FSIZE, (resource.RLIM_INFINITY, resource.RLIM_INFINITY))
        stopped(client, "POST", "/lra-coordinator")
        stopped(client, "PUT", path + "/close")
        equal("a later read", client.status(action), "Active")
    front = journal.whole(journal.read(setting.journal))
    journal.check_sound(setting.program, front, setting.folder)
    with setting.serve() as service, service.client() as client:
        equal("the action", client.status(action.replace(action.split("/")[2], service.address)), "Active")
        check("the front stays", journal.read(setting.journal).startswith(front))
        equal("a close", client.end(action, "close"), "Closed")


def test_a_full_disk_stops_commands_and_no_reads(setting):
    full_disk(setting, 40)


def test_a_disk_that_is_full_at_a_line_end_stops_commands(setting):
    full_disk(setting, 0)


def test_a_disk_that_is_full_from_the_start_is_told(setting):
    words = [
        "-c", "trap '' XFSZ; ulimit -f 0; exec \"$@\"", "sh",
        setting.program, "serve", f"{HOST}:{free_port()}", setting.journal, "2",
    ]
    equal("the program", run("sh", *words), (2, "", f"lra: cannot write {setting.journal}\n"))


def test_a_new_file_begins_with_the_time_as_its_instance(setting):
    before = time.time_ns() // 10**6
    with setting.serve(3):
        data = journal.read(setting.journal)
        equal("its mode", oct(os.stat(setting.journal).st_mode & 0o777), oct(0o600))
    words = data.split(b"\n")[0].split(b" ")
    equal("the header", words[:2], [b"lra-journal", b"2"])
    check(f"the instance is {words[2]}", before <= int(words[2]) <= time.time_ns() // 10**6)
    journal.check_sound(setting.program, data, setting.folder)


def test_an_empty_file_is_a_new_one(setting):
    journal.write(setting.journal, b"")
    with setting.serve() as service, service.client() as client:
        client.start()
    check("a header", journal.read(setting.journal).startswith(b"lra-journal 2 "))


def goes_on(setting, front, tail):
    """A service goes on from the whole lines of a file, and cuts what stands behind them."""
    journal.write(setting.journal, front + tail)
    with setting.serve() as service, service.client() as client:
        reply = client.call("GET", FIRST)
        equal("the action", reply.body, {"lra": f"http://{service.address}{FIRST}", "status": "Active"})
        equal("a close", client.call("PUT", FIRST + "/close").body, {"status": "Closed"})
    data = journal.read(setting.journal)
    check("the whole lines stay", data.startswith(front))
    equal("what follows", data[len(front) :].split(b"\n")[0].split(b" ")[2], b"enrol")
    return journal.check_sound(setting.program, data, setting.folder)


def test_a_journal_is_gone_on_from(setting):
    goes_on(setting, SOUND, b"")


def test_a_torn_last_line_is_cut_off(setting):
    goes_on(setting, SOUND, b"1 9 close 1 cl")


def test_a_journal_of_version_1_goes_on_in_its_version(setting):
    goes_on(setting, SOUND.replace(b"journal 2", b"journal 1"), b"1")


def refused_unchanged(setting, data, verdict):
    journal.write(setting.journal, data)
    told = setting.run("serve", "127.0.0.1:2", setting.journal, "2")
    equal("the program", told, (1, verdict, hint(setting)))
    equal("the file", journal.read(setting.journal), data)


def test_an_unsound_file_is_told_and_unchanged(setting):
    refused_unchanged(setting, UNSOUND, VERDICT)


def test_an_unsound_file_with_a_torn_line_is_told_and_unchanged(setting):
    refused_unchanged(setting, UNSOUND + b"1 9 clo", VERDICT)


def test_a_file_without_a_whole_line_is_unsound(setting):
    refused_unchanged(setting, b"lra-journal 2 7", "unsound line 1 header\n")


def told_and_as_it_was(setting, line, *limits):
    """A service that begins on the file, under such limits of the shell,
    tells a fault and doesn't write to the file."""

    def about():
        it = os.stat(setting.journal)
        return it.st_size, it.st_blocks, it.st_mtime_ns

    before = about()
    address = f"{HOST}:{free_port()}"
    words = [
        "-c", "".join(f"ulimit {it}; " for it in limits) + 'exec "$@"', "sh",
        setting.program, "serve", address, setting.journal, "2",
    ]
    equal("the program", run("sh", *words), (2, "", line.replace("ADDRESS", address) + "\n"))
    equal("the file", about(), before)


def lengthen(setting, length):
    """A sound journal with a hole behind it, which takes no room on a disk."""
    journal.write(setting.journal, SOUND)
    os.truncate(setting.journal, length)


def test_a_file_that_is_too_long_is_told_and_as_it_was(setting):
    lengthen(setting, LONGEST + 1)
    told_and_as_it_was(setting, "lra: input too long")


def test_a_file_of_the_longest_length_is_gone_on_from(setting):
    lengthen(setting, LONGEST)
    with setting.serve() as service, service.client() as client:
        equal("the action", client.status(FIRST), "Active")
        most = service.memory("VmHWM") * 1024
    check("the whole lines stay", journal.read(setting.journal).startswith(SOUND))
    return f"{most / 2**30:.2f} GiB of memory"


class Grown(Service):
    """A service whose file gets so many bytes, by a hole, between when it is read and when it is written to."""

    def __init__(self, setting, length):
        super().__init__(setting.program, setting.journal)
        self.words = [sys.executable, grown.__file__, str(length), setting.journal, *self.words]

    def __exit__(self, *_):
        self.kill(signal.SIGTERM)

    def first_line(self):
        return watched(super().first_line())


def added(setting):
    """How many bytes a service adds to the journal when it begins, and how many for a start."""
    journal.write(setting.journal, SOUND)
    with setting.serve() as service, service.client() as client:
        begun = os.path.getsize(setting.journal)
        client.start()
    return begun - len(SOUND), os.path.getsize(setting.journal) - begun


def close_hole(setting, length):
    """Takes the hole out of a journal that got so many bytes. What is left is sound."""
    with open(setting.journal, "rb") as it:
        it.seek(length)
        data = SOUND + it.read()
    equal("its whole lines", data, journal.whole(data))
    journal.check_sound(setting.program, data, setting.folder)
    journal.write(setting.journal, data)


def start_at_the_bound(setting, lacking):
    """A start where so many bytes lack for it in the journal, and what follows. Then a service goes on from the
    journal, and the answer is whether it has the started action."""
    first, block = added(setting)
    journal.write(setting.journal, SOUND)
    length = LONGEST - first - block + lacking
    with Grown(setting, length) as service, service.client() as client:
        if lacking:
            stopped(client, "POST", "/lra-coordinator")
        else:
            client.start()
        most = length + first if lacking else LONGEST
        equal("how long the journal is", os.path.getsize(setting.journal), most)
        stopped(client, "PUT", FIRST + "/renew", limit=9)
        stopped(client, "POST", "/lra-coordinator")
        equal("a read", client.status(FIRST), "Active")
        equal("how long it stays", os.path.getsize(setting.journal), most)
    close_hole(setting, length)
    with setting.serve() as service, service.client() as client:
        equal("the action", client.status(FIRST), "Active")
        return client.call("GET", STARTED).code == 200


def test_a_journal_grows_to_the_longest_length_and_no_further(setting):
    check("the started action is there", start_at_the_bound(setting, 0))


def test_a_block_that_would_pass_the_longest_length_by_a_byte_is_not_taken(setting):
    check("the refused action isn't there", not start_at_the_bound(setting, 1))


def test_a_service_whose_first_lines_would_pass_the_longest_length_does_not_begin(setting):
    first, _ = added(setting)
    journal.write(setting.journal, SOUND)
    length = LONGEST - first + 1
    told = run(*Grown(setting, length).words)
    watched(told.output)
    equal("the program", told, (2, "", f"lra: cannot write {setting.journal}\n"))
    check("it is no longer than it may be", os.path.getsize(setting.journal) <= LONGEST)
    close_hole(setting, length)


def test_a_file_that_memory_does_not_hold_is_told_and_as_it_was(setting):
    lengthen(setting, LONGEST)
    told_and_as_it_was(setting, "lra: out of memory", f"-v {2**19}")


def test_a_journal_without_room_is_told_and_as_it_was(setting):
    journal.write(
        setting.journal, b"lra-journal 2 7\n" + b"".join(b"%d 0 enrol\n" % clerk for clerk in range(1, CLERKS + 1))
    )
    told_and_as_it_was(setting, "lra: cannot serve ADDRESS")


def test_a_second_service_on_the_same_file_is_refused(setting):
    with setting.serve() as service, service.client() as client:
        action = client.start()
        before = journal.read(setting.journal)
        told = setting.run("serve", "127.0.0.1:2", setting.journal, "2")
        equal("the second one", told, (2, "", f"lra: cannot write {setting.journal}\n"))
        equal("the file", journal.read(setting.journal), before)
        equal("the first one", client.end(action, "close"), "Closed")


def test_a_service_that_is_terminated_ends_and_the_next_goes_on(setting):
    with setting.serve() as service, service.client() as client:
        action = client.start()
        equal("its status", service.kill(signal.SIGTERM), -signal.SIGTERM)
    with setting.serve() as service, service.client() as client:
        equal("the action", client.status(action), "Active")


def test_a_program_without_standard_streams_keeps_the_file_sound(setting):
    """Where they are closed the system gives their numbers to other files; no line for them may go into the journal."""
    port = free_port()
    words = [
        "sh", "-c", 'exec "$@" <&- >&- 2>&-', "sh", setting.program, "serve", f"{HOST}:{port}", setting.journal, "2"
    ]
    process = Popen(words)
    started.append(process)
    try:
        wait_until("its end or its answer", lambda: process.poll() is not None or answers(port))
    finally:
        process.kill()
        process.wait()
    if os.path.exists(setting.journal) and os.path.getsize(setting.journal):
        journal.check_sound(setting.program, journal.read(setting.journal), setting.folder)


def answers(port):
    """Whether a service is there."""
    try:
        with Client(port) as client:
            return client.call("GET", "/lra").code == 404
    except OSError:
        return False
