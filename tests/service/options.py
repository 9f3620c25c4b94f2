"""Options on the line and in a file: what is served by them, what is refused, what would be served, and a gentle end
with standard input."""
import os
import resource
import subprocess
import sys
import threading
import time
import tomllib

import held
import journal
from asks import recorded
from crowds import UNKNOWN, one_reply
from files import SOUND, UNSOUND, VERDICT, hint
from participant import Participant, wait_until
from patience import REQUESTS, narrow
from service import HOST, LATE, PATIENCE, Service
from service import calm, check, equal, free_port, id_of, is_ready, number_of, received
from watching import watched

# Each setting's word, what it is where nothing is said, the least and the most that it may be. One that is less than
# it may be isn't set.
NUMBERS = (
    ("connections", 10000, 1, 1000000),
    ("callbacks", 1024, 1, 65536),
    ("host-share", 64, 1, 65536),
    ("idle-timeout", 30, 1, 86400),
    ("request-timeout", 10, 1, 86400),
    ("reply-timeout", 10, 1, 86400),
    ("connect-timeout", 5, 1, 86400),
    ("callback-timeout", 30, 1, 86400),
    ("sync-seconds", 5, 1, 86400),
    ("retry-first", 100, 1, 86400000),
    ("retry-last", 60000, 1, 86400000),
    ("roll-after", 50000, 1, 50000),
    ("remember", 3600, 1, 31536000),
    ("site", 0, 0, 65535),
    ("default-limit", 0, 1, 2**53),
    ("retry-after", 0, 1, 3600),
)
# Options whose values are texts, and those of them that may be said any number of times.
WORDS = (
    *("base", "also-base", "token", "operators", "operators-key", "key", "origin", "members", "members-via"),
    "member-token",
    *("dialect", "log", "log-format", "fence"),
)
LISTS = ("also-base", "origin", "members")
NAMES = [name for name, *_ in NUMBERS] + ["stop-at-eof"]
USUAL = {name: str(usual) for name, usual, least, _ in NUMBERS if least <= usual} | {"stop-at-eof": "false"}
# How many seconds what is in flight has at a gentle end.
PARTING = 10


def config(setting, text, name="settings.toml"):
    """The path of a file with this text."""
    path = f"{setting.folder}/{name}"
    journal.write(path, text if isinstance(text, bytes) else text.encode())
    return path


def serve_by(setting, *options, address=None, workers=2):
    """Runs the program to its end, with options."""
    return setting.run("serve", *options, address or f"{HOST}:{free_port()}", setting.journal, str(workers))


def told_of(setting, *options):
    """What a check tells of each word."""
    told = serve_by(setting, "--check", *options)
    equal("the status, and what is told", (told.status, told.told), (0, ""))
    return dict(line.split(" = ") for line in told.output.splitlines())


def settings_of(setting, *options):
    told = told_of(setting, *options)
    return {name: told[name] for name in NAMES if name in told}


def near(usual, most, step=1):
    """Another value that a setting may have."""
    return usual + step if usual + step <= most else usual - step


def test_a_check_reads_back_as_toml(setting):
    name = f'{setting.folder}/a "b" \\ \x01\t\x1f\x7f\x85 ä.journal'
    os.makedirs(f"{name}s")
    for word, path in (("file", name), ("folder", f"{name}s/")):
        told = setting.run("serve", "--check", f"{HOST}:1", path, "1")
        equal(f"what is told of a {word}", (told.status, told.told), (0, ""))
        equal(f"the {word} that is read", tomllib.loads(told.output)[word], path)


def test_without_options_the_settings_are_the_usual_ones(setting):
    equal("the settings", settings_of(setting), USUAL)


def test_each_option_is_taken_from_the_line(setting):
    for name, usual, least, most in NUMBERS:
        for value in (
            near(usual, most), least if name != "retry-last" else 100, most if name != "retry-first" else 60000
        ):
            equal(name, settings_of(setting, f"--{name}", str(value)), USUAL | {name: str(value)})
    equal("by =", settings_of(setting, "--callbacks=7"), USUAL | {"callbacks": "7"})
    equal("the end", settings_of(setting, "--stop-at-eof"), USUAL | {"stop-at-eof": "true"})


def test_each_option_is_taken_from_a_file_and_the_line_wins(setting):
    for name, usual, _, most in NUMBERS:
        in_file, on_line = near(usual, most, 2), near(usual, most)
        path = config(setting, f"{name} = {in_file}\n")
        equal(name, settings_of(setting, "--config", path), USUAL | {name: str(in_file)})
        equal(
            f"{name} by the line",
            settings_of(setting, "--config", path, f"--{name}", str(on_line)),
            USUAL | {name: str(on_line)},
        )
    path = config(setting, "# all of it\nstop-at-eof = true\nretry-first = 5\n'retry-last' = 5\n")
    wanted = USUAL | {"stop-at-eof": "true", "retry-first": "5", "retry-last": "5"}
    equal("a file", settings_of(setting, "--config", path), wanted)
    equal("an empty one", settings_of(setting, "--config", config(setting, "")), USUAL)


def refused(setting, line, *options, workers=2):
    """Fails the test where this isn't the line, or the service isn't refused, or a file is made."""
    told = serve_by(setting, *options, workers=workers)
    equal(f"what is told of {options}", (told.status, told.output, told.told), (2, "", f"lra: {line}\n"))
    check("a file was made", not os.path.exists(setting.journal))


def test_a_number_out_of_its_range_is_refused(setting):
    for name, _, least, most in NUMBERS:
        for value in (least - 1, most + 1, 2**64, "abc", "", "+5", "1.5"):
            refused(setting, f"--{name}: {value} is not from {least} to {most}", f"--{name}={value}")
        path = config(setting, f"{name} = {most + 1}\n")
        refused(setting, f"{path}: {name}: {most + 1} is not from {least} to {most}", "--config", path)
        if least > 0:
            path = config(setting, f"{name} = 0\n")
            refused(setting, f"{path}: {name}: 0 is not from {least} to {most}", "--config", path)
        path = config(setting, f"{name} = -3\n")
        refused(setting, f"{path}: {name}: -3 is not from {least} to {most}", "--config", path)
    for value in ("0", "17", "x"):
        refused(setting, f"WORKERS: {value} is not from 1 to 16", "--callbacks", "7", workers=value)
    refused(setting, "retry-first: 101 is more than retry-last, 100", "--retry-first", "101", "--retry-last", "100")


def refused_beginning(setting, front, *options):
    """The same, where the toolchain's own words follow."""
    told = serve_by(setting, *options)
    equal(f"the status of {options}, and the output", (told.status, told.output, told.told.count("\n")), (2, "", 1))
    check(f"{told.told!r} doesn't begin {front!r}", told.told.startswith(front))
    check("a file was made", not os.path.exists(setting.journal))


def test_words_that_are_no_options_are_refused(setting):
    refused_beginning(setting, "lra: unexpected argument '--colour' found", "--colour", "red")
    refused_beginning(
        setting,
        "lra: the argument '--callbacks <N>' cannot be used multiple times",
        "--callbacks", "5", "--callbacks", "6",
    )
    refused_beginning(setting, "lra: the argument '--check' cannot be used multiple times", "--check", "--check")
    refused_beginning(setting, "lra: unexpected argument '2' found", "--check", "more")
    told = setting.run("serve", "--check", f"{HOST}:1", setting.journal)
    check(f"{told}", told.status == 2 and told.told.startswith("lra: ") and "WORKERS" in told.told)
    told = setting.run("serve", f"{HOST}:1", setting.journal, "2", "--callbacks")
    check(f"{told}", told.status == 2 and told.told.startswith("lra: ") and "--callbacks" in told.told)


def test_an_option_is_no_file_where_a_word_is_missing(setting):
    """The word in its place, or the one behind it, could stand for what is missing: neither does."""
    address = f"{HOST}:{free_port()}"
    for words in (
        (address, "--check", "4"),
        (address, "--drain", "4"),
        (address, "--restored", "4"),
        (address, "--stop-at-eof", "4"),
        ("--check", setting.journal, "4"),
        ("--drain", address, "4"),
    ):
        try:
            # A file of an option's name would be made here.
            done = subprocess.run(
                [os.path.abspath(setting.program), "serve", *words],
                cwd=setting.folder,
                stdin=subprocess.DEVNULL,
                capture_output=True,
                text=True,
                timeout=PATIENCE,
                check=False,
            )
        except subprocess.TimeoutExpired as it:
            raise AssertionError(f"{words} are served") from it
        equal(f"the status of {words}, and the output", (done.returncode, done.stdout), (2, ""))
        told = done.stderr
        check(f"{told!r}", told.startswith("lra: ") and "WORKERS" in told and told.count("\n") == 1)
        equal("what is made", os.listdir(setting.folder), [])
    with setting.serve(4) as service, service.client() as client:
        client.start()


def test_a_file_that_is_no_table_of_settings_is_refused(setting):
    missing = setting.folder + "/missing"
    refused(setting, f"cannot read {missing}", "--config", missing)
    refused(setting, f"cannot read {setting.folder}", "--config", setting.folder)
    for key in ("colour", "config", "check", "drain", "restored", "Callbacks"):
        path = config(setting, f"{key} = 1\n")
        refused(setting, f"{path}: {key}: no such setting", "--config", path)
    for value in ('"7"', "7.0", "true", "[7]", "{a = 7}", "1979-05-27"):
        path = config(setting, f"callbacks = {value}\n")
        refused(setting, f"{path}: callbacks: no number", "--config", path)
    path = config(setting, "stop-at-eof = 1\n")
    refused(setting, f"{path}: stop-at-eof: neither true nor false", "--config", path)
    for key in WORDS:
        path = config(setting, f"{key} = 9090\n")
        refused(setting, f"{path}: {key}: no {'list' if key in LISTS else 'text'}", "--config", path)
    for text in ("callbacks = \n", "callbacks = 1\ncallbacks = 2\n", b"callbacks = 1 # \xff\n", "callbacks\n"):
        path = config(setting, text)
        refused_beginning(setting, f"lra: {path}: ", "--config", path)
    path = config(setting, "#" * 65536 + "\n")
    refused(setting, f"{path}: too long", "--config", path)


def test_the_operators_address_and_key_are_told_and_the_line_wins(setting):
    """A check tells them behind the settings, where they are said."""
    for name in ("operators", "operators-key"):
        check(f"{name} is there", name not in told_of(setting))
        path = config(setting, f'{name} = "127.0.0.1:9090"\n')
        equal(f"{name} of a file", told_of(setting, "--config", path)[name], '"127.0.0.1:9090"')
        equal(
            f"{name} of the line", told_of(setting, "--config", path, f"--{name}", "[::1]:9091")[name], '"[::1]:9091"'
        )


def test_words_of_the_log_and_of_terms_are_told_and_faults_named(setting):
    told = told_of(
        setting, "--log", "info", "--log-format", "json",
        "--origin", "a.test", "--origin", "b.test:80", "--members", "*",
    )
    equal("the log", (told["log"], told["log-format"]), ('"info"', '"json"'))
    equal("the lists", (told["origin"], told["members"]), ('["a.test", "b.test:80"]', '["*"]'))
    path = config(setting, 'members = ["*", "10.0.0.0/8"]\n')
    equal("those of a file", told_of(setting, "--config", path)["members"], '["*", "10.0.0.0/8"]')
    equal(
        "those of the line in their place",
        told_of(setting, "--config", path, "--members", "h.test")["members"],
        '["h.test"]',
    )
    refused(setting, "--log: loud is not error, warn, info or debug", "--log", "loud")
    refused(setting, "--log-format: xml is not text or json", "--log-format", "xml")
    refused(setting, "--origin: no name: a b", "--origin", "a b")
    refused(setting, "--members: no rule: 10.0.0.0/33", "--members", "10.0.0.0/33")
    for word in ("key", "token"):
        refused(setting, f"cannot read {setting.folder}/missing", f"--{word}", f"{setting.folder}/missing")


def test_a_fault_of_a_text_in_a_file_names_the_file_and_the_key(setting):
    for text, why in (
        ('log = "loud"', "log: loud is not error, warn, info or debug"),
        ('log-format = "xml"', "log-format: xml is not text or json"),
        ('origin = ["a.test", "a b"]', "origin: no name: a b"),
        ('members = ["*", "10.0.0.0/33"]', "members: no rule: 10.0.0.0/33"),
        ('members-via = "proxy:8443"', "members-via: no IP address and port: proxy:8443"),
        ('dialect = "other"', "dialect: other is not narayana"),
        ('fence = "owner"', f"fence: {setting.journal} is no folder"),
    ):
        path = config(setting, text + "\n")
        refused(setting, f"{path}: {why}", "--config", path)
    path = config(setting, 'log = "loud"\n')
    refused(setting, "--log: soft is not error, warn, info or debug", "--config", path, "--log", "soft")
    path = config(setting, 'log = "loud"\norigin = ["a b"]\n')
    refused(setting, f"{path}: origin: no name: a b", "--config", path)


def test_help_is_told(setting):
    told = setting.run("serve", "--help")
    equal("the status, and what is told", (told.status, told.told), (0, ""))
    for name in NAMES + ["config", "check", "drain", "restored", *WORDS]:
        check(f"--{name} is missing", f"--{name}" in told.output)
    check("the words are missing", "lra serve [OPTIONS] <ADDRESS> <FILE> <WORKERS>" in told.output)


def test_a_check_tells_what_would_be_served_and_leaves_all_as_it_is(setting):
    port = free_port()
    told = serve_by(setting, "--check", address=f"{HOST}:{port}", workers=3)
    lines = [
        f'address = "{HOST}:{port}"',
        f'base = "http://{HOST}:{port}/"',
        f'file = "{setting.journal}"',
        "workers = 3",
        'journal = "new"',
    ]
    lines += [f"{name} = {value}" for name, value in USUAL.items()]
    equal("what is told", told, (0, "\n".join(lines) + "\n", ""))
    check("a file was made", not os.path.exists(setting.journal))
    journal.write(setting.journal, SOUND)
    equal("the entries", told_of(setting)["entries"], "5")
    journal.write(setting.journal, SOUND + b"1 9 sta")
    equal("the entries before a torn line", told_of(setting)["entries"], "5")
    equal("the file", journal.read(setting.journal), SOUND + b"1 9 sta")
    journal.write(setting.journal, b"")
    equal("an empty file", told_of(setting)["journal"], '"new"')
    equal("the file", journal.read(setting.journal), b"")


def test_a_check_tells_faults_as_a_start_does(setting):
    equal("an address", serve_by(setting, "--check", address="a b"), (2, "", "lra: cannot serve a b\n"))
    journal.write(setting.journal, UNSOUND)
    equal("an unsound journal", serve_by(setting, "--check"), (1, VERDICT, hint(setting)))
    os.remove(setting.journal)
    with setting.serve() as service:
        equal("a locked one", serve_by(setting, "--check"), (2, "", f"lra: cannot write {setting.journal}\n"))
        told = setting.run("serve", "--check", service.address, setting.folder + "/other", "1")
        equal("an address in use", told.status, 0)
    path = setting.folder + "/none/journal"
    equal("no folder", setting.run("serve", "--check", f"{HOST}:1", path, "1"), (2, "", f"lra: cannot write {path}\n"))
    path = setting.folder + "/circle"
    os.symlink(path, path)
    equal(
        "a link to itself",
        setting.run("serve", "--check", f"{HOST}:1", path, "1"),
        (2, "", f"lra: cannot read {path}\n"),
    )


def held_check(setting, told):
    """What a check says that is held at its first reading of the journal for longer than a second,
    with `told` as standard error."""
    words = [
        sys.executable, held.__file__, "1.2", "65536",
        setting.program, "serve", "--check", f"{HOST}:1", setting.journal, "1",
    ]
    done = subprocess.run(
        words, stdin=subprocess.DEVNULL, stdout=subprocess.PIPE, stderr=told, timeout=PATIENCE, check=False
    )
    output = watched(done.stdout.decode())
    equal("the status", done.returncode, 0)
    return output


def test_how_far_a_journal_is_read_is_told_once_a_second_where_a_terminal_shows_it(setting):
    journal.write(setting.journal, SOUND)
    screen, terminal = os.openpty()
    try:
        begun = time.monotonic()
        output = held_check(setting, terminal)
        seconds = int(time.monotonic() - begun)
        # (a busy machine may hold it up for another second)
        lines = os.read(screen, 4096).decode().splitlines(True)
        equal("on a terminal", set(lines), {f"lra: reading {setting.journal}: 0 of 0 MB\r\n"})
        check(f"{len(lines)} lines in {seconds} s", len(lines) <= seconds)
    finally:
        os.close(terminal)
        os.close(screen)
    with open(f"{setting.folder}/told", "w+b") as told:
        equal("what is printed", held_check(setting, told), output)
        told.seek(0)
        equal("elsewhere", told.read(), b"")


class Stopping(Service):
    """A service with options, which ends with its standard input."""

    def __init__(self, setting, *options, workers=2):
        super().__init__(setting.program, setting.journal, workers)
        self.words[2:2] = ["--stop-at-eof", *options]

    def __enter__(self):
        self.begin(stdin=subprocess.PIPE)
        equal("the first line", self.first_line(), f"serving {self.address}\n")
        return self

    def stop(self):
        """Ends its standard input."""
        self.stopped = time.monotonic()
        self.process.stdin.close()

    def ended(self, seconds=PATIENCE):
        """Its status, how long it took, and what else it said."""
        begun = time.monotonic()
        status = self.process.wait(seconds)
        return status, time.monotonic() - begun, self.process.stdout.read().decode()

    def kill(self, *signals):
        if not self.process.stdin.closed:
            self.process.stdin.close()
        self.process.kill()
        self.process.wait()
        self.process.stdout.close()


def ends(service, least=0.0, most=LATE):
    status, seconds, said = service.ended()
    equal("the status, and what is said", (status, said), (0, ""))
    check(f"it ended after {seconds:.1f} s", time.monotonic() - service.stopped >= least and seconds <= most)
    return f"{seconds:.2f} s"


def test_an_idle_service_ends_at_once_with_standard_input(setting):
    with Stopping(setting) as service, service.client() as client, service.connect() as silent:
        action = client.start()
        service.process.stdin.write(b"what nobody reads\n" * 1000)
        service.process.stdin.flush()
        time.sleep(0.5)
        equal("it goes on", client.status(action), "Active")
        service.stop()
        seconds = ends(service)
        equal("the silent client", received(silent), (b"", True))
    journal.check_sound(setting.program, journal.read(setting.journal), setting.folder)
    with setting.serve() as service, service.client() as client:
        equal("the action", client.status(action.replace(action.split("/")[2], service.address)), "Active")
    return seconds


def test_a_service_that_is_not_told_to_goes_on_without_standard_input(setting):
    with setting.serve() as service, service.client() as client:
        time.sleep(1)
        client.start()


def test_replies_in_flight_arrive_at_a_gentle_end(setting):
    """Clients call without rest while standard input ends: each gets whole replies,
    and what was answered is in the journal."""
    with Stopping(setting, workers=3) as service:
        answered, faults = [], []

        def call():
            try:
                with service.client() as client:
                    while True:
                        answered.append(number_of(client.start()))
            except (OSError, AssertionError, ValueError) as it:
                faults.append(it)
            except Exception as it:  # the connection's end, as http.client tells it
                faults.append(it)

        clients = [threading.Thread(target=call) for _ in range(8)]
        for client in clients:
            client.start()
        wait_until("an answer", lambda: len(answered) > 100)
        service.stop()
        seconds = ends(service)
        for client in clients:
            client.join(PATIENCE)
    starts = {int(it.fields[0]) for it in journal.entries(setting.journal) if it.deed == "start"}
    check("an answer that isn't in the journal", set(answered) <= starts)
    check(f"{len(starts) - len(answered)} starts weren't answered", len(starts) <= len(answered) + len(clients))
    kinds = {type(it).__name__ for it in faults}
    check(
        f"clients met {kinds}",
        kinds <= {"RemoteDisconnected", "ConnectionResetError", "BrokenPipeError", "ConnectionRefusedError"},
    )
    return f"{seconds}, {len(answered)} answered"


def test_a_callback_in_flight_is_recorded_at_a_gentle_end(setting):
    release = threading.Event()

    def answer(_request):
        release.wait(PATIENCE)
        return (200, b"")

    with Participant(answer) as member, Stopping(setting) as service, service.client() as client:
        action = client.start()
        recovery = client.join(action, **member.addresses("compensate"))
        client.end(action, "cancel")
        member.wait("compensate")
        service.stop()
        time.sleep(2)
        equal("it waits", service.process.poll(), None)
        release.set()
        seconds = ends(service)
        asks = journal.asks_of(journal.entries(setting.journal), number_of(recovery))
        equal("the outcome", [outcome for _, _, outcome, _ in asks], ["done"])
        equal("the requests", len(member.requests), 1)
    return seconds


def test_a_member_that_never_answers_is_given_up_at_a_gentle_end(setting):
    release = threading.Event()
    with (
        Participant(lambda _: (release.wait(PATIENCE), None)[1]) as member,
        Stopping(setting) as service,
        service.client() as client,
    ):
        action = client.start()
        recovery = client.join(action, **member.addresses("compensate"))
        client.end(action, "cancel")
        member.wait("compensate")
        service.stop()
        seconds = ends(service, PARTING - 1, PARTING + LATE)
        release.set()
        equal("the ask", journal.outstanding(journal.entries(setting.journal), number_of(recovery)), "compensate")
    return seconds


def test_no_limit_fires_after_the_end_of_standard_input(setting):
    release = threading.Event()

    def answer(_request):
        release.wait(PATIENCE)
        return (200, b"")

    with Participant(answer) as member, Stopping(setting) as service, service.client() as client:
        action = client.start()
        client.join(action, **member.addresses("compensate"))
        late = client.start(limit=5000)
        client.end(action, "cancel")
        member.wait("compensate")
        service.stop()
        time.sleep(7)
        release.set()
        ends(service)
    ended = [it.fields[0] for it in journal.entries(setting.journal) if it.deed == "cancel"]
    equal("what was cancelled", ended, [str(number_of(action))])
    check("the limit", str(number_of(late)) not in ended)


def test_a_client_that_takes_no_replies_holds_the_end_up_for_ten_seconds(setting):
    with Stopping(setting, "--reply-timeout", "60") as service, narrow(service) as stream:
        with service.client(keep=False) as client:
            request = f"GET /lra-coordinator/{id_of(client.start())} HTTP/1.1\r\nHost: h\r\n\r\n".encode()
        stream.sendall(request * REQUESTS)
        # It has sent what the client's buffer holds, and waits to send the rest.
        calm(service)
        service.stop()
        return ends(service, PARTING - 1, PARTING + LATE)


def test_times_that_are_set_are_kept(setting):
    with Stopping(setting, "--idle-timeout", "2", "--request-timeout", "3") as service:
        begun = time.monotonic()
        with service.connect() as idle, service.connect() as slow:
            slow.sendall(b"GET / HTTP/1.1\r\n")
            check("the idle one is there", is_ready(idle, 2 + LATE))
            idle_for = time.monotonic() - begun
            equal("the idle one", received(idle), (b"", True))
            check("the slow one is there", is_ready(slow, 3 + LATE))
            slow_for = time.monotonic() - begun
        check(f"idle {idle_for:.1f} s", 1.5 <= idle_for <= 2 + LATE)
        check(f"slow {slow_for:.1f} s", 2.5 <= slow_for <= 3 + LATE)
    return f"{idle_for:.1f} and {slow_for:.1f} s"


def test_a_callback_s_time_and_pauses_that_are_set_are_kept(setting):
    options = ("--callback-timeout", "1", "--retry-first", "700", "--retry-last", "700")
    release = threading.Event()
    with (
        Participant(lambda _: (release.wait(PATIENCE), None)[1]) as member,
        Stopping(setting, *options) as service,
        service.client() as client,
    ):
        action = client.start()
        recovery = client.join(action, **member.addresses("compensate"))
        client.end(action, "cancel")
        replies = recorded(setting, recovery, 3)
        release.set()
        equal("the outcomes", [it[2] for it in replies[:3]], ["silent"] * 3)
    asked = [it[1] for it in replies[:3]]
    silent = [it[3] for it in replies[:3]]
    for begun, ended in zip(asked, silent):
        check(f"it was waited for {ended - begun} ms", 900 <= ended - begun <= 1000 + 1000 * LATE)
    for ended, begun in zip(silent, asked[1:]):
        check(f"the pause was {begun - ended} ms", 650 <= begun - ended <= 700 + 1000 * LATE)
    return f"{[b - a for a, b in zip(asked, silent)]} ms"


def test_a_host_has_as_many_callbacks_as_are_set(setting):
    """One carrier and four members at one host that don't answer: two are asked at a time."""
    release = threading.Event()
    with Participant(lambda _: (release.wait(PATIENCE), (200, b""))[1]) as member:
        with Stopping(setting, "--host-share", "2", workers=1) as service, service.client() as client:
            for _ in range(4):
                action = client.start()
                client.join(action, **member.addresses("compensate"))
                client.end(action, "cancel")
            member.wait("compensate", 2)
            time.sleep(1)
            equal("the requests", len(member.requests), 2)
            release.set()
            member.wait("compensate", 4)


def test_connections_past_those_that_are_set_close_the_one_that_has_been_idle_longest(setting):
    with Stopping(setting, "--connections", "3", workers=1) as service:
        streams = []
        for _ in range(3):
            streams.append(service.connect())
            # Once it is answered the service has it, and from then on it is idle.
            streams[-1].sendall(UNKNOWN)
            check("a reply", one_reply(streams[-1])[0].startswith(b"HTTP/1.1 404 "))
            time.sleep(0.3)
        with service.client() as client:
            client.start()
        check("the oldest is there", is_ready(streams[0], LATE))
        equal("the oldest", received(streams[0]), (b"", True))
        check("a younger one was closed", not is_ready(streams[2], 0.2))
        for stream in streams:
            stream.close()


def test_a_disk_that_is_full_is_still_told_by_status_two_or_a_gentle_end(setting):
    """A full disk stops the writing, and a gentle end is then as gentle: what was written is synced."""
    with Stopping(setting) as service, service.client() as client:
        client.start()
        most = os.path.getsize(setting.journal)
        resource.prlimit(service.process.pid, resource.RLIMIT_FSIZE, (most, resource.RLIM_INFINITY))
        equal("a start", client.call("POST", "/lra-coordinator").code, 503)
        service.stop()
        status, seconds, said = service.ended()
        equal("the status", status, 0)
        check(f"it ended after {seconds:.1f} s", seconds < LATE)
        check(
            f"it says {said!r}",
            all(line.startswith("lra: a thread that carried has ended: ") for line in said.splitlines()),
        )
