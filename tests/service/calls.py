"""How the program is called: its faults, each in one line on standard error with status 2,
and what it prints otherwise."""
import json
import os
import re
import shlex
import socket
import subprocess
import sys
import time

import held
import journal
from files import SOUND, UNSOUND, VERDICT, hint
from options import WORDS
from service import HOST, PATIENCE, check, equal, free_port
from watching import watched


def told(setting, line, *words):
    """Runs the program, which has to tell this fault and to make no file."""
    before = os.listdir(setting.folder)
    equal(" ".join(words), setting.run(*words), (2, "", line + "\n"))
    equal("the folder", os.listdir(setting.folder), before)


def on_terminal(program, *words):
    """Runs a program with a terminal as its standard error: its status, what it prints, and what the terminal shows."""
    screen, terminal = os.openpty()
    try:
        done = subprocess.run(
            [program, *words],
            stdin=subprocess.DEVNULL,
            stdout=subprocess.PIPE,
            stderr=terminal,
            timeout=PATIENCE,
            check=False,
        )
        os.write(terminal, b"\0")
        shown = b""
        while not shown.endswith(b"\0"):
            shown += os.read(screen, 65536)
    finally:
        os.close(terminal)
        os.close(screen)
    return done.returncode, done.stdout.decode(), shown[:-1].decode().replace("\r\n", "\n")


def test_a_terminal_is_told_why_and_nothing_else_is(setting):
    journal.write(setting.journal, SOUND)
    circle, missing, beside = unreadable(setting), f"{setting.folder}/missing", f"{setting.folder}/missing/journal"
    empty = f"{setting.folder}/empty"
    os.makedirs(empty)
    address, faulty = f"{HOST}:{free_port()}", f"{HOST}:{free_port()}/"
    states = "Active, Closing, Closed, FailedToClose, Cancelling, Cancelled or FailedToCancel"
    no_file, loop = "no such file or folder", "links that lead in a circle"
    with socket.create_server((HOST, 0)) as listener:
        used = f"{HOST}:{listener.getsockname()[1]}"
        for line, why, *words in (
            ("usage", "serve: WORKERS is 1 to 16, not 40", "serve", address, setting.journal, "40"),
            ("usage", "unknown option --foo", "--foo"),
            ("usage", "unknown option --foo", "audit", "--foo", "2"),
            ("usage", "unknown option --foo", "list", setting.journal, "--now", "--foo"),
            ("usage", f"--state is {states}, not closed", "list", setting.journal, "--state", "closed"),
            ("usage", "--older-than is a number of seconds, not 1m", "list", setting.journal, "--older-than", "1m"),
            ("usage", "--state has no value", "list", setting.journal, "--state"),
            ("usage", "no call frob: lra --help prints them", "frob", setting.journal),
            ("usage", "it is called so: lra explain FILE ID [--svg]", "explain", setting.journal),
            (
                "usage",
                "explain: ID is the number of an action, its UUID or its URI, not 02",
                "explain", setting.journal, "02",
            ),
            (f"cannot read {missing}", f"{missing}: {no_file}", "audit", missing),
            (f"cannot read {circle}", f"{circle}: {loop}", "show", circle),
            (f"cannot read {missing}", f"{missing}: {no_file}", "explain", missing, "2"),
            (f"cannot read {empty}", f"{empty}: is a directory", "upgrade", empty),
            (f"cannot read {missing}", f"{missing}: {no_file}", "play", missing),
            (f"cannot read {circle}", f"cannot read {circle}: {loop}", "serve", address, circle, "2"),
            (f"cannot write {beside}", f"cannot write {beside}: {no_file}", "serve", address, beside, "2"),
            (f"cannot serve {used}", f"cannot serve {used}: address in use", "serve", used, setting.journal, "2"),
            (
                f"cannot serve {faulty}",
                f"cannot serve {faulty}: no host and port as they are spelled, as 127.0.0.1:8080",
                "serve", faulty, setting.journal, "2",
            ),
            (
                f"cannot read {missing}",
                f"cannot read {missing}: {no_file}",
                "serve", "--key", missing, address, setting.journal, "2",
            ),
            (f"no journal in {empty}", None, "audit", empty),
        ):
            second = "" if why is None else f"lra: {why}\n"
            equal(f"{words} on a terminal", on_terminal(setting.program, *words), (2, "", f"lra: {line}\n{second}"))
            equal(f"{words} elsewhere", setting.run(*words), (2, "", f"lra: {line}\n"))


def test_a_fault_of_a_service_stands_in_its_log(setting):
    folder, missing = f"{setting.folder}/folder", f"{setting.folder}/missing"
    os.makedirs(folder)
    with socket.create_server((HOST, 0)) as listener:
        used = f"{HOST}:{listener.getsockname()[1]}"
        for line, why, *words in (
            (f"cannot serve {used}", "address in use", used, setting.journal),
            (f"cannot serve {used}", "address in use", used, folder),
            (
                f"cannot read {missing}",
                "no such file or folder",
                "--key", missing, f"{HOST}:{free_port()}", setting.journal,
            ),
        ):
            done = setting.run("serve", "--log", "error", "--log-format", "json", *words, "2")
            first, second = done.told.splitlines()
            equal(f"the line of {words}", (done.status, done.output, first), (2, "", f"lra: {line}"))
            logged = json.loads(second)
            equal(f"what is logged of {words}", (logged["level"], logged["message"]), ("error", f"{line}: {why}"))
    journal.write(setting.journal, UNSOUND)
    for options in ((), ("--log", "error", "--log-format", "json")):
        done = setting.run("serve", *options, f"{HOST}:{free_port()}", setting.journal, "2")
        equal(
            f"an unsound file with {options}",
            (done.status, done.output, done.told[: len(hint(setting))]),
            (1, VERDICT, hint(setting)),
        )
        logged = [json.loads(line)["message"] for line in done.told[len(hint(setting)) :].splitlines()]
        equal(
            f"what is logged of it with {options}", logged[:1], [f"{setting.journal} is not sound"] if options else []
        )


def test_an_address_that_leads_nowhere_is_warned_of(setting):
    for host in ("0.0.0.0", "[::]"):
        address = f"{host}:{free_port()}"
        warning = (
            f"identifiers that begin with http://{address}/ lead nowhere: "
            "name by --base where clients reach this service"
        )
        done = setting.run("serve", "--check", address, setting.journal, "1")
        equal(f"a check at {host}", (done.status, done.told), (0, f"lra: {warning}\n"))
        for options in ((), ("--base", "http://lra.test/"), ("--log", "error", "--log-format", "json")):
            done = setting.run("serve", "--stop-at-eof", *options, address, setting.journal, "1")
            equal(f"a service at {host} with {options}", (done.status, done.output), (0, f"serving {address}\n"))
            if "--log" in options:
                logged = json.loads(done.told)
                equal(f"the log at {host}", (logged["level"], logged["message"]), ("warn", warning))
            else:
                equal(f"what is told at {host} with {options}", done.told, "" if options else f"lra: {warning}\n")


def test_a_terminal_shows_how_far_a_long_run_is(setting):
    journal.write(setting.journal, SOUND)
    folder = f"{setting.folder}/folder"
    os.makedirs(folder)
    journal.write(f"{folder}/a.journal", SOUND)
    line, cleared = "\rlra: 0 of 0 MB", "\r" + 48 * " " + "\r"
    for words in (
        ("audit", setting.journal), ("show", setting.journal), ("upgrade", setting.journal), ("audit", folder)
    ):
        usual = setting.run(*words)
        begun = time.monotonic()
        status, output, shown = on_terminal(sys.executable, held.__file__, "1.2", "65536", setting.program, *words)
        seconds = int(time.monotonic() - begun)
        equal(f"what {words} prints", (status, watched(output)), (usual.status, usual.output))
        # (a busy machine may hold it up for another second)
        count = shown.count(line)
        check(f"the terminal shows {shown!r} of {words} in {seconds} s", 1 <= count <= seconds)
        check(f"what the terminal shows of {words} at last: {shown!r}", shown.endswith(line + cleared))
        equal(f"what else the terminal shows of {words}", shown.replace(cleared, "").replace(line, ""), "")


def test_usage(setting):
    address = f"{HOST}:{free_port()}"
    for workers in ("0", "17", "x", "", "04", "+4", "-1", " 4", "4 ", "4.0", "18446744073709551620"):
        told(setting, "lra: usage", "serve", address, setting.journal, workers)
    for words in (
        ["serve"],
        ["serve", address],
        ["serve", address, setting.journal],
        ["serve", address, setting.journal, "4", "5"],
    ):
        told(setting, "lra: usage", *words)
    for words in (["--helps"], ["--help", "serve"], ["-h"], ["--version", "1"]):
        told(setting, "lra: usage", *words)


def test_one_and_sixteen_workers_serve(setting):
    for workers in (1, 16):
        with setting.serve(workers) as service, service.client() as client:
            client.start()


def test_help_and_version(setting):
    wanted_texts = {
        "--help": (
            "audit", "show", "list", "explain", "follow", "upgrade", "salvage", "play", "serve ADDRESS FILE WORKERS"
        ),
        "--version": ("lra ", "rattle logic "),
    }
    for word, wanted in wanted_texts.items():
        status, output, fault = setting.run(word)
        equal(word, (status, fault), (0, ""))
        for text in wanted:
            check(f"{word} prints {output!r}, without {text!r}", text in output)


def words_of_help(setting):
    """The verbs, the calls without one, and the options of a service, as the program's help has them."""
    told, serving = setting.run("--help").output, setting.run("serve", "--help").output
    verbs, calls = (set(re.findall(rf"^lra ({word}) ", told, re.M)) for word in ("[a-z]+", "--[a-z]+"))
    options = set(re.findall(r"--[a-z][a-z-]*", serving))
    equal("how many there are", (len(verbs), len(calls), len(options)), (9, 2, 38))
    return verbs, calls, options


def test_the_manual_has_each_word_of_the_help(setting):
    verbs, calls, options = words_of_help(setting)
    manual = journal.read(f"{setting.root}/man/lra.1").decode()
    equal("the verbs", set(re.findall(r"^\.It Nm Cm ([a-z]+)", manual, re.M)), verbs)
    equal("the options", {f"-{it}" for it in re.findall(r"^\.It (?:Nm )?Fl (-[a-z-]+)", manual, re.M)}, calls | options)


def test_the_completions_have_each_word_of_the_help(setting):
    verbs, calls, options = words_of_help(setting)
    completions = journal.read(f"{setting.root}/completions/lra").decode()
    flags, valued = (
        re.search(rf"^_lra_{name}='([^']*)'", completions, re.M)[1].split() for name in ("flags", "valued")
    )
    equal("the options", set(flags + valued), options)
    equal("the verbs", set(" ".join(re.findall(r"verbs\+?='([^']*)'", completions)).split()), verbs)
    check("a call is missing", all(f" {call}" in completions for call in calls))


def test_the_unit_s_settings_are_the_usual_ones(setting):
    path = setting.folder + "/lra.toml"
    text = journal.read(f"{setting.root}/examples/systemd/lra.toml").decode()
    journal.write(path, re.sub(r"^#(?=[a-z])", "", text, flags=re.M).encode())
    address = f"{HOST}:{free_port()}"
    usual, told = (
        setting.run("serve", *words, "--check", address, setting.journal, "4") for words in ([], ["--config", path])
    )
    equal("what would be served", told, usual)
    _, _, options = words_of_help(setting)
    named = {f"--{it}" for it in re.findall(r"^#([a-z-]+) = ", text, re.M)}
    equal(
        "what isn't among them",
        options - named,
        {"--chunked", "--stop-at-eof", "--trace-context", "--default-limit", "--retry-after", "--drain", "--restored"}
        | {"--config", "--check", "--help"}
        | {f"--{word}" for word in WORDS},
    )


def guard(setting, name):
    """Runs the unit's look at its folder before a start, with this name for what is served."""
    unit = journal.read(f"{setting.root}/examples/systemd/lra.service").decode()
    words = shlex.split(re.search("^ExecStartPre=(.*)$", unit, re.M)[1].replace("$$", "$"))
    environment = os.environ | {"LRA_JOURNAL": name, "STATE_DIRECTORY": setting.folder}
    return subprocess.run(words, env=environment, capture_output=True, text=True, check=False)


def test_a_journal_of_an_older_unit_is_taken_up(setting):
    """As operating.md says: until it has its instance for a name the unit doesn't start."""
    page = journal.read(f"{setting.root}/docs/use/operating.md").decode().partition("### An older unit")[2]
    command = re.search("^mv .*$", page, re.M)[0]
    usual = re.search(
        "^LRA_JOURNAL=(.*)$", journal.read(f"{setting.root}/examples/systemd/lra.default").decode(), re.M
    )[1]
    equal("an empty folder", guard(setting, usual).returncode, 0)
    setting.journal = setting.folder + "/lra.journal"
    with setting.serve() as service, service.client() as client:
        action = client.start()
    refused = guard(setting, usual)
    equal(
        "a folder that has it",
        (refused.returncode, "lra.journal wants the name of its instance" in refused.stderr),
        (2, True),
    )
    equal("the file itself", guard(setting, "lra.journal").returncode, 0)
    subprocess.run(["sh", "-c", command], cwd=setting.folder, check=True)
    equal("a folder that has taken it up", guard(setting, usual).returncode, 0)
    setting.journal = f"{setting.folder}/{usual}"
    with setting.serve(port=service.port) as service, service.client() as client:
        equal("the action", client.status(action), "Active")
        client.start()
        equal("its end", client.end(action, "close"), "Closed")


def test_an_address_that_is_no_base_cannot_be_served(setting):
    good = f"{HOST}:{free_port()}"
    for address in (
        "", good + "/", good + "/x", good + "?", good + " ", f"{HOST}:99999", f"{HOST}:x", f"{HOST}:80", "a b:80"
    ):
        told(setting, f"lra: cannot serve {address}", "serve", address, setting.journal, "2")


def test_an_address_in_use_cannot_be_served(setting):
    with socket.create_server((HOST, 0)) as listener:
        port = listener.getsockname()[1]
        told(setting, f"lra: cannot serve {HOST}:{port}", "serve", f"{HOST}:{port}", setting.journal, "2")


def test_an_address_of_another_machine_cannot_be_served(setting):
    told(setting, "lra: cannot serve 192.0.2.1:8080", "serve", "192.0.2.1:8080", setting.journal, "2")


def unreadable(setting):
    """The path of a file that nobody can read: a link to itself."""
    path = setting.folder + "/circle"
    os.symlink(path, path)
    return path


def test_a_file_that_cannot_be_read(setting):
    path = unreadable(setting)
    told(setting, f"lra: cannot read {path}", "serve", f"{HOST}:{free_port()}", path, "2")


def test_a_file_in_a_folder_that_is_missing(setting):
    path = setting.folder + "/missing/journal"
    told(setting, f"lra: cannot write {path}", "serve", f"{HOST}:{free_port()}", path, "2")


def test_faults_come_in_their_order(setting):
    journal.write(setting.journal, UNSOUND)
    with socket.create_server((HOST, 0)) as listener:
        used = f"{HOST}:{listener.getsockname()[1]}"
        told(setting, "lra: usage", "serve", "a b", setting.journal, "0")
        circle = unreadable(setting)
        told(setting, "lra: cannot serve a b", "serve", "a b", circle, "2")
        told(setting, f"lra: cannot read {circle}", "serve", used, circle, "2")
        equal("an unsound file", setting.run("serve", used, setting.journal, "2"), (1, VERDICT, hint(setting)))
        missing = setting.folder + "/missing/journal"
        told(setting, f"lra: cannot serve {used}", "serve", used, missing, "2")
