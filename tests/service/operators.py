"""The operators' port: health, metrics, lists, pages and orders, who may ask, and that nobody who is slow blinds it."""
import base64
import contextlib
import http.client
import json
import os
import re
import resource
import shutil
import socket
import statistics
import subprocess
import sys
import threading
import time
import urllib.parse

import allocations
import crowds
import folders
import hung
import journal
from participant import Participant, wait_until
from service import HOST, LATE, PATIENCE, LeftOut, Reply, Service, check, equal, free_port, id_of
from tokens import TOKEN, token_file
from watching import Deniable

KEY = "a key of the operators"
FORM = "application/x-www-form-urlencoded"
# A line of Prometheus' text format: a name, labels if it has some, and a number.
SAMPLE = re.compile(r'^([a-z_:][a-z0-9_:]*)(\{[a-z_]+="[^"\\\n]*"(?:,[a-z_]+="[^"\\\n]*")*\})? ([0-9]+(?:\.[0-9]+)?)$')
# How many connections there are, so that each worker has some; and how often a client asks, by which its worker is
# found, and in how many turns at most. After more requests its next connection may be another worker's.
CLIENTS, MOST_CLIENTS = 8, 40
ASKED = 100
TURNS = 10
# How many actions are many: some stretches of those that are counted together.
MANY = 1500
# Requests whose path or method isn't served: the method, the path, what is answered to those who may ask, and what is
# allowed.
UNSERVED = (
    *(("GET", path, 404, None) for path in ("/page", "/pagex", "/page/nothing", "/nothing", "/nothing?page")),
    *(("POST", "/page", 404, None), ("PUT", "/nothing", 404, None)),
    *(("PUT", "/metrics", 405, "GET"), ("POST", "/health", 405, "GET"), ("DELETE", "/", 405, "GET")),
    *(("GET", "/actions/1/close", 405, "POST"), ("PUT", "/members/1/give-up", 405, "POST")),
)
# How long a member is left in peace that has given no answer, in milliseconds: longer than any test takes.
SELDOM = "600000"
# How many seconds a journal is left in peace, so that what is left to be done there was looked for.
LOOKED = 4
# How many seconds a callback may be under way to a member that answers at once.
UNDER_WAY = 2
# The marks of HTML, in an address of a member and in a path.
MARKUP = "<i>&\"'"


def key_file(setting, key=KEY + "\n", mode=0o600):
    """A file with a key, and its path."""
    path = setting.folder + "/key"
    journal.write(path, key.encode())
    os.chmod(path, mode)
    return path


class Port:
    """What operators ask of a service whose words name their port."""

    def open_port(self, setting, key):
        self.operators = free_port()
        self.key = key
        options = ["--operators", f"{HOST}:{self.operators}"]
        if key:
            options += ["--operators-key", key_file(setting, key + "\n")]
        return options

    def ask(self, path, method="GET", body=None, key=..., seconds=PATIENCE, **fields):
        """A request of an operator, and its reply, with its body as text."""
        given = self.key if key is ... else key
        if given and "Authorization" not in fields:
            fields["Authorization"] = f"Bearer {given}"
        connection = http.client.HTTPConnection(HOST, self.operators, timeout=seconds)
        connection.request(method, path, body, {name.replace("_", "-"): value for name, value in fields.items()})
        reply = connection.getresponse()
        text = reply.read().decode()
        connection.close()
        return Reply(reply.status, reply.reason, dict(reply.getheaders()), text)

    def read(self, path, code=200):
        """The object that is told at a path."""
        reply = self.ask(path)
        equal(f"the code of {path}", reply.code, code)
        return json.loads(reply.body)

    def is_ready(self):
        return self.ask("/health/ready").code == 200

    def visitor(self):
        """A bare connection to the port."""
        return socket.create_connection((HOST, self.operators), timeout=PATIENCE)


class Watched(Port, Service):
    """A service of a file with a port for operators, which has a key unless it is told to have none."""

    def __init__(self, setting, key=KEY):
        super().__init__(setting.program, setting.journal)
        self.words[2:2] = self.open_port(setting, key)


class WatchedFolder(Port, folders.Folder):
    """A service of a folder with a port for operators."""

    def __init__(self, setting, *options, key=KEY):
        super().__init__(setting, *options)
        self.words[2:2] = self.open_port(setting, key)


def path_of(service):
    """The path of the journal that a service writes to."""
    return service.journal if isinstance(service, Watched) else service.path(max(service.journals()) + ".journal")


def refusal(reply, code, word):
    """Fails the test where a reply isn't a refusal by that name."""
    equal("the reply", (reply.code, json.loads(reply.body)), (code, {"error": word}))


def audited(setting, path):
    """Fails the test where a journal isn't sound."""
    told = setting.run("audit", path)
    check(f"the audit: {told}", told.status == 0 and told.output.startswith("sound"))


def measures(service):
    """The lines of the metrics, by name and labels; each is one that Prometheus reads, behind what it is."""
    reply = service.ask("/metrics")
    equal("the kind", reply.fields["Content-Type"], "text/plain; version=0.0.4; charset=utf-8")
    found, kinds = {}, {}
    for line in reply.body.splitlines():
        if line.startswith("# TYPE "):
            _, _, name, kind = line.split(" ")
            check(f"{name} is told once", name not in kinds)
            kinds[name] = kind
        elif not line.startswith("# HELP "):
            sample = SAMPLE.match(line)
            check(f"a line of metrics: {line!r}", sample)
            name = sample[1]
            check(
                f"what {name} is", name in kinds or kinds.get(re.sub("_(bucket|sum|count)$", "", name)) == "histogram"
            )
            check(f"{line!r} is told once", name + (sample[2] or "") not in found)
            found[name + (sample[2] or "")] = float(sample[3])
    if shutil.which("promtool"):
        done = subprocess.run(
            ["promtool", "check", "metrics"], input=reply.body, text=True, capture_output=True, check=False
        )
        equal("promtool", (done.returncode, done.stdout + done.stderr), (0, ""))
    return found


# the checks of liveness, and those of readiness
LIVE = ["journal", "lock", "threads"]
READY = [*LIVE, "room", "starts", "set", "sync"]


def test_health_is_up(setting):
    for kind in (Watched, WatchedFolder):
        with kind(setting) as service, service.client() as client:
            client.start()
            for probe, names in (("", READY), ("/live", LIVE), ("/ready", READY), ("/started", ["started"])):
                told = service.read("/health" + probe)
                equal("the status", told["status"], "UP")
                equal("the checks", [(it["name"], it["status"]) for it in told["checks"]], [(it, "UP") for it in names])


def test_health_is_down_on_a_full_disk(setting):
    for kind in (Watched, WatchedFolder):
        with kind(setting) as service, service.client() as client:
            action = client.start()
            check("it is ready", service.is_ready())
            most = os.path.getsize(path_of(service))
            resource.prlimit(service.process.pid, resource.RLIMIT_FSIZE, (most, resource.RLIM_INFINITY))
            equal("a close", client.call("PUT", f"/lra-coordinator/{id_of(action)}/close").code, 503)
            for probe in ("", "/live", "/ready"):
                told = service.read("/health" + probe, 503)
                equal(
                    "the status",
                    (told["status"], told["checks"][0]["name"], told["checks"][0]["status"]),
                    ("DOWN", "journal", "DOWN"),
                )
            equal("metrics", measures(service)["lra_journal_failed"], 1)
            equal("an order", service.ask(f"/actions/{id_of(action)}/cancel", "POST").code, 503)


class HangingDisk:
    """A disk whose syncs hang while a file is there."""

    def __init__(self, setting):
        self.flag = setting.folder + "/hang"

    def wrap(self, service):
        service.words[:0] = [sys.executable, hung.__file__, self.flag]
        return service

    def __enter__(self):
        journal.write(self.flag, b"")

    def __exit__(self, *_):
        os.remove(self.flag)


class Unarchived(Deniable, WatchedFolder):
    """A service of a folder with a log of errors, to which calls of the system can be denied."""

    def __init__(self, setting):
        super().__init__(setting, *folders.SOON, "--log", "error")
        self.watch(setting)


def test_a_journal_that_has_left_and_is_not_archived_yet_has_not_stopped(setting):
    """What names it can't be answered then. Nothing is wrong with the journal, and nothing says so."""
    with Unarchived(setting) as service, service.client() as client:
        actions = folders.leave_unarchived(service, client)
        for action in actions:
            for method, rest in (("GET", ""), ("PUT", "/close")):
                with service.client() as other:
                    reply = other.call(method, f"/lra-coordinator/{id_of(action)}{rest}")
                equal(f"{method} {rest}", (reply.code, reply.body), (503, {"error": "Stopped"}))
        equal("liveness", service.read("/health/live")["status"], "UP")
        equal("readiness", service.read("/health/ready")["status"], "UP")
        equal("the measure", measures(service)["lra_journal_failed"], 0)
        # The log is written some times a second.
        time.sleep(1)
        check(f"the log has {service.told()!r}", "write failed" not in service.told())
        equal("liveness still", service.read("/health/live")["status"], "UP")
        service.allow()
        wait_until("it is archived", lambda: service.ended() == [folders.instance_of(actions[0])])
        wait_until("it isn't there any more", lambda: all(service.missing(action) for action in actions))
        equal("the measure then", measures(service)["lra_journal_failed"], 0)
        check("the log", "write failed" not in service.told())
        service.kill()
    service.words = service.plain
    folders.check_sound(service)


def test_a_sync_that_hangs_is_told(setting):
    for kind in (Watched, WatchedFolder):
        disk = HangingDisk(setting)
        service = disk.wrap(kind(setting))
        at = service.words.index("serve")
        service.words[at + 3:at + 3] = ["--sync-seconds", "1"]
        with service, service.client() as client:
            action = client.start()
            settled(service, {"lra_sync_age_seconds": 0})
            with disk:
                began = time.monotonic()
                closing = threading.Thread(target=client.end, args=(action, "close"))
                closing.start()
                equal("liveness", service.read("/health/live")["status"], "UP")
                wait_until("it isn't ready", lambda: not service.is_ready())
                check("that it is told so in time", 1 <= time.monotonic() - began < 1 + LATE)
                for probe in ("", "/ready"):
                    before = time.monotonic()
                    checks = {it["name"]: it for it in service.read("/health" + probe, 503)["checks"]}
                    check("a probe is answered while it hangs", time.monotonic() - before < LATE)
                    equal("what is down", [name for name, it in checks.items() if it["status"] == "DOWN"], ["sync"])
                    equal("the limit", checks["sync"]["data"]["limit_ms"], 1000)
                    check("the age", checks["sync"]["data"]["age_ms"] > 1000)
                check("its age", measures(service)["lra_sync_age_seconds"] > 1)
                check("it is answered before it is synced", closing.is_alive())
            closing.join()
            wait_until("it is ready", service.is_ready)


class Starved(WatchedFolder):
    """A service of a folder, one of whose threads may be refused memory."""

    def __init__(self, setting):
        super().__init__(setting, *folders.FAR)
        self.allocations = allocations.Allocations(setting.folder + "/allocations")
        self.plain = list(self.words)
        self.words[:0] = self.allocations.words()

    def busy(self):
        """How long each thread has run, in billionths of a second."""
        found = {}
        for thread in os.listdir(f"/proc/{self.process.pid}/task"):
            # (one that has made the service ready may have ended since)
            with contextlib.suppress(FileNotFoundError, ProcessLookupError):
                found[int(thread)] = int(journal.read(f"/proc/{self.process.pid}/task/{thread}/schedstat").split()[0])
        if not found:
            raise LeftOut("the system doesn't tell how long a thread has run")
        return found

    def worker_of(self, client, action):
        """The thread that answers a client: it runs while the client asks, and most others rest. (Another may have
        something to do once, as to prepare the next journal.)"""
        for _ in range(TURNS):
            before = self.busy()
            for _ in range(ASKED):
                client.status(action)
            grown = sorted(
                (time_taken - before[thread], thread) for thread, time_taken in self.busy().items() if thread in before
            )
            if grown[-1][0] > 2 * grown[-2][0]:
                return grown[-1][1]
        raise AssertionError(f"no thread answers more than another: {grown}")


def checks(service):
    """What came of each check of the health."""
    told = json.loads(service.ask("/health").body)
    return {it["name"]: it["status"] for it in told["checks"]}


def test_a_worker_that_cannot_follow_the_set_is_told(setting):
    """One worker has no memory while the next journal comes: the check says so until it has, and then it answers for
    that journal too."""
    service = Starved(setting)
    with contextlib.ExitStack() as stack:
        stack.enter_context(service)
        clients = [stack.enter_context(service.client()) for _ in range(CLIENTS)]
        actions = [clients[0].start()]
        starved = service.worker_of(clients[0], actions[0])
        others = [client for client in clients[1:] if service.worker_of(client, actions[0]) != starved]
        # Which worker takes a connection is chance: each has one at last.
        while not others and len(clients) < MOST_CLIENTS:
            clients.append(stack.enter_context(service.client()))
            others = [client for client in clients[-1:] if service.worker_of(client, actions[0]) != starved]
        check("another worker answers some", others)
        equal("the check before", (checks(service)["set"], measures(service)["lra_set_behind"]), ("UP", 0))
        service.allocations.starve(starved)

        def is_next_in_use():
            actions.append(others[0].start())
            return len({folders.instance_of(action) for action in actions}) == 2

        wait_until("the next journal is in use", is_next_in_use)
        # The worker looks while it has nothing to do, too.
        wait_until("the check is down", lambda: checks(service)["set"] == "DOWN")
        equal(
            "the code and the measure",
            (service.ask("/health/ready").code, measures(service)["lra_set_behind"]),
            (503, 1),
        )
        equal("it is live", service.ask("/health/live").code, 200)
        time.sleep(1)
        equal("it still is down", checks(service)["set"], "DOWN")
        service.allocations.starve(0)
        wait_until("the check is up", lambda: checks(service)["set"] == "UP")
        equal(
            "the code and the measure then",
            (service.ask("/health/ready").code, measures(service)["lra_set_behind"]),
            (200, 0),
        )
        for client in clients:
            for action in actions:
                equal(f"the status of {action}", client.status(action), "Active")
        for action in actions:
            equal("an end", clients[0].end(action, "close"), "Closed")
    service.words = service.plain
    folders.check_sound(service)


def settled(service, wanted):
    """Waits until some measures are as they are wanted, and answers all."""
    end = time.monotonic() + PATIENCE
    while True:
        found = measures(service)
        came = {name: found.get(name) for name in wanted}
        if came == wanted or time.monotonic() > end:
            equal("the measures", came, wanted)
            return found
        time.sleep(0.02)


def test_metrics_are_as_prometheus_reads_them(setting):
    for kind in (Watched, WatchedFolder):
        with kind(setting) as service, Participant() as member, service.client() as client:
            action = client.start()
            client.join(action, **member.addresses("complete", "compensate"))
            client.end(action, "close")
            client.start()
            client.call("GET", "/nowhere")
            wait_until("the action is closed", lambda: client.status(action) == "Closed")
            wanted = {
                'lra_actions{state="Active"}': 1,
                'lra_actions{state="Closed"}': 1,
                "lra_actions_started_total": 2,
                "lra_members_joined_total": 1,
                "lra_journal_failed": 0,
                "lra_journals": 1,
                "lra_connections": 1,
                "lra_callbacks_in_flight": 0,
                'lra_requests_total{route="start",code="201"}': 2,
                'lra_requests_total{route="join",code="200"}': 1,
                'lra_requests_total{route="none",code="404"}': 1,
                'lra_callbacks_total{kind="complete",outcome="done"}': 1,
                "lra_callback_seconds_count": 1,
                'lra_callback_seconds_bucket{le="+Inf"}': 1,
            }
            # (a callback is under way until a moment after its reply is recorded)
            found = settled(service, wanted)
            path = path_of(service)
            equal("the bytes", found["lra_journal_bytes"], os.path.getsize(path))
            # A folder counts the first line of a journal that it has made too.
            check(
                "the entries",
                found["lra_journal_entries"] - len(journal.entries(path)) == isinstance(service, WatchedFolder),
            )
            check("the memory", found["process_resident_memory_bytes"] > 10**6)


def test_syncs_are_measured(setting):
    """One histogram has how long each took, the other how many commands each kept: five, of which each waits for the
    disk before the next is given."""
    names = [f"{name}_{it}" for name in ("lra_sync_seconds", "lra_commands_per_sync") for it in ("count", "sum")]
    for kind in (Watched, WatchedFolder):
        with kind(setting) as service, service.client() as client:
            before = measures(service)
            for _ in range(5):
                client.start()
            found = measures(service)
            grown = {name: found[name] - before[name] for name in names}
            check(f"five starts: {grown}", 5 <= grown["lra_sync_seconds_count"] <= grown["lra_commands_per_sync_sum"])
            equal("as many", grown["lra_sync_seconds_count"], grown["lra_commands_per_sync_count"])
            check(f"the time that they took: {grown}", 0 <= grown["lra_sync_seconds_sum"] < PATIENCE)
            # Each has one line here, as the journal's first has. A folder has begun the next journal too.
            paths = (
                [setting.journal]
                if kind is Watched
                else [service.path(it) for it in os.listdir(service.folder) if it.endswith((".journal", ".next"))]
            )
            kept, lines = found["lra_commands_per_sync_sum"], sum(len(journal.read(it).splitlines()) for it in paths)
            check(
                f"a line each: {kept} and {lines}",
                kept == lines if kind is Watched else len(journal.read(path_of(service)).splitlines()) <= kept <= lines,
            )


def test_members_that_hold_up_an_end_are_counted(setting):
    """One that nobody can reach is silent once it was asked in vain three times,
    and isn't any more once it is given up."""
    with Watched(setting) as service, Participant() as member, service.client() as client:
        gone = f"http://{HOST}:{free_port()}/"
        action = client.start()
        recovery = client.join(action, complete=gone + "complete", compensate=gone + "compensate")
        client.join(action, **member.addresses("complete", "compensate"))
        silent, waiting = 'lra_members_overdue{why="silent"}', 'lra_members_overdue{why="waiting"}'
        found = measures(service)
        equal("none while it is active", (found[silent], found[waiting]), (0, 0))
        client.end(action, "close")
        wait_until("one is silent", lambda: measures(service)[silent] == 1)
        shown = service.read("/actions/" + id_of(action))
        equal("it was asked in vain", shown["awaits"], {"member": id_of(recovery)})
        last = next(it["last"] for it in shown["members"] if it["member"] == id_of(recovery))
        equal("what came of it", (last["address"], last["reply"]), (gone + "complete", "connection refused"))
        page = service.ask("/page/actions/" + id_of(action)).body
        check(
            "its reply, its age and its address",
            re.search(rf"connection refused, [0-9]+ s ago<br><code>{re.escape(gone)}complete</code>", page),
        )
        check(
            "when it is asked next",
            re.search(r"complete (now|in [0-9]+ s), in vain [0-9]+ times|is being asked", service.ask("/").body),
        )
        reply = service.ask(f"/members/{id_of(recovery)}/give-up", "POST", json.dumps({"status": "FailedToComplete"}))
        equal("it is given up", reply.code, 200)
        wait_until("none is silent", lambda: measures(service)[silent] == 0)


def test_a_member_that_is_at_it_is_not_silent(setting):
    with Watched(setting) as service, Participant(lambda request: (202, b"")) as member, service.client() as client:
        action = client.start()
        client.join(action, **member.addresses("complete", "compensate"))
        client.end(action, "close")
        member.wait("complete", 4)
        wait_until("it is at it", lambda: measures(service)["lra_members_at_it"] == 1)
        equal("and not silent", measures(service)['lra_members_overdue{why="silent"}'], 0)
        told = service.read("/actions/" + id_of(action))["members"][0]["last"]
        equal(
            "what it answered", (told["address"], told["reply"]), (member.uri("complete"), "answered 202: it is at it")
        )


def scraped(port, measure):
    """What a Prometheus knows of a measure: a value each series."""
    connection = http.client.HTTPConnection(HOST, port, timeout=PATIENCE)
    try:
        connection.request("GET", "/api/v1/query?query=" + urllib.parse.quote(measure))
        told = json.loads(connection.getresponse().read())
    except (OSError, ValueError):
        # It hasn't begun yet.
        return []
    finally:
        connection.close()
    return [float(it["value"][1]) for it in told["data"]["result"]]


def test_a_prometheus_scrapes_the_port(setting):
    """By the configuration in examples/prometheus, with its rules."""
    if not shutil.which("prometheus"):
        raise LeftOut("there is no prometheus")
    with Watched(setting) as service, service.client() as client:
        client.start()
        client.end(client.start(), "close")
        shutil.copy(f"{setting.root}/examples/prometheus/rules.yml", setting.folder)
        text = journal.read(f"{setting.root}/examples/prometheus/prometheus.yml").decode()
        for old, new in (
            ("15s", "1s"),
            ("/etc/lra/operators-key", setting.folder + "/key"),
            ("127.0.0.1:5001", f"{HOST}:{service.operators}"),
        ):
            check(f"{old} is there", old in text)
            text = text.replace(old, new)
        journal.write(setting.folder + "/prometheus.yml", text.encode())
        port = free_port()
        words = [
            f"--config.file={setting.folder}/prometheus.yml",
            f"--storage.tsdb.path={setting.folder}/data",
            f"--web.listen-address={HOST}:{port}",
        ]
        process = subprocess.Popen(
            ["prometheus", *words], stdin=subprocess.DEVNULL, stdout=subprocess.DEVNULL, stderr=subprocess.DEVNULL
        )
        try:
            wait_until("it is scraped", lambda: scraped(port, 'lra_actions{state="Closed"}') == [1], 2 * PATIENCE)
            equal("it is up", scraped(port, 'up{job="lra"}'), [1])
            equal(
                "the rest", (scraped(port, "sum(lra_actions)"), len(scraped(port, "lra_journal_room_ratio"))), ([2], 4)
            )
        finally:
            process.kill()
            process.wait()


def test_the_rules_and_the_dashboard_ask_for_what_is_told(setting):
    """Each measure that examples/prometheus names is one of the port's."""
    folder = setting.root + "/examples/prometheus"
    asked = journal.read(folder + "/rules.yml").decode()
    with open(folder + "/dashboard.json", encoding="utf-8") as text:
        panels = json.load(text)["panels"]
    asked += "".join(target["expr"] + "\n" for panel in panels for target in panel["targets"])
    names = set(re.findall(r"\b(?:lra|process)_[a-z_]+[a-z]", asked))
    with Watched(setting) as service, Participant() as member, service.client() as client:
        action = client.start()
        client.join(action, **member.addresses("complete", "compensate"))
        client.end(action, "close")
        wait_until("the action is closed", lambda: client.status(action) == "Closed")
        told = {re.sub(r"\{.*", "", name) for name in measures(service)}
    equal("what isn't told", names - told, set())
    return f"{len(names)} measures"


def test_actions_are_listed_and_shown(setting):
    with Watched(setting) as service, Participant(lambda request: None) as member, service.client() as client:
        actions = [client.start() for _ in range(5)]
        nested = client.start(parent=actions[0])
        recovery = client.join(actions[0], **member.addresses("complete", "compensate"))
        first = service.read("/actions?limit=4")
        equal("the first page", [it["action"] for it in first["actions"]], [id_of(it) for it in actions[:4]])
        rest = service.read("/actions?from=" + first["next"])
        equal(
            "the rest",
            [(it["action"], it["parent"]) for it in rest["actions"]],
            [(id_of(actions[4]), None), (id_of(nested), id_of(actions[0]))],
        )
        check("the end", rest["next"] is None)
        shown = service.read("/actions/" + id_of(actions[0]))
        equal("the members", [(it["member"], it["status"]) for it in shown["members"]], [(id_of(recovery), "Active")])
        equal("the nested", [it["action"] for it in shown["nested"]], [id_of(nested)])
        client.end(actions[1], "close")
        equal(
            "those of a state",
            [it["action"] for it in service.read("/actions?state=Closed")["actions"]],
            [id_of(actions[1])],
        )
        for query in ("state=Closd", "limit=x", "limit=-1", "journal=one", "from=nothing"):
            code, word = (404, "NoSuchAction") if query.startswith("from") else (400, "BadQuery")
            refusal(service.ask("/actions?" + query), code, word)
        refusal(service.ask("/actions?journal=1"), 404, "NoSuchJournal")
        refusal(service.ask("/actions/00000000-0000-8007-8000-000000000001"), 404, "NoSuchAction")


def waits_told(setting, name):
    """What the story of an action ends with, as a listing has it: an indented line each."""
    story = setting.run("explain", setting.journal, name)
    equal(f"the story of {name}", (story.status, story.told), (0, ""))
    return "".join("  " + line for line in story.output.splitlines(True)[1:] if not line.startswith("line "))


def test_a_listing_tells_what_each_action_waits_for(setting):
    """Of members that nobody reaches or that are at it, of a limit, of a nested action, and of one still to be told."""
    gone = f"http://{HOST}:{free_port()}/"
    with Watched(setting) as service, Participant(lambda request: (202, b"")) as member, service.client() as client:
        hanging, slow, open_one, closed = client.start(), client.start(), client.start(limit=3_600_000), client.start()
        nested, told = client.start(parent=hanging), client.start()
        for action in (hanging, nested):
            client.join(action, complete=gone + "complete", compensate=gone + "compensate")
        for action in (hanging, slow):
            client.join(action, **member.addresses("complete", "compensate"))
        client.join(open_one, **member.addresses("compensate"))
        client.join(told, after=gone + "after")
        for action in (hanging, slow, closed, told):
            client.end(action, "close")
        member.wait("complete", 4)
        silent = 'lra_members_overdue{why="silent"}'
        wait_until("two are silent", lambda: measures(service)[silent] == 2)
    lines = setting.run("list", setting.journal).output.splitlines(True)
    equal("how many are listed", len(lines), 6)
    waits = {line: waits_told(setting, line.split(" ")[0]) for line in lines}
    of = {line.split(" ")[1]: told for line, told in waits.items()}
    check(f"the member that hangs: {of}", f"{gone}complete" in of[id_of(hanging)])
    check(f"how often it was asked: {of}", " times for that, " in of[id_of(hanging)])
    check(f"the nested one: {of}", " below it, which is Closing\n" in of[id_of(hanging)])
    check(f"the limit: {of}", " within 3600.000 s of " in of[id_of(open_one)])
    check(f"the notice: {of}", f"told how the action ended at {gone}after" in of[id_of(told)])
    equal("one that waits for nothing", of[id_of(closed)], "")
    for options in ((), ("--state", "Closing"), ("--older-than", "0")):
        chosen = setting.run("list", setting.journal, *options).output.splitlines(True)
        wanted = "".join(line + waits[line] for line in chosen)
        equal(f"list {options}", setting.run("list", setting.journal, *options, "--waits"), (0, wanted, ""))


def test_a_folder_s_journals_are_all_told(setting):
    with WatchedFolder(setting, *folders.FAR) as service:
        old = service.first(4)
        service.wait_for(2)
        with service.client() as client:
            new = client.start()
            client.end(old[1], "cancel")
        told = [[it["action"] for it in service.read(f"/actions?journal={place}")["actions"]] for place in (0, 1)]
        equal("the actions", sorted(told[0] + told[1]), sorted(map(id_of, [*old, new])))
        equal("the newest", told[1][-1], id_of(new))
        equal(
            "one of each",
            [service.read("/actions/" + id_of(it))["status"] for it in (old[0], new)],
            ["Active", "Active"],
        )
        found = measures(service)
        equal(
            "the counts",
            (found["lra_journals"], found['lra_actions{state="Active"}'], found['lra_actions{state="Cancelled"}']),
            (2, 4, 1),
        )
        equal(
            "an order to the older",
            json.loads(service.ask(f"/actions/{id_of(old[0])}/cancel", "POST").body),
            {"status": "Cancelled"},
        )
        equal(
            "one to the newest",
            json.loads(service.ask(f"/actions/{id_of(new)}/close", "POST").body),
            {"status": "Closed"},
        )
        check("the oldest is on the page", id_of(old[2]) in service.ask("/").body)
        check("and the newest journal on its own", id_of(new) not in service.ask("/?journal=1").body)
    folders.check_sound(service)


def test_a_journal_that_is_put_away_is_told_no_more(setting):
    with WatchedFolder(setting, *folders.SOON) as service:
        actions = service.first(3)
        service.wait_for(2)
        found = measures(service)
        equal("the journals", found["lra_journals"], 2)
        with service.client() as client:
            for action in actions:
                client.end(action, "close")
        looks = [found]

        def is_one_left():
            looks.append(measures(service))
            return looks[-1]["lra_journals"] == 1

        wait_until("one journal is left", is_one_left)
        *_, before, after = looks
        equal("the journals before it is put away", before["lra_journals"], 2)
        wait_until("it is put away", lambda: service.ended())
        fallen = [
            name
            for name, number in before.items()
            if name.split("{")[0].endswith("_total") and after.get(name, 0) < number
        ]
        equal("what has fallen that counts on and on", fallen, [])
        total = "lra_actions_started_total"
        check("no total falls", measures(service)[total] >= found[total] >= len(actions))
        refusal(service.ask("/actions/" + id_of(actions[0])), 404, "NoSuchAction")


def test_an_action_is_cancelled_through_the_port(setting):
    with Watched(setting) as service, service.client() as client:
        action = client.start()
        reply = service.ask(f"/actions/{id_of(action)}/cancel", "POST")
        equal("the reply", (reply.code, json.loads(reply.body)), (200, {"status": "Cancelled"}))
        equal("the status", client.status(action), "Cancelled")
        equal("the journal", [it.deed for it in journal.entries(setting.journal) if it.deed == "cancel"], ["cancel"])
    audited(setting, setting.journal)


def test_a_member_that_is_given_up_ends_its_action_as_failed(setting):
    with Watched(setting) as service, Participant(lambda request: (202, b"")) as member, service.client() as client:
        action = client.start()
        recovery = client.join(action, **member.addresses("complete", "compensate", "status"))
        client.end(action, "close")
        member.wait("complete")
        equal("what it waits for", service.read("/actions/" + id_of(action))["awaits"], {"member": id_of(recovery)})
        path = f"/members/{id_of(recovery)}/give-up"
        refusal(service.ask(path, "POST", json.dumps({"status": "Completed"})), 400, "BadQuery")
        reply = service.ask(path, "POST", json.dumps({"status": "FailedToComplete"}))
        equal("the reply", (reply.code, json.loads(reply.body)), (200, {"status": "FailedToComplete"}))
        wait_until("the action has failed", lambda: client.status(action) == "FailedToClose")
        wait_until("it is counted", lambda: measures(service)["lra_actions_failed_total"] == 1)
        check("the page finds it", id_of(action) in service.ask("/?state=FailedToClose").body)
        check(
            "where it is asked for",
            id_of(action) not in service.ask("/?state=FailedToCancel").body
            and id_of(action) not in service.ask("/").body,
        )
    audited(setting, setting.journal)


def test_a_member_that_cannot_be_told_is_given_up(setting):
    """It is asked no more, before and after a restart, its journal is archived, and has no word of it."""
    folder = WatchedFolder(setting, "--retry-last", "200", *folders.SOON)
    with Participant(lambda request: (200, b"") if request.path == "/compensate" else (500, b"")) as member:
        with folder as service, service.client() as client:
            actions = service.first(3)
            recovery = client.join(actions[0], **member.addresses("compensate", "after"))
            client.end(actions[0], "cancel")
            member.wait("after", 3)
            path = f"/members/{id_of(recovery)}/give-up"
            reply = service.ask(path, "POST", json.dumps({"status": "Ended"}))
            equal("the reply", (reply.code, json.loads(reply.body)), (200, {"status": "Done"}))
            missing = id_of(recovery)[:-12] + "00ffffffffff"
            check(
                "another isn't there",
                service.ask(f"/members/{missing}/give-up", "POST", json.dumps({"status": "Ended"})).code in (404,),
            )
            noted = journal.read(service.path("given-up")).decode().split("\n")
            check(f"it is noted: {noted}", any(it.endswith(" given up") for it in noted))
            time.sleep(UNDER_WAY)
            before = len(member.at("after"))
            time.sleep(1.5)
            equal("how often it was asked since", len(member.at("after")) - before, 0)
            for action in actions[1:]:
                client.end(action, "cancel")
            wait_until("its journal is archived", lambda: service.ended() == [folders.instance_of(actions[0])])
        audited(setting, service.path(f"ended/{folders.instance_of(actions[0])}.journal"))


def test_members_that_are_still_to_be_told_are_counted(setting):
    """Those of actions that have ended, until they answer or are given up; in a folder and over a file."""
    untold = "lra_members_untold"
    for kind in (Watched, WatchedFolder):
        with kind(setting) as service, Participant() as member, service.client() as client:
            gone = f"http://{HOST}:{free_port()}/after"
            told, open_one, action = client.start(), client.start(), client.start()
            client.join(told, **member.addresses("compensate", "after"))
            client.join(open_one, after=gone)
            recovery = client.join(action, after=gone)
            equal("none while the actions are active", measures(service)[untold], 0)
            client.end(told, "cancel")
            client.end(action, "close")
            member.wait("after")
            wait_until("one is untold", lambda: measures(service)[untold] == 1)
            time.sleep(1.2)
            equal("one still is", measures(service)[untold], 1)
            path = f"/members/{id_of(recovery)}/give-up"
            equal("it is given up", service.ask(path, "POST", json.dumps({"status": "Ended"})).code, 200)
            wait_until("none is untold", lambda: measures(service)[untold] == 0)
            client.end(open_one, "close")
            wait_until("another is", lambda: measures(service)[untold] == 1)
        audited(setting, path_of(service))
        if kind is WatchedFolder:
            continue
        with service:
            wait_until("both are after a restart over a file", lambda: measures(service)[untold] == 2)


def test_a_member_that_was_given_up_is_so_after_a_restart(setting):
    """The folder notes it, so that it is asked no more, and its journal is archived then."""
    folder = WatchedFolder(setting, "--retry-last", "200", *folders.SOON)
    with Participant(lambda request: (200, b"") if request.path == "/compensate" else (500, b"")) as member:
        with folder as service, service.client() as client:
            actions = service.first(3)
            recovery = client.join(actions[0], **member.addresses("compensate", "after"))
            client.end(actions[0], "cancel")
            member.wait("after", 3)
            equal(
                "the code",
                service.ask(f"/members/{id_of(recovery)}/give-up", "POST", json.dumps({"status": "Ended"})).code,
                200,
            )
            time.sleep(UNDER_WAY)
        before = len(member.at("after"))
        with folder as service, service.client() as client:
            time.sleep(1.5)
            equal("how often it was asked since", len(member.at("after")) - before, 0)
            for action in actions[1:]:
                client.end(action, "cancel")
            wait_until("its journal is archived", lambda: service.ended() == [folders.instance_of(actions[0])])


def test_a_member_that_is_given_up_in_a_quiet_journal_lets_it_be_archived(setting):
    """Nothing is written to the journal by that, nor afterwards: all else in it had ended long before."""
    pauses = ("--retry-first", SELDOM, "--retry-last", SELDOM)
    service = WatchedFolder(setting, *pauses, *folders.SOON)
    with (
        Participant(lambda request: (200, b"") if request.path == "/compensate" else (500, b"")) as member,
        service,
        service.client() as client,
    ):
        actions = service.first(3)
        service.wait_for(2)
        # From here on the port knows the journal.
        equal("the status", service.read("/actions/" + id_of(actions[0]))["status"], "Active")
        recovery = client.join(actions[0], **member.addresses("compensate", "after"))
        for action in actions[1:]:
            client.end(action, "cancel")
        client.end(actions[0], "cancel")
        member.wait("after")
        first = folders.instance_of(actions[0])
        path = service.path(first + ".journal")
        time.sleep(LOOKED)
        equal("what is archived before", service.ended(), [])
        before = journal.read(path)
        reply = service.ask(f"/members/{id_of(recovery)}/give-up", "POST", json.dumps({"status": "Ended"}))
        equal("the reply", (reply.code, json.loads(reply.body)), (200, {"status": "Done"}))
        begun = time.monotonic()
        wait_until("it is archived", lambda: service.ended() == [first])
        took = time.monotonic() - begun
        equal("how often it was told", len(member.at("after")), 1)
        equal("what was written since", journal.read(service.path(f"ended/{first}.journal"))[len(before) :], b"")
        audited(setting, service.path(f"ended/{first}.journal"))
    return f"archived after {took:.1f} s"


def last_deeds(path):
    """The deeds of the last entries of a long journal."""
    with open(path, "rb") as it:
        it.seek(-1000, os.SEEK_END)
        return [entry.deed for entry in journal.entries_of(journal.whole(it.read()).partition(b"\n")[2])]


def test_a_member_whose_ask_is_held_back_for_good_is_given_up_and_its_journal_archived(setting):
    """The journal is nearly full, so that a silent member isn't asked again, though the journal has the ask."""
    with Participant(lambda request: (200, b"") if request.path == "/compensate" else (500, b"")) as member:
        folders.nearly_full(setting, member.port, folders.ENTRIES * 15 // 16, member.uri("after"))
        with WatchedFolder(setting, "--remember", "1") as service, service.client() as client:
            service.wait_for(2)
            path = service.path(folders.SEVENTH + ".journal")
            client.end(folders.NEAR, "cancel")
            wait_until("that it is to be asked again", lambda: last_deeds(path)[-2:] == ["reply", "ask"])
            time.sleep(LOOKED)
            equal("how often it was told, and what is archived", (len(member.at("after")), service.ended()), (1, []))
            before = os.path.getsize(path)
            # Its number is the action's, and so is its identifier.
            reply = service.ask(f"/members/{id_of(folders.NEAR)}/give-up", "POST", json.dumps({"status": "Ended"}))
            equal("the reply", (reply.code, json.loads(reply.body)), (200, {"status": "Done"}))
            wait_until("it is archived", lambda: service.ended() == [folders.SEVENTH])
            after = os.path.getsize(service.path(f"ended/{folders.SEVENTH}.journal"))
            equal("how many bytes were written since", after - before, 0)
            equal("how often it was told in all", len(member.at("after")), 1)
    folders.check_sound(service)


def test_what_a_killed_start_left_over_does_no_harm(setting):
    """It was about to replace a file. The next start replaces or removes what it had of that, with and without a port,
    and goes on with what was there."""
    base = ("--base", "http://lra.test/")
    service = WatchedFolder(setting, *base)
    with service:
        action = service.first()[0]
    given_up = b"%d 1 given up\n" % int(folders.instance_of(action), 16)
    journal.write(service.path("given-up"), given_up)
    names = ("given-up", "newest", "base", "restored")
    for left, options in (*(((name,), ()) for name in names), (names, ()), (("restored",), ("--restored",))):
        for kind in (WatchedFolder, folders.Folder):
            service = kind(setting, *base, *options)
            for name in left:
                journal.write(service.path(f"{name}.next"), b"1")
            with service, service.client() as client:
                equal(f"the status beside {left}", client.status(action), "Active")
                equal("what is told", service.told(), "")
                rest = [name for name in left if os.path.exists(service.path(f"{name}.next"))]
                # That of the newest instance is written again before each journal.
                equal("what is left", [name for name in rest if name != "newest"], [])
                check("the instance", int(journal.read(service.path("newest"))) > 1)
                equal("the base", journal.read(service.path("base")), b"http://lra.test/\n")
                equal("who is given up", journal.read(service.path("given-up")), given_up)
                client.start()
    folders.check_sound(service)


def test_a_give_up_needs_a_key_at_a_loopback_address_too(setting):
    with (
        Watched(setting, key=None) as service,
        Participant(lambda request: (202, b"")) as member,
        service.client() as client,
    ):
        action = client.start()
        recovery = client.join(action, **member.addresses("complete", "compensate", "status"))
        client.end(action, "close")
        body = json.dumps({"status": "FailedToComplete"})
        refusal(
            service.ask(f"/members/{id_of(recovery)}/give-up", "POST", body, Content_Type="application/json"),
            403,
            "NeedsKey",
        )
        equal("the status", client.status(action), "Closing")


def basic(key, user="anyone"):
    return "Basic " + base64.b64encode(f"{user}:{key}".encode()).decode()


def test_another_key_is_refused(setting):
    with Watched(setting) as service, service.client() as client:
        action = client.start()
        wrong = [f"Bearer {it}" for it in ("another key", KEY + "s", KEY[:-1], "")]
        wrong += [basic(it) for it in (KEY + "s", KEY[:-1], "")]
        for given in (None, *wrong, "Basic", "Basic ****", "Digest " + KEY, KEY):
            fields = {"Authorization": given} if given else {}
            for path, method in (("/health", "GET"), ("/", "GET"), (f"/actions/{id_of(action)}/cancel", "POST")):
                reply = service.ask(path, method, key=None, **fields)
                refusal(reply, 401, "WrongKey")
                equal("what is asked for", reply.fields["WWW-Authenticate"], 'Basic realm="lra", charset="UTF-8"')
        equal("the status", client.status(action), "Active")


def test_the_key_is_taken_as_a_browser_gives_it(setting):
    with Watched(setting) as service, service.client() as client:
        action = client.start()
        for user in ("", "anyone", "ä"):
            page = service.ask("/", key=None, Authorization=basic(KEY, user))
            equal("the page", (page.code, page.fields["Content-Type"]), (200, "text/html; charset=utf-8"))
        path = f"/actions/{id_of(action)}/cancel"
        refusal(service.ask(path, "POST", "key=", key=None, Authorization=basic(KEY), Content_Type=FORM), 403, "Forged")
        token = re.search(r'name="token" value="([0-9a-f]{32})"', page.body)[1]
        refusal(
            service.ask(
                path, "POST", f"token={token}&key=another", key=None, Authorization=basic(KEY), Content_Type=FORM
            ),
            403,
            "WrongKey",
        )
        equal("nothing is ordered", client.status(action), "Active")
        reply = service.ask(path, "POST", f"token={token}&key=", key=None, Authorization=basic(KEY), Content_Type=FORM)
        equal("the form", (reply.code, reply.fields["Location"]), (303, "/"))
        equal("the status", client.status(action), "Cancelled")


def test_a_forged_form_is_refused(setting):
    with Watched(setting, key=None) as service, service.client() as client:
        action = client.start()
        path = f"/actions/{id_of(action)}/cancel"
        for body in ("", "token=", "token=0123456789abcdef0123456789abcdef"):
            refusal(service.ask(path, "POST", body, Content_Type=FORM), 403, "Forged")
        for host in ("lra.example.org", "localhost.example.org", "127.0.0.1.example.org"):
            refusal(service.ask("/", Host=host), 403, "WrongHost")
        equal("the status", client.status(action), "Active")
        token = re.search(r'name="token" value="([0-9a-f]{32})"', service.ask("/").body)[1]
        reply = service.ask(path, "POST", "token=" + token, Content_Type=FORM)
        equal("the form of the page", (reply.code, reply.fields["Location"]), (303, "/"))
        equal("the status then", client.status(action), "Cancelled")


def test_what_is_not_served_is_refused_by_name(setting):
    with Watched(setting) as service:
        refusal(service.ask("/nothing"), 404, "NoSuchPath")
        for path, method, allowed in (
            ("/health", "POST", "GET"), ("/metrics", "DELETE", "GET"), ("/actions/1/close", "GET", "POST")
        ):
            reply = service.ask(path, method)
            refusal(reply, 405, "BadMethod")
            equal("what is allowed", reply.fields["Allow"], allowed)
        refusal(service.ask("/actions/1/close", "POST"), 404, "NoSuchAction")
        refusal(service.ask("/members/1/give-up", "POST"), 404, "NoSuchMember")


def behind_a_token(kind, setting, key=KEY):
    """A service whose base has a secret, with a port for operators."""
    service = kind(setting, key=key)
    at = service.words.index("serve") + 1
    service.words[at:at] = ["--token", token_file(setting)]
    return service


def check_tells_nothing(service, reply):
    """Fails the test where a reply tells where the service is."""
    text = f"{reply.phrase}{reply.fields}{reply.body}"
    for secret in (TOKEN, service.address, "http://"):
        check(f"{secret!r} stands in {text!r}", secret not in text)


def test_what_is_not_served_is_told_with_the_key_alone(setting):
    """Without it nobody learns the base, which has a secret, nor which paths there are."""
    cases = ({}, {"Host": "lra.example.org"}, {"Authorization": f"Bearer {KEY}s"}, {"Authorization": basic(KEY[:-1])})
    for kind in (Watched, WatchedFolder):
        with behind_a_token(kind, setting) as service:
            base = f"http://{service.address}/{TOKEN}/"
            for method, path, code, allowed in UNSERVED:
                for fields in cases:
                    reply = service.ask(path, method, key=None, **fields)
                    refusal(reply, 401, "WrongKey")
                    equal("what is asked for", reply.fields["WWW-Authenticate"], 'Basic realm="lra", charset="UTF-8"')
                    check(f"what is allowed: {reply}", "Allow" not in reply.fields)
                    check_tells_nothing(service, reply)
                reply = service.ask(path, method)
                equal(f"{method} {path}", (reply.code, reply.fields.get("Allow")), (code, allowed))
                if path.startswith("/page"):
                    equal("the kind", reply.fields["Content-Type"], "text/html; charset=utf-8")
                    check(f"the base in {reply.body!r}", f"<code>{base}</code>" in reply.body)
                else:
                    refusal(reply, code, "NoSuchPath" if code == 404 else "BadMethod")
            page = service.ask("/pagex", key=None, Authorization=basic(KEY))
            equal("a browser that gives the key", (page.code, base in page.body), (404, True))


def test_what_is_not_served_is_told_to_the_machine_s_own_alone_without_a_key(setting):
    for kind in (Watched, WatchedFolder):
        with behind_a_token(kind, setting, None) as service:
            for method, path, code, allowed in UNSERVED:
                reply = service.ask(path, method, Host="lra.example.org")
                refusal(reply, 403, "WrongHost")
                check_tells_nothing(service, reply)
                if allowed != "POST":
                    reply = service.ask(path, method)
                    equal(f"{method} {path}", (reply.code, reply.fields.get("Allow")), (code, allowed))


def test_text_of_others_is_no_markup(setting):
    with Watched(setting) as service, Participant(lambda request: (202, b"")) as member, service.client() as client:
        action = client.start()
        # Where an address with such marks is taken at all, no page has it as it stands.
        for path in ("complete", f"complete?{MARKUP}", "complete?%3Ci%3E%26%22'"):
            client.call(
                "PUT",
                "/lra-coordinator/" + id_of(action),
                complete=member.uri(path),
                compensate=member.uri("compensate" + path[8:]),
            )
        client.end(action, "close")
        reply = service.ask("/page/<script>alert('1')</script>?a&b\"")
        equal("the code", reply.code, 404)
        check("the text", "/page/&lt;script&gt;alert(&#39;1&#39;)&lt;/script&gt;?a&amp;b&quot;" in reply.body)
        for path in ("/", "/page/actions/" + id_of(action)):
            page = service.ask(path)
            equal("the code", page.code, 200)
            policy = page.fields["Content-Security-Policy"]
            check(
                "a policy",
                policy.startswith("default-src 'none'; style-src 'unsafe-inline'; img-src data:; form-action 'self'"),
            )
            check("text of others", "<i>" not in page.body and "<script" not in page.body)
            for place in re.findall(r"&[^;]{0,6};?", page.body):
                check(f"{place!r} is a reference", place in ("&lt;", "&gt;", "&amp;", "&quot;", "&#39;"))


def test_a_service_without_a_key_is_the_machine_s_own(setting):
    words = ("serve", "--operators", f"0.0.0.0:{free_port()}", f"{HOST}:{free_port()}", setting.journal, "1")
    told = setting.run(*words)
    equal(
        "a port of all",
        (told.status, told.output, told.told),
        (2, "", f"lra: no operators at {words[2]}: other machines reach it, and no key is given\n"),
    )
    check("no journal was made", not os.path.exists(setting.journal))


def test_a_port_that_cannot_be_had_is_told(setting):
    def port(address, key=None):
        options = ["--operators-key", key] if key else []
        told = setting.run("serve", "--operators", address, *options, f"{HOST}:{free_port()}", setting.journal, "1")
        equal("the status", (told.status, told.output), (2, ""))
        return told.told.removeprefix(f"lra: no operators at {address}: ").strip()

    equal("no address", port("nowhere"), "the address cannot be served")
    with socket.create_server((HOST, 0)) as taken:
        address = f"{HOST}:{taken.getsockname()[1]}"
        equal("one that is taken", port(address), "the address cannot be served")
    free = f"{HOST}:{free_port()}"
    equal("no file", port(free, setting.folder + "/none"), "the file of the key cannot be read")
    equal("one that others read", port(free, key_file(setting, mode=0o640)), "others may read the file of the key")
    for text in ("", "\n", "two\nlines\n", "é\n", "k" * 1024):
        equal(f"a key of {text!r}", port(free, key_file(setting, text)), "the file of the key has no key")


def test_those_who_are_slow_hold_nobody_up(setting):
    with Watched(setting) as service:
        silent = [service.visitor() for _ in range(100)]
        looks = []
        for _ in range(20):
            begun = time.monotonic()
            check("it is ready", service.is_ready())
            looks.append(time.monotonic() - begun)
        check(f"looks beside silent ones take {looks} s", statistics.median(looks) < 1 and max(looks) < LATE)
        slow = service.visitor()
        text = f"GET /health HTTP/1.1\r\nHost: h\r\nAuthorization: Bearer {KEY}\r\n\r\n".encode()
        for byte in text[:3]:
            slow.sendall(bytes([byte]))
            time.sleep(1)
            check("it is ready", service.is_ready())
        slow.sendall(text[3:])
        check("the slow one is answered", crowds.one_reply(slow)[0].startswith(b"HTTP/1.1 200 "))
        late = service.visitor()
        late.settimeout(PATIENCE)
        begun = time.monotonic()
        equal("one who says nothing is let go", late.recv(1), b"")
        took = time.monotonic() - begun
        check(f"it took {took:.1f} s, wanted 10", 9 < took < 10 + LATE)
        crowds.close_all([*silent, slow, late])
    return f"twenty looks beside a hundred silent visitors in {sum(looks):.2f} s"


def test_a_request_that_is_too_long_is_refused(setting):
    with Watched(setting) as service:
        for head in (
            b"POST /actions/1/close HTTP/1.1\r\nContent-Length: 10000000\r\n\r\n", b"GET /health HTTP/1.1\r\nX: "
        ):
            visitor = service.visitor()
            visitor.sendall(head)
            for _ in range(160):
                try:
                    visitor.sendall(b"x" * 65536)
                except OSError:
                    break
                check("it is ready", service.is_ready())
            reply, body = crowds.one_reply(visitor)
            check(f"{reply!r}", reply.split(b" ")[1] in (b"413", b"400") and b"error" in body)
            visitor.close()


def flood(service, end, counts):
    """Asks for the status of an action again and again, over one connection."""
    with service.client() as client:
        while time.monotonic() < end:
            equal("a status", client.call("GET", "/lra-coordinator/none").code, 404)
            counts.append(1)


def test_a_flood_at_the_front_does_not_blind_who_looks(setting):
    with Watched(setting) as service:
        idle = [service.connect() for _ in range(300)]
        counts, end = [], time.monotonic() + 5
        threads = [threading.Thread(target=flood, args=(service, end, counts), daemon=True) for _ in range(8)]
        for thread in threads:
            thread.start()
        longest = 0
        while time.monotonic() < end:
            begun = time.monotonic()
            check("it is ready", service.is_ready())
            measures(service)
            longest = max(longest, time.monotonic() - begun)
            time.sleep(0.1)
        for thread in threads:
            thread.join(PATIENCE)
        crowds.close_all(idle)
        check(f"the longest look took {longest:.2f} s", longest < LATE)
    return (
        f"{len(counts) / 5:.0f} requests a second at the front, the longest look with a scrape {1000 * longest:.0f} ms"
    )


def look_again(service, end, looks):
    """Asks for a page of actions again and again, which is what takes most to make."""
    while time.monotonic() < end:
        with contextlib.suppress(OSError, http.client.HTTPException):
            equal("a page", service.ask("/actions?limit=1000").code, 200)
            looks.append(1)


def test_a_crowd_of_operators_leaves_the_processors_to_services(setting):
    with Watched(setting) as service, service.client() as client:
        for _ in range(MANY):
            client.start()
        looks, begun, before = [], time.monotonic(), service.seconds()
        threads = [
            threading.Thread(target=look_again, args=(service, begun + 5, looks), daemon=True) for _ in range(16)
        ]
        for thread in threads:
            thread.start()
        for thread in threads:
            thread.join(PATIENCE)
        took, lasted = service.seconds() - before, time.monotonic() - begun
        check("some are answered", len(looks) > 0)
        # a twentieth, and what may be had at once
        check(f"{took:.2f} s of a processor in {lasted:.1f} s", took < 0.25 * lasted)
    return f"{len(looks)} pages of a thousand actions in {lasted:.1f} s took {took:.2f} s of a processor"


def test_many_actions_are_paged(setting):
    with Watched(setting) as service, service.client() as client:
        actions = [client.start() for _ in range(MANY)]
        left = actions[:: MANY // 30]
        for action in actions:
            if action not in left:
                client.end(action, "close")
        begun = time.monotonic()
        seen, path = [], "/actions?limit=1000"
        while path:
            told = service.read(path)
            seen += [it["action"] for it in told["actions"]]
            path = told["next"] and "/actions?limit=1000&from=" + told["next"]
        listed = time.monotonic() - begun
        equal("the actions", seen, [id_of(it) for it in actions])
        begun = time.monotonic()
        page = service.ask("/").body
        paged = time.monotonic() - begun
        equal(
            "those that are left, the oldest first",
            re.findall(r'href="/page/actions/([-0-9a-f]{36})"', page),
            [id_of(it) for it in left],
        )
        counts = {name: it for name, it in measures(service).items() if name.startswith("lra_actions{") and it}
        equal(
            "the counts",
            counts,
            {'lra_actions{state="Active"}': len(left), 'lra_actions{state="Closed"}': MANY - len(left)},
        )
        client.end(left[0], "close")
        wait_until("the next is the oldest", lambda: id_of(left[0]) not in service.ask("/").body)
        client.end(left[1], "cancel")
        wait_until("it is counted", lambda: measures(service)['lra_actions{state="Cancelled"}'] == 1)
    return f"{MANY} actions listed in {listed:.2f} s, the page in {1000 * paged:.0f} ms"
