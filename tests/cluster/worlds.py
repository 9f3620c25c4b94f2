"""Bad worlds of several sites: one folder by two names, a start that a proxy repeats, a site that is down, clocks that
differ, and a folder from a backup."""
import contextlib
import os
import shutil
import signal
import subprocess
import time

import journal
from folders import check_sound, instance_of
from leases import without_locks
from load import audited, identifier
from participant import Participant, wait_until
from parts import OPTIONS, PlainSite
from proxies import Proxy
from routes import caller_of, cluster
from service import HOST, PATIENCE, LeftOut, check, equal, free_port, id_of

BASE = "http://lra.example.com/"
HOUR = 3600


@contextlib.contextmanager
def two_names(folder):
    """A folder's other name. Not everybody may give one."""
    other = folder + "-by-another-name"
    os.makedirs(other)
    if subprocess.run(["mount", "--bind", folder, other], capture_output=True, check=False).returncode:
        raise LeftOut("a folder can't be had by two names")
    try:
        yield other
    finally:
        subprocess.run(["umount", other], check=False)


def test_one_folder_by_two_names_is_locked(setting):
    with PlainSite(setting, 1, BASE) as site, two_names(site.folder) as other:
        told = setting.run("serve", "--site", "1", f"{HOST}:{free_port()}", other, "1")
        equal("the second", (told.status, told.told), (2, f"lra: cannot write {other}\n"))
        site.first()


def test_where_each_lock_is_had_one_that_follows_tells_of_two_writers(setting):
    """Two coordinators by two names, both with the lock. `lra follow` beside them ends at the first line that can't
    be."""
    front = without_locks(setting)
    with PlainSite(setting, 1, BASE, front=front) as site, two_names(site.folder) as other:
        second = PlainSite(setting, 1, BASE, front=front)
        second.folder = second.words[-2] = other
        follow = subprocess.Popen(
            [setting.program, "follow", site.folder], stdin=subprocess.DEVNULL, stdout=subprocess.PIPE, text=True
        )
        try:
            with second:
                actions = [it.first()[0] for _ in range(3) for it in (site, second)]
                told, _ = follow.communicate(timeout=PATIENCE)
        finally:
            follow.kill()
            follow.wait()
        equal("the status", follow.returncode, 1)
        check(f"it says {told}", " unsound line " in told)
        check("no identifier was given twice", len(set(actions)) < len(actions))
    return told.splitlines()[-1]


class Slow:
    """A process that stands still, until it is let go on."""

    def __init__(self, process):
        self.process = process

    def __enter__(self):
        self.process.send_signal(signal.SIGSTOP)
        return self

    def __exit__(self, *_):
        self.process.send_signal(signal.SIGCONT)


def next_site(caller, sites):
    """The site that takes the next start: they take turns."""
    last = id_of(caller.start())[:4]
    return next(it for it in sites if f"{it.number:04x}" != last)


def starts_of(site):
    """The starts that the journals of a site have."""
    return [
        it for name in site.journals() for it in journal.entries(site.path(name + ".journal")) if it.deed == "start"
    ]


def test_a_proxy_that_repeats_a_start_leaves_an_action_that_nobody_knows(setting):
    """nginx told so, by `non_idempotent`: the first site is slow, the second answers, and the first carries it out too.
    Its limit ends it."""
    settings = (
        (
            "proxy_next_upstream error timeout;",
            "proxy_next_upstream error timeout non_idempotent; proxy_read_timeout 3s;",
        ),
    )
    with cluster(setting, "nginx", (1, 2)) as (proxy, sites):
        change(proxy, settings)
        caller = caller_of(proxy)
        first = next_site(caller, sites)
        before = {site.number: len(starts_of(site)) for site in sites}
        with Slow(first.process):
            reply, _ = caller.once("POST", "/lra-coordinator", {"limit": 5000})
            equal("the reply", reply.code, 201)
        wait_until("both have started one", lambda: all(len(starts_of(it)) == before[it.number] + 1 for it in sites))
        check("the slow one's is known", id_of(reply.body["lra"])[:4] != f"{first.number:04x}")
        unknown = identifier_of(first)
        wait_until(
            "its limit ends it", lambda: caller.ask("GET", f"/lra-coordinator/{unknown}").body["status"] == "Cancelled"
        )
        listed = setting.run("list", first.path(max(first.journals()) + ".journal"))
        check(f"it isn't listed: {listed}", f" {unknown} Cancelled " in listed.output)


def identifier_of(site):
    """The last action that a site has started."""
    name = max(site.journals())
    return identifier(name, starts_of(site)[-1].fields[0])


def change(proxy, settings):
    """Other settings than the example's."""
    proxy.end_watch()
    path = proxy.path(proxy.name)
    text = journal.read(path).decode()
    for old, new in settings:
        check(f"{old} is there", old in text)
        text = text.replace(old, new)
    journal.write(path, text.encode())
    proxy.process.send_signal(signal.SIGHUP)
    time.sleep(1)


def test_a_proxy_as_in_the_example_sends_no_start_twice(setting):
    settings = (("proxy_connect_timeout 1s;", "proxy_connect_timeout 1s; proxy_read_timeout 3s;"),)
    with cluster(setting, "nginx", (1, 2)) as (proxy, sites):
        change(proxy, settings)
        caller = caller_of(proxy)
        first = next_site(caller, sites)
        before = sum(len(starts_of(site)) for site in sites)
        with Slow(first.process):
            equal("the reply", caller.once("POST", "/lra-coordinator", {}), (None, False))
        wait_until("it was started", lambda: sum(len(starts_of(it)) for it in sites) == before + 1)
        time.sleep(1)
        equal("how often", sum(len(starts_of(it)) for it in sites), before + 1)


def test_a_member_reports_to_a_site_that_is_down_until_it_is_there_again(setting):
    with cluster(setting, "haproxy") as (proxy, sites), Participant(lambda _: (202, b"")) as member:
        caller, site = caller_of(proxy), sites[1]
        action = next(it for it in iter(caller.start, None) if id_of(it)[:4] == "0002")
        recovery = caller.ask(
            "PUT", f"/lra-coordinator/{id_of(action)}", **member.addresses("compensate", "complete")
        ).body["recovery"]
        equal("its end", caller.ask("PUT", f"/lra-coordinator/{id_of(action)}/close").code, 202)
        member.wait("complete")
        site.kill()
        report = lambda: caller.once("PUT", f"/lra-recovery/{id_of(recovery)}", {"status": "Completed"})[0]
        refused, begun = 0, time.monotonic()
        while time.monotonic() < begun + 3:
            equal("a report", report(), None)
            equal("others", caller.ask("POST", "/lra-coordinator").code, 201)
            refused += 1
            time.sleep(0.3)
        with again(site):
            wait_until("the report is taken", lambda: (it := report()) and it.code == 200)
            wait_until(
                "it has ended",
                lambda: caller.ask("GET", f"/lra-coordinator/{id_of(action)}").body["status"] == "Closed",
            )
    audited(setting.program, site.folder)
    return f"{refused} reports weren't taken"


@contextlib.contextmanager
def again(site):
    """A site that was killed, at its address."""
    with site:
        wait_until("it is ready", site.is_up)
        yield site


def clock_ahead(setting, seconds):
    """What a program is run by so that its clock is ahead."""
    return ("env", f"SHIM_CLOCK={seconds}", without_locks(setting)[2])


def test_clocks_of_sites_may_differ_by_hours(setting):
    """Three sites, whose clocks are right, an hour ahead and an hour behind; then each has another clock. Limits last
    as long as they should."""
    with contextlib.ExitStack() as stack:
        proxy = Proxy("haproxy", f"{setting.folder}/proxy", free_port())
        fronts = {seconds: clock_ahead(setting, seconds) for seconds in (0, HOUR, -HOUR)}
        told, folders = [], []
        for clocks in ((0, HOUR, -HOUR), (HOUR, -HOUR, 0)):
            with contextlib.ExitStack() as run:
                sites = [
                    run.enter_context(PlainSite(setting, number, f"http://{proxy.listener}/", front=fronts[it]))
                    for number, it in enumerate(clocks, 1)
                ]
                for it in sites:
                    wait_until("a site is ready", it.is_up)
                run.callback(proxy.kill)
                proxy.begin([it.behind() for it in sites])
                told += limits(caller_of(proxy))
                folders = [it.folder for it in sites]
        stack.close()
    equal("the identifiers", len({action for action, _ in told}), len(told))
    for folder in folders:
        audited(setting.program, folder)
    taken = sorted(seconds for _, seconds in told)
    check(f"limits of 1 s lasted {taken}", 1 <= taken[0] and taken[-1] < 4)
    return f"limits of 1 s lasted {taken[0]:.1f} to {taken[-1]:.1f} s"


def limits(caller):
    """Actions with a limit, some nested, and how many seconds each lasted."""
    begun, actions = time.monotonic(), []
    for _ in range(6):
        since = time.monotonic()
        action = caller.ask("POST", "/lra-coordinator", limit=1000).body["lra"]
        actions += [(action, since), (caller.start(action), since)]
    ended = {}
    while len(ended) < len(actions):
        check("limits pass", time.monotonic() < begun + PATIENCE)
        for action, since in actions:
            if (
                action not in ended
                and caller.ask("GET", f"/lra-coordinator/{id_of(action)}").body["status"] != "Active"
            ):
                ended[action] = time.monotonic() - since
        time.sleep(0.02)
    return [(action, ended[action]) for action, _ in actions[::2]]


def backup_of(site, to):
    """A backup of a folder in use, as docs/use/operating.md has it."""
    os.makedirs(to)
    for name in site.journals():
        journal.write(f"{to}/{name}.journal", journal.whole(journal.read(site.path(name + ".journal"))))
    shutil.copy(site.path("newest"), to)


def restored(setting, *options):
    """A folder from a backup is served in the place of a later one, with these options. Answers the actions of the
    backup, those that are lost, new ones, and what a join of an older action and a start nested in one are answered,
    beside a lost member."""
    backup = setting.folder + "/backup"
    with PlainSite(setting, 1, BASE) as site, Participant() as member, site.client() as client:
        kept = site.first(2)
        backup_of(site, backup)
        lost = site.first(3)
        joined = client.join(kept[0], **member.addresses("compensate"))
        site.kill()
    shutil.rmtree(site.folder)
    shutil.copytree(backup, site.folder)
    with PlainSite(setting, 1, BASE, options=[*OPTIONS, *options]) as other, other.client() as client:
        found = {client.call("GET", f"/lra-coordinator/{id_of(it)}").code for it in lost}
        equal("what was lost", found, {404})
        equal("what was kept", {client.status(it) for it in kept}, {"Active"})
        new = other.first(3)
        again = client.call("PUT", f"/lra-coordinator/{id_of(kept[0])}", compensate="http://another.test/")
        nested = client.call("POST", "/lra-coordinator", parent=kept[0])
        other.kill()
    check_sound(other)
    return kept, lost, new, joined, again, nested


def test_a_folder_from_a_backup_gives_identifiers_again(setting):
    """Nothing tells it: the journal is sound, and a client that has a lost identifier meets another's action."""
    _, lost, new, joined, again, nested = restored(setting)
    equal("the new identifiers", new, lost)
    equal("a member's", again.body["recovery"], joined)
    equal("a nested start", nested.code, 201)


def test_a_folder_that_is_said_to_be_restored_gives_no_identifier_again(setting):
    kept, lost, new, _, again, nested = restored(setting, "--restored")
    equal("identifiers that were given twice", set(map(id_of, new)) & set(map(id_of, lost + kept)), set())
    check("the new ones are of a later journal", min(map(instance_of, new)) > max(map(instance_of, lost)))
    equal("what is begun in an older one", [(it.code, it.body["error"]) for it in (again, nested)], [(503, "Full")] * 2)
