"""Parts of a cluster are killed at random under load, and started again: nothing is lost that was answered."""
import contextlib
import os
import random
import signal
import time
from collections import Counter

from load import CLIENTS_OF, Caller, Kept, Load, audited
from participant import Participant, wait_until
from parts import Cluster
from service import PATIENCE, check

# How long a cluster is called until the next part is killed, in seconds.
SHORTEST, LONGEST = 0.3, 1.5
# How many starts have to be answered meanwhile.
SOME = 5
# How often which part is killed, of ten times.
PARTS = (
    "coordinator", "coordinator", "coordinator", "coordinator", "holder", "parent", "proxy", "proxy", "etcd", "etcd"
)
CLIENTS = 6


def kill(cluster, part, chance):
    """Kills a part at once, and has it start again: what runs by a lease by the supervisor, the others here."""
    if part in ("proxy", "etcd"):
        it = getattr(cluster, part)
        it.kill()
        time.sleep(chance.uniform(0, 0.5))
        it.begin()
    else:
        wait_until("a coordinator is there", lambda: any(process_of(it, part) for it in cluster.sites))
        found = [process for it in cluster.sites if (process := process_of(it, part))]
        with contextlib.suppress(ProcessLookupError):
            os.kill(chance.choice(found), signal.SIGKILL)


def process_of(site, part):
    """The process of a site that is a part, if it has a coordinator: that, its parent, or what renews the lease."""
    if holder := site.holder():
        return {"coordinator": holder.program, "holder": lambda: holder.process.pid, "parent": holder.parent}[part]()
    return None


def wait_for_answers(cluster, load, count):
    """Waits until clients have been answered so many starts."""
    try:
        wait_until("clients are answered", lambda: len(load.told.actions) > count, 6 * PATIENCE)
    except AssertionError as fault:
        raise AssertionError(f"{fault}: {load.told.faults[:3]} {cluster.told()}") from fault


def settle(cluster, kept):
    """All that nobody has told to end is cancelled, and all has ended."""
    caller = Caller(cluster.proxy.port, (), 0, None, None, keep=False)
    for action in list(kept.open()):
        reply = caller.ask("PUT", f"/lra-coordinator/{action}/cancel")
        check(f"a cancel: {reply}", reply.code in (200, 202, 412))
    wait_until("all has ended", lambda: not unended(kept), 3 * PATIENCE)


def unended(kept):
    """The actions that haven't ended."""
    found = set()
    for _, name, entries in kept.entries():
        found |= {(name, it.fields[0]) for it in entries if it.deed == "start"}
        found -= {(name, it.fields[0]) for it in entries if it.deed == "end"}
    return found


def kill_parts(setting, kind, kills, seed):
    chance, killed = random.Random(f"{seed} {kind}"), Counter()
    with contextlib.ExitStack() as stack:
        members = [stack.enter_context(Participant()) for _ in range(2)]
        cluster = stack.enter_context(Cluster(setting, kind))
        kept = Kept(cluster.sites)
        with Load(cluster.proxy.port, members, seed, CLIENTS, **CLIENTS_OF[kind]) as load:
            for _ in range(kills):
                before = len(load.told.actions)
                time.sleep(chance.uniform(SHORTEST, LONGEST))
                wait_for_answers(cluster, load, before + SOME)
                part = chance.choice(PARTS)
                killed[part] += 1
                kill(cluster, part, chance)
                cluster.check_alone()
                kept.look()
                load.check()
            cluster.wait()
            time.sleep(1)
        load.check()
        cluster.wait()
        settle(cluster, kept)
        kept.look()
    actions = kept.check(load.told)
    sound = sum(audited(setting.program, site.folder) for site in cluster.sites)
    told = load.told
    check(
        f"{actions} actions, {len(told.actions)} answered, {told.unknown} not",
        actions <= len(told.actions) + told.unknown,
    )
    parts = ", ".join(f"{part} {count}" for part, count in sorted(killed.items()))
    answered = f"{len(told.actions)} starts, {len(told.members)} joins and {len(told.ends)} ends were answered"
    return (
        f"{parts}; {answered}, {told.unknown} starts weren't, {told.repeats} repeats; "
        f"{actions} actions in {sound} sound journals"
    )


def test_nothing_answered_is_lost_where_parts_are_killed_behind_haproxy(setting):
    return kill_parts(setting, "haproxy", setting.kills, setting.seed)


def test_nothing_answered_is_lost_where_parts_are_killed_behind_nginx(setting):
    return kill_parts(setting, "nginx", max(setting.kills // 4, 5), setting.seed)

