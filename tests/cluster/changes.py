"""Sites are added, drained and replaced under load, with no request failed that a client may not repeat."""
import contextlib
import http.client
import re
import time

from load import CLIENTS_OF, Kept, Load, audited
from participant import Participant, wait_until
from parts import PlainSite
from proxies import Proxy
from service import PATIENCE, check, equal, free_port

# How many starts a site has to take to be seen to take some.
SOME = 20
UNENDED = ("Active", "Closing", "Cancelling")
# A line of the metrics that counts actions.
COUNT = re.compile(r'lra_actions\{state="([A-Za-z]+)"\} ([0-9.]+)')


def unended(site, states=UNENDED):
    """How many actions of a site haven't ended, or are in some states, by its metrics."""
    connection = http.client.HTTPConnection(site.operators, timeout=PATIENCE)
    connection.request("GET", "/metrics")
    lines = connection.getresponse().read().decode().splitlines()
    connection.close()
    found = {it[1]: float(it[2]) for it in map(COUNT.match, lines) if it}
    return sum(found[state] for state in states)


def add(proxy, sites, load, site):
    """A site begins, and then the proxy is told."""
    proxy.change([it.behind() for it in sites])
    wait_until("the new site has taken some starts", lambda: load.starts()[f"{site.number:04x}"] > SOME)


def drain(proxy, sites, load, site):
    """A site takes no outermost starts any more, and goes once all in it has ended."""
    digits = f"{site.number:04x}"
    proxy.change([it.behind(it is not site) for it in sites])
    time.sleep(2)
    before = load.starts()[digits]
    others = sum(load.starts().values())
    wait_until("others have taken some starts", lambda: sum(load.starts().values()) > others + SOME)
    equal("starts that the drained site took", load.starts()[digits], before)
    wait_until("all of the site has ended", lambda: unended(site) == 0)
    # Its actions may be asked for, and are, until the proxy knows it no more.
    sites.remove(site)
    proxy.change([it.behind() for it in sites])
    time.sleep(1)
    site.kill()


def rest(proxy, sites, site):
    """Nothing is sent to a site any more, and its coordinator ends."""
    behind = [it.behind() for it in sites]
    proxy.change(behind)
    time.sleep(1)
    proxy.rest(behind[sites.index(site)])
    time.sleep(1)
    site.kill()


def drain_by_itself(proxy, sites, load, site):
    """A site is started again so that it takes no outermost starts, and ends once all in it has. The proxy is told
    nothing of that: it asks who is ready."""
    rest(proxy, sites, site)
    site.words[2:2] = ["--drain"]
    site.words[site.words.index("--remember") + 1] = "2"
    site.__enter__()
    before = load.starts()[f"{site.number:04x}"]
    proxy.change([it.behind() for it in sites])
    equal("its end", site.process.wait(3 * PATIENCE), 0)
    check("it says so", "is drained" in site.told())
    sites.remove(site)
    proxy.change([it.behind() for it in sites])
    equal("starts that the draining site took", load.starts()[f"{site.number:04x}"], before)


def replace(stack, proxy, sites, load, site, make):
    """A site's folder is served at another address: first it rests, then the old coordinator ends,
    then the new one begins."""
    rest(proxy, sites, site)
    other = stack.enter_context(make(site.number))
    sites[sites.index(site)] = other
    before = load.starts()[f"{site.number:04x}"]
    proxy.change([it.behind() for it in sites])
    wait_until("the site has taken some starts again", lambda: load.starts()[f"{site.number:04x}"] > before + SOME)


def steps(stack, proxy, sites, load, make):
    """What is done to the sites, one after another: a fourth is added, the first drained, the second replaced, and the
    third drains by itself."""
    yield "added", lambda: add(proxy, sites, load, sites[-1])
    yield "drained", lambda: drain(proxy, sites, load, sites[0])
    yield "replaced", lambda: replace(stack, proxy, sites, load, sites[0], make)
    yield "drained by itself", lambda: drain_by_itself(proxy, sites, load, sites[1])


def change(setting, kind):
    with contextlib.ExitStack() as stack:
        members = [stack.enter_context(Participant()) for _ in range(2)]
        proxy = Proxy(kind, f"{setting.folder}/proxy", free_port())

        def make(number):
            return PlainSite(setting, number, f"http://{proxy.listener}/")

        sites = [stack.enter_context(make(number)) for number in (1, 2, 3)]
        stack.callback(proxy.kill)
        proxy.begin([it.behind() for it in sites])
        figures = []
        with Load(proxy.port, members, setting.seed, 6, **{**CLIENTS_OF[kind], "unsent": (503,)}) as load:
            wait_until(
                "each site has taken some starts", lambda: all(load.starts()[f"{it.number:04x}"] > SOME for it in sites)
            )
            sites.append(stack.enter_context(make(4)))
            every = list(sites)
            for name, step in steps(stack, proxy, sites, load, make):
                before = load.told.repeats
                step()
                load.check()
                equal(f"starts that weren't answered while a site was {name}", load.told.unknown, 0)
                figures.append(f"{name} with {load.told.repeats - before} repeats")
        load.check()
        wait_until("what was told to end has ended", lambda: sum(unended(it, UNENDED[1:]) for it in sites) == 0)
        for it in sites:
            it.kill()
    actions = Kept(every).check(load.told)
    check("each answered start is of an action", actions == len(load.told.actions))
    sound = sum(audited(setting.program, site.folder) for site in every)
    return f"{', '.join(figures)}; {actions} actions in {sound} sound journals"


def test_sites_are_added_drained_and_replaced_under_load_behind_haproxy(setting):
    return change(setting, "haproxy")


def test_sites_are_added_drained_and_replaced_under_load_behind_nginx(setting):
    return change(setting, "nginx")
