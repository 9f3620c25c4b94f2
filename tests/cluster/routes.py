"""What goes to which site: by the first four digits of an identifier, by a parent's URI, by a parent in a body,
and by who is ready."""
import contextlib
import os
import resource
import time
import uuid
from collections import Counter
from unittest import mock

from load import CLIENTS_OF, Caller, Told
from participant import Participant, wait_until
from parts import OPTIONS, PlainSite
from proxies import KEY_FILE, Proxy, Watch, put, sites_of
from service import check, equal, free_port, id_of

BASE = "http://lra.example.com/"
# Sites whose numbers have each digit in each place.
NUMBERS = (0, 1, 0x0123, 0x4567, 0x89AB, 0xCDEF, 0xFFFF)
STARTS = 12


@contextlib.contextmanager
def cluster(setting, kind, numbers=(1, 2, 3), path="", options=OPTIONS):
    """Sites behind a proxy, without leases, at a base with a path or without."""
    with contextlib.ExitStack() as stack:
        proxy = Proxy(kind, f"{setting.folder}/proxy", free_port())
        base = f"http://{proxy.listener}/{path}"
        sites = [stack.enter_context(PlainSite(setting, number, base, options)) for number in numbers]
        for site in sites:
            wait_until("a site is ready", site.is_up)
        stack.callback(proxy.kill)
        proxy.begin([it.behind() for it in sites])
        yield proxy, sites


def caller_of(proxy):
    return Caller(proxy.port, (), 0, Told(), None, **CLIENTS_OF[proxy.kind])


def sites_of_starts(caller):
    """Which sites take some starts."""
    return Counter(id_of(caller.start())[:4] for _ in range(STARTS))


def test_the_first_four_digits_of_an_identifier_are_its_site(setting):
    """Of actions, nested ones and members, from the least number of a site to the greatest."""
    for number in NUMBERS:
        with PlainSite(setting, number, BASE) as site, site.client() as client, Participant() as member:
            action = client.start()
            found = [action, client.start(parent=action), client.join(action, **member.addresses("compensate"))]
            equal(f"the digits of site {number}", {id_of(it)[:4] for it in found}, {f"{number:04x}"})
            equal("the number", {uuid.UUID(id_of(it)).int >> 112 for it in found}, {number})


def route(setting, kind):
    with cluster(setting, kind) as (proxy, sites), Participant() as member:
        caller = caller_of(proxy)
        starts = sites_of_starts(caller)
        equal("the sites that take starts", sorted(starts), ["0001", "0002", "0003"])
        for _ in range(STARTS):
            action = caller.start()
            nested = caller.start(action)
            equal("the nested one's site", id_of(nested)[:4], id_of(action)[:4])
            reply = caller.ask("PUT", f"/lra-coordinator/{id_of(nested)}", **member.addresses("compensate", "complete"))
            recovery = reply.body["recovery"]
            equal(
                "the member",
                (reply.code, recovery.startswith(f"http://{proxy.listener}/lra-recovery/{id_of(action)[:4]}")),
                (200, True),
            )
            equal("its status", caller.ask("GET", f"/lra-recovery/{id_of(recovery)}").body, {"status": "Active"})
            for it in nested, action:
                caller.end(it)
        check_refusals(caller, proxy)
        return f"{dict(sorted(starts.items()))}"


def check_refusals(caller, proxy):
    """What leads to no site, or to none that knows it."""
    nowhere = f"/lra-coordinator/{uuid.UUID(int=9 << 112)}"
    for method in ("GET", "PUT", "POST"):
        reply = caller.ask(method, nowhere)
        equal(f"{method} of no site", (reply.code, reply.body), (404, {"error": "NoSuchSite"}))
    equal(
        "no action of a site",
        caller.ask("GET", f"/lra-coordinator/{uuid.UUID(int=1 << 112)}").body,
        {"error": "NoSuchAction"},
    )
    for parent in (
        "", "x", f"http://{proxy.listener}/lra-coordinator/x", f"http://{proxy.listener}/lra-coordinator/zzzz0000"
    ):
        reply = caller.ask("POST", "/lra-coordinator", parent=parent)
        equal(f"a parent {parent!r}", (reply.code, reply.body), (404, {"error": "NoSuchAction"}))
    equal("no path", caller.ask("GET", "/nowhere").body, {"error": "NoSuchPath"})


def below(setting, kind):
    """The same where the base has a path, which the proxy hands on."""
    with cluster(setting, kind, path="shop/") as (proxy, _), Participant() as member:
        caller = caller_of(proxy)
        for _ in range(STARTS):
            action = caller.ask("POST", "/shop/lra-coordinator").body["lra"]
            at = action.partition(proxy.listener)[2]
            check(f"the action is {action}", at.startswith("/shop/lra-coordinator/"))
            nested = caller.ask("POST", at, parent=action)
            equal("the nested one", (nested.code, id_of(nested.body["lra"])[:4]), (201, id_of(action)[:4]))
            if True in caller.nests and False in caller.nests:
                nested = caller.ask("POST", "/shop/lra-coordinator", parent=action)
                equal("another", (nested.code, id_of(nested.body["lra"])[:4]), (201, id_of(action)[:4]))
            recovery = caller.ask("PUT", at, **member.addresses("compensate")).body["recovery"]
            equal("the member", caller.ask("GET", recovery.partition(proxy.listener)[2]).body, {"status": "Active"})


def test_a_base_may_have_a_path_behind_haproxy(setting):
    below(setting, "haproxy")


def test_a_base_may_have_a_path_behind_nginx(setting):
    below(setting, "nginx")


def test_sites_whose_operators_ask_for_a_key_take_starts_behind_haproxy(setting):
    """HAProxy takes a site for ready until it was asked twice in vain, which is within a second or two."""
    key = setting.folder + "/operators"
    put(key, "it's 100% a key\n", is_secret=True)
    options = (*OPTIONS, "--operators-key", key)
    with mock.patch.dict(os.environ, {KEY_FILE: key}), cluster(setting, "haproxy", options=options) as (proxy, sites):
        equal("the settings' mode", oct(os.stat(proxy.path(proxy.name)).st_mode & 0o777), oct(0o600))
        time.sleep(3)
        starts = sites_of_starts(caller_of(proxy))
        equal("the sites that take starts", sorted(starts), ["0001", "0002", "0003"])
        del os.environ[KEY_FILE]
        check("a site is ready without the key", not any(it.is_up() for it in sites))


def test_who_looks_for_nginx_goes_on_where_the_key_cannot_be_read_for_a_while(setting):
    path, key = setting.folder + "/starts.conf", setting.folder + "/operators"
    put(path, "# as it was\n")
    watch = Watch(path, sites_of(["1=127.0.0.1:1,127.0.0.1:2"]), lambda: 0)
    with mock.patch.dict(os.environ, {KEY_FILE: key}):
        for text in (None, "", "\n"):
            if text is not None:
                put(key, text, is_secret=True)
            check("nothing changes", not watch.look())
            with open(path, encoding="ascii") as it:
                equal("the file", it.read(), "# as it was\n")
        put(key, "a key\n", is_secret=True)
        check("it changes then", watch.look())


def test_what_names_an_identifier_goes_to_its_site_behind_haproxy(setting):
    return route(setting, "haproxy")


def test_what_names_an_identifier_goes_to_its_site_behind_nginx(setting):
    return route(setting, "nginx")


def full(setting, kind):
    """A site whose disk is full takes no starts, and its actions are read."""
    with cluster(setting, kind) as (proxy, sites):
        caller, site = caller_of(proxy), sites[0]
        with site.client() as client:
            action = client.start()
            most = os.path.getsize(site.path(max(site.journals()) + ".journal"))
            resource.prlimit(site.process.pid, resource.RLIMIT_FSIZE, (most, resource.RLIM_INFINITY))
            equal("a start", client.call("POST", "/lra-coordinator").code, 503)
        wait_until("it isn't ready", lambda: not site.is_up())
        wait_until(
            "the proxy knows", lambda: all(caller.ask("POST", "/lra-coordinator").code == 201 for _ in range(STARTS))
        )
        equal("the sites that take starts", sorted(sites_of_starts(caller)), ["0002", "0003"])
        equal("the action", caller.ask("GET", f"/lra-coordinator/{id_of(action)}").body["status"], "Active")


def test_a_site_that_is_not_ready_takes_no_starts_behind_haproxy(setting):
    full(setting, "haproxy")


def test_a_site_that_is_not_ready_takes_no_starts_behind_nginx(setting):
    full(setting, "nginx")
