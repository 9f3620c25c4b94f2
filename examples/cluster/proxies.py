"""Proxies in front of several sites: their settings, how they begin, and how they take a site in or leave one out."""
import contextlib
import http.client
import os
import signal
import socket
import subprocess
import sys
import threading
import time

HERE = os.path.dirname(os.path.abspath(__file__))
HOST = "127.0.0.1"
# Each proxy's file of settings here, and how it is started by it. HAProxy has a master that stays, and one worker after
# another.
PROXIES = {"haproxy": ("haproxy.cfg", ["haproxy", "-W", "-f"]), "nginx": ("nginx.conf", ["nginx", "-c"])}
# By which signal a proxy reads its settings anew.
RELOADS = {"haproxy": signal.SIGUSR2, "nginx": signal.SIGHUP}
# How many seconds a proxy has until somebody listens.
SECONDS = 10
# What names the file of the operators' key, where their ports ask for one.
KEY_FILE = "LRA_OPERATORS_KEY"


class Site:
    """What a proxy has to know of a site: its number, where its servers are with their operators' ports, whether it
    takes outermost starts, and whether it rests: then nothing is sent to it. There are several servers where a lease
    says which of them is up."""

    def __init__(self, number, servers, takes_starts=True, rests=False):
        self.digits = f"{number:04x}"
        self.servers = servers
        self.takes_starts = takes_starts and not rests
        self.rests = rests

    def words(self):
        """What is put in for each of its servers."""
        for place, (address, operators) in enumerate(self.servers):
            checked, _, port = operators.rpartition(":")
            yield {
                "SITE": self.digits,
                "NAME": self.name(place),
                "ADDRESS": address,
                "CHECKED": checked,
                "PORT": port,
                "RESTS": " disabled" if self.rests else "",
            }

    def name(self, place):
        return f"site_{self.digits}_{place}"


def sites_of(words):
    """The sites that words like `1=10.0.0.1:8080,10.0.0.1:9080` say. A number that is given twice has two servers; one
    with `-` behind it takes no outermost starts, and one with `--` rests."""
    sites = {}
    for word in words:
        name, _, servers = word.partition("=")
        number = name.rstrip("-")
        address, _, operators = servers.partition(",")
        if not number.isdecimal() or int(number) > 65535 or ":" not in address or ":" not in operators:
            sys.exit(f"cluster: {word} isn't NUMBER=ADDRESS,OPERATORS")
        site = sites.setdefault(int(number), Site(int(number), [], not name.endswith("-"), name.endswith("--")))
        site.servers.append((address, operators))
    return list(sites.values())


def behind(kind, sites, words):
    """The words that a section is repeated with: for each site, each that rests, each server of one site, or each of
    all sites that take outermost starts."""
    if kind in ("site", "resting"):
        return [{"SITE": site.digits} for site in sites if kind == "site" or site.rests]
    if kind == "server":
        return [it for site in sites if site.digits == words["SITE"] for it in site.words()]
    return [it for site in sites if site.takes_starts for it in site.words()]


def filled(lines, sites, words):
    """These lines with the words put in, and each section repeated."""
    lines = iter(lines)
    for line in lines:
        if line.strip().startswith("#each "):
            section = list(section_of(lines))
            for more in behind(line.split()[1], sites, words):
                yield from filled(section, sites, {**words, **more})
        else:
            for word, value in words.items():
                line = line.replace(f"@{word}@", value)
            yield line


def section_of(lines):
    """The lines up to the end of the section that has begun."""
    depth = 1
    for line in lines:
        depth += line.strip().startswith("#each ")
        depth -= line.strip() == "#end"
        if depth == 0:
            return
        yield line


class KeyFault(SystemExit):
    """The file of the operators' key has none, or can't be read. Where nobody catches it, the program ends so."""


def authorization():
    """What the operators' ports are given as `Authorization`, or nothing where they ask for no key."""
    path = os.environ.get(KEY_FILE)
    if not path:
        return ""
    try:
        with open(path, encoding="ascii") as it:
            key = it.read().rstrip("\r\n")
    except (OSError, ValueError) as fault:
        raise KeyFault(f"cluster: {KEY_FILE}: {path} can't be read: {fault}") from None
    if not key or not key.isprintable():
        raise KeyFault(f"cluster: {KEY_FILE}: {path} has no key on one line")
    return "Bearer " + key


def header(value):
    """A check's header for HAProxy, whose quotes and formats leave the value as it is."""
    spelled = value.replace("%", "%%").replace("'", r"'\''")
    return f" hdr Authorization '{spelled}'" if value else ""


def settings(kind, folder, listener, sites):
    """A proxy's settings for these sites. HAProxy's have the operators' key, if there is one."""
    words = {"FOLDER": folder, "LISTENER": listener, "AUTHORIZATION": header(authorization())}
    with open(f"{HERE}/{PROXIES[kind][0]}", encoding="ascii") as template:
        return "".join(filled(template, sites, words))


def is_ready(operators, seconds=1):
    """Whether a coordinator says at its operators' port that it is ready."""
    value = authorization()
    connection = http.client.HTTPConnection(operators, timeout=seconds)
    try:
        connection.request("GET", "/health/ready", headers={"Authorization": value} if value else {})
        return connection.getresponse().status == 200
    except (OSError, http.client.HTTPException):
        return False
    finally:
        connection.close()


def upstream(sites, ready=is_ready):
    """The servers that take outermost starts, as nginx has them in a file of their own. Where none is ready all are
    tried."""
    servers = [it for site in sites if site.takes_starts for it in site.servers]
    up = [it for it in servers if ready(it[1])] or servers
    return "".join(f"server {it[0]} max_fails=1 fail_timeout=1s{'' if it in up else ' down'};\n" for it in servers)


def put(path, text, is_secret=False):
    """Writes a file in one go, which its owner alone may read where it is secret."""
    with open(path + ".next", "w", encoding="ascii") as it:
        if is_secret:
            os.fchmod(it.fileno(), 0o600)
        it.write(text)
    os.replace(path + ".next", path)


class Watch(threading.Thread):
    """Looks each half second which sites are ready, and has nginx know it: nginx itself asks nobody."""

    def __init__(self, path, sites, pid, pause=0.5):
        super().__init__(daemon=True)
        self.path, self.sites, self.pid, self.pause = path, sites, pid, pause
        self.over = threading.Event()

    def look(self):
        """Writes the servers where they have changed, and answers whether they have. While the key can't be read, as
        where its file is just being written, nobody can be asked, and all stays."""
        try:
            text = upstream(self.sites)
        except KeyFault:
            return False
        with open(self.path, encoding="ascii") as it:
            if it.read() == text:
                return False
        put(self.path, text)
        return True

    def run(self):
        while not self.over.wait(self.pause):
            if self.look():
                with contextlib.suppress(OSError, ValueError):  # nginx isn't there: it reads them when it begins
                    os.kill(self.pid(), signal.SIGHUP)

    def end(self):
        self.over.set()
        self.join()


class Proxy:
    """A proxy that runs in a folder."""

    def __init__(self, kind, folder, port):
        self.kind, self.folder, self.listener = kind, folder, f"{HOST}:{port}"
        self.name, self.words = PROXIES[kind]
        self.port = port
        self.process = self.watch = None
        self.sites = []

    def path(self, name):
        return f"{self.folder}/{name}"

    def write(self):
        text = settings(self.kind, self.folder, self.listener, self.sites)
        put(self.path(self.name), text, is_secret=bool(authorization()))
        if self.kind == "nginx":
            put(self.path("starts.conf"), upstream(self.sites))

    def begin(self, sites=None):
        """Starts the proxy in front of some sites, or of those that it had, in a group of processes of its own, and
        answers once somebody listens."""
        self.sites = sites or self.sites
        os.makedirs(self.folder, exist_ok=True)
        self.write()
        self.process = subprocess.Popen(
            [*self.words, self.path(self.name)],
            start_new_session=True,
            stdin=subprocess.DEVNULL,
            stderr=subprocess.DEVNULL,
        )
        self.wait()
        if self.kind == "nginx":
            self.watch = Watch(self.path("starts.conf"), self.sites, lambda: self.process.pid)
            self.watch.start()

    def wait(self):
        end = time.monotonic() + SECONDS
        while time.monotonic() < end:
            with socket.socket() as probe:
                if probe.connect_ex((HOST, self.port)) == 0:
                    return
            time.sleep(0.02)
        self.kill()
        sys.exit(f"cluster: {self.kind} doesn't listen at {self.listener}")

    def change(self, sites):
        """Has the proxy take other sites, while it goes on."""
        self.end_watch()
        self.sites = sites
        self.write()
        self.process.send_signal(RELOADS[self.kind])
        if self.kind == "nginx":
            self.watch = Watch(self.path("starts.conf"), self.sites, lambda: self.process.pid)
            self.watch.start()

    def rest(self, site):
        """Has the proxy send nothing more to a site, and answer 503 for it. What was sent is waited for."""
        site.rests, site.takes_starts = True, False
        if self.kind == "nginx":
            return self.change(self.sites)
        self.write()
        for place in range(len(site.servers)):
            for backend in ("starts", f"site_{site.digits}"):
                self.command(f"set server {backend}/{site.name(place)} state maint")

    def command(self, text):
        """Gives HAProxy a command. (A reload would leave clients' kept connections to what it was told before.)"""
        with socket.socket(socket.AF_UNIX) as it:
            it.connect(self.path("haproxy.socket"))
            it.sendall(text.encode() + b"\n")
            while it.recv(4096):
                pass

    def end_watch(self):
        if self.watch:
            self.watch.end()
            self.watch = None

    def kill(self):
        """Ends all its processes at once."""
        self.end_watch()
        if self.process:
            os.killpg(self.process.pid, signal.SIGKILL)
            self.process.wait()
            self.process = None
