"""The manifests of examples/kubernetes: they agree with the program, changed ones are refused,
and what is in them is run here."""
import contextlib
import os
import re
import shutil
import subprocess

from load import Caller, Told
from participant import Participant, wait_until
from parts import PlainSite
from proxies import Proxy, put
from service import HOST, LeftOut, check, equal, free_port, id_of

PYTHON = "/usr/bin/python3"
KEY = "a key of the operators"
# What is changed in which manifest, each of which has to be refused.
CHANGES = (
    ("sites.yaml", "- --operators\n", "- --operator\n"),
    ("sites.yaml", "0.0.0.0:9080", "0.0.0.0:9081"),
    ("sites.yaml", "containerPort: 8080", "containerPort: 8081"),
    ("sites.yaml", "/dev/tcp/127.0.0.1/9080", "/dev/tcp/127.0.0.1/8080"),
    ("sites.yaml", '"ready"]', '"steady"]'),
    ("sites.yaml", "/run/lra/key &&", "/run/lra/kay &&"),
    ("sites.yaml", "mountPath: /var/lib/lra\n", "mountPath: /var/lib/else\n"),
    ("sites.yaml", '["ReadWriteOnce"]', '["ReadWriteMany"]'),
    ("sites.yaml", '"4"', '"17"'),
    ("sites.yaml", "replicas: 3", "replicas: 4"),
    ("sites.yaml", "periodSeconds: 10", "periodSecond: 10"),
    (
        "sites.yaml",
        "maxUnavailable: 1\n  selector:\n    matchLabels:\n      app.kubernetes.io/name: lra",
        "maxUnavailable: 1\n  selector:\n    matchLabels:\n      app.kubernetes.io/name: lro",
    ),
    ("services.yaml", "pod-name: lra-1", "pod-name: lra-2"),
    ("services.yaml", "targetPort: operators", "targetPort: operator"),
    ("ingress.yaml", "path: /site/2/", "path: /site/3/"),
    ("ingress.yaml", "name: lra-1", "name: lra-0"),
    ("ingress.yaml", "host: lra.example.com", "host: lra.example.net"),
    ("monitor.yaml", "path: /metrics", "path: /measures"),
    ("monitor.yaml", "name: lra-operators-key", "name: lra-key"),
    ("monitor.yaml", "jobLabel: app.kubernetes.io/name", "jobLabel: app.kubernetes.io/component"),
)


def checked(setting, *folders):
    """What the check says."""
    if subprocess.run([PYTHON, "-c", "import yaml"], capture_output=True, check=False).returncode:
        raise LeftOut("there is no python3-yaml")
    words = [PYTHON, f"{setting.root}/examples/kubernetes/check", setting.program, *folders]
    return subprocess.run(words, capture_output=True, text=True, check=False)


def text_of(setting, name):
    with open(f"{setting.root}/examples/kubernetes/{name}", encoding="utf-8") as it:
        return it.read()


def test_the_manifests_agree_with_the_program(setting):
    told = checked(setting)
    equal("the check", (told.returncode, told.stderr), (0, ""))
    return told.stdout.strip().rpartition("/")[2]


def test_changed_manifests_are_refused(setting):
    """What only the models of python3-kubernetes know is told only where those are."""
    folders = []
    for number, (name, old, new) in enumerate(CHANGES):
        folder = f"{setting.folder}/{number}"
        shutil.copytree(f"{setting.root}/examples/kubernetes", folder)
        text = text_of(setting, name)
        check(f"{old!r} is there", old in text)
        put(f"{folder}/{name}", text.replace(old, new))
        folders.append(folder)
    told = checked(setting, *folders)
    taken = [line.partition(":")[0] for line in told.stdout.splitlines()]
    unknown = [CHANGES[folders.index(it)] for it in taken if "periodSecond:" not in CHANGES[folders.index(it)][2]]
    equal("what was taken", unknown, [])
    equal("what was refused", told.stderr.count("check: "), len(CHANGES) - len(taken))
    return f"{len(CHANGES) - len(taken)} changes"


class Keyed(PlainSite):
    """A site whose operators' port wants a key."""

    def __init__(self, setting, number, base, key):
        super().__init__(setting, number, base)
        self.words[2:2] = ["--operators-key", key]


def key_of(setting):
    """A key as `prepare` puts it, from a file that a group may read."""
    secret = setting.folder + "/secret"
    os.makedirs(secret)
    put(secret + "/key", KEY + "\n")
    os.chmod(secret + "/key", 0o440)
    command = re.search(r'command: \["sh", "-c", "(umask.*?)"\]', text_of(setting, "sites.yaml"))[1]
    for old, new in (("/etc/lra/secret", secret), ("/run/lra", setting.folder), ("/var/lib/lra", setting.folder)):
        command = command.replace(old, new)
    subprocess.run(["sh", "-c", command], check=True)
    equal("the folder's mode", oct(os.stat(setting.folder + "/journals").st_mode & 0o777), oct(0o700))
    return setting.folder + "/key"


def test_the_probes_are_answered(setting):
    """By the script of the manifest and a key that is prepared as it says."""
    key = key_of(setting)
    os.rmdir(setting.folder + "/journals")
    text = re.search(r"  probe: \|\n((?:    .*\n)+)", text_of(setting, "sites.yaml"))[1]
    with Keyed(setting, 0, "http://lra.example.com/", key) as site:
        script = text.replace("9080", site.operators.rpartition(":")[2]).replace("/run/lra/key", key)
        put(setting.folder + "/probe", "".join(line[4:] for line in script.splitlines(True)))
        probe = lambda what: subprocess.run(
            ["bash", setting.folder + "/probe", what], capture_output=True, check=False
        ).returncode
        equal("the probes", [probe(it) for it in ("started", "live", "ready")], [0, 0, 0])
        check("a kind of health that isn't there", probe("well") != 0)
        put(key, "another key\n")
        check("another key", probe("live") != 0)
        site.kill()
        check("a coordinator that is gone", probe("live") != 0)


# A proxy that routes as the Ingress does: by whole parts of paths, which it hands on.
INGRESS = """
daemon off;
pid %(folder)s/nginx.pid;
error_log stderr error;
events { }
http {
    access_log off;
    client_body_temp_path %(folder)s/bodies; proxy_temp_path %(folder)s/replies;
    fastcgi_temp_path %(folder)s/unused; uwsgi_temp_path %(folder)s/unused; scgi_temp_path %(folder)s/unused;
    upstream starts { %(starts)s }
    server { listen %(listener)s; %(sites)s location = /lra-coordinator { proxy_pass http://starts; } }
}
"""


class Ingress(Proxy):
    """nginx by other settings than the example's."""

    def __init__(self, folder, port):
        super().__init__("nginx", folder, port)
        self.coordinators = []

    def write(self):
        starts = " ".join(f"server {it.address};" for it in self.coordinators)
        sites = " ".join(
            f"location /site/{it.number}/ {{ proxy_pass http://{it.address}; }}" for it in self.coordinators
        )
        put(
            self.path(self.name),
            INGRESS % {"folder": self.folder, "listener": self.listener, "starts": starts, "sites": sites},
        )
        put(self.path("starts.conf"), "")


def test_each_site_may_have_a_base_of_its_own(setting):
    """As the manifests have it: a nested start is sent to where its parent's identifier stands, and no proxy looks into
    anything or changes a path."""
    with contextlib.ExitStack() as stack:
        proxy = Ingress(setting.folder + "/proxy", free_port())
        base = f"http://{HOST}:{proxy.port}/site/"
        proxy.coordinators = [
            stack.enter_context(PlainSite(setting, number, f"{base}{number}/")) for number in range(3)
        ]
        member = stack.enter_context(Participant())
        stack.callback(proxy.kill)
        proxy.begin()
        proxy.end_watch()
        caller, sites = Caller(proxy.port, (), 0, Told(), None, keep=False), set()
        for _ in range(6):
            action = caller.ask("POST", "/lra-coordinator").body["lra"]
            site = int(id_of(action)[:4], 16)
            sites.add(site)
            check(f"the action is {action}", action.startswith(f"{base}{site}/lra-coordinator/"))
            nested = caller.ask("POST", path_of(action).rpartition("/")[0], parent=action)
            equal(
                "the nested one", (nested.code, nested.body["lra"].rpartition("/")[0]), (201, action.rpartition("/")[0])
            )
            joined = caller.ask("PUT", path_of(nested.body["lra"]), **member.addresses("compensate", "complete"))
            equal("a join", joined.code, 200)
            equal("the member", caller.ask("GET", path_of(joined.body["recovery"])).body, {"status": "Active"})
            equal("its end", caller.ask("PUT", path_of(action) + "/close").code, 202)
            wait_until(
                "it is closed", lambda action=action: caller.ask("GET", path_of(action)).body["status"] == "Closed"
            )
        equal("the sites", sites, {0, 1, 2})


def path_of(uri):
    """The path of a URI."""
    return "/" + uri.split("/", 3)[3]
