"""Where a service is: a secret that identifiers begin with, without which nothing is served;
and a port that the system chooses."""
import os
import re

import journal
from bases import BASE, Based, folder_of
from options import serve_by, told_of
from participant import Participant
from service import HOST, Service, check, equal, id_of

TOKEN, OTHER = "c2VjcmV0LXdvcmQtMDE", "YW5vdGhlci13b3JkLTAy"
# Texts that are no tokens: too short, too long, and with what has no place in a path.
OTHERS = (
    "",
    "short",
    "x" * 15,
    "x" * 129,
    "c2VjcmV0/d29yZC0wMQ",
    "c2VjcmV0.d29yZC0wMQ",
    "c2VjcmV0 d29yZC0wMQ",
    "sécret-word-of-mine",
)
NO_PATH = (404, {"error": "NoSuchPath"})


def token_file(setting, text=TOKEN + "\n", mode=0o600):
    """A file with a secret, and its path."""
    path = setting.folder + "/token"
    journal.write(path, text.encode())
    os.chmod(path, mode)
    return path


def answer(client, method, path, **keys):
    """The code and the body of a reply."""
    reply = client.call(method, path, **keys)
    return reply.code, reply.body


def check_token(setting, place):
    """Everything lies behind the secret, and nothing beside it."""
    with (
        Participant() as member,
        Based(setting, place, "--token", token_file(setting)) as service,
        service.client() as client,
    ):
        own = f"http://{service.address}/{TOKEN}/"
        action = client.call("POST", f"/{TOKEN}/lra-coordinator").body["lra"]
        check(f"the action is {action}", action.startswith(own + "lra-coordinator/"))
        for path in ("", "/" + OTHER, "/" + TOKEN[:-1], f"/{TOKEN}x", f"//{TOKEN}", f"/x/{TOKEN}"):
            for method, rest in (
                ("GET", "/lra-coordinator/" + id_of(action)),
                ("POST", "/lra-coordinator"),
                ("DELETE", "/x"),
                ("PUT", f"/lra-coordinator/{id_of(action)}/close"),
            ):
                equal(f"{method} at {path!r}", answer(client, method, path + rest), NO_PATH)
        inside = f"/{TOKEN}/lra-coordinator/{id_of(action)}"
        recovery = client.call(
            "PUT", inside, complete=member.uri("complete"), compensate=member.uri("compensate")
        ).body["recovery"]
        check(f"the member is {recovery}", recovery.startswith(own + "lra-recovery/"))
        equal("a nested start", client.call("POST", f"/{TOKEN}/lra-coordinator", parent=action).code, 201)
        equal(
            "one that names its parent without the secret",
            client.call("POST", f"/{TOKEN}/lra-coordinator", parent=action.replace(TOKEN + "/", "")).code,
            404,
        )
        check("the close", client.call("PUT", inside + "/close").code in (200, 202))
        equal("what the member is told", member.wait("complete")[0].fields["Long-Running-Action"], action)


def test_nothing_is_served_beside_the_token(setting):
    check_token(setting, setting.journal)
    check_token(setting, folder_of(setting))


def test_a_token_stands_behind_a_base(setting):
    with (
        Based(setting, setting.journal, "--base", BASE, "--token", token_file(setting)) as service,
        service.client() as client,
    ):
        for path in (f"/{TOKEN}", f"/shop/{TOKEN}"):
            reply = client.call("POST", path + "/lra-coordinator")
            came = (reply.code, (reply.body.get("lra") or "").startswith(f"{BASE}{TOKEN}/lra-coordinator/"))
            equal(f"a start at {path}", came, (201, True) if path.startswith("/shop") else (404, False))
        equal("a start without it", answer(client, "POST", "/shop/lra-coordinator"), NO_PATH)


def test_what_is_no_token_is_refused_and_told_by_its_file(setting):
    path = token_file(setting)
    check("a check tells the secret", TOKEN not in serve_by(setting, "--check", "--token", path).output)
    equal("the file is told", told_of(setting, "--token", path)["token"], f'"{path}"')
    for text in OTHERS:
        told = serve_by(setting, "--token", token_file(setting, text + "\n"))
        equal(f"a file with {text!r}", told, (2, "", f"lra: {path}: no token of 16 to 128 letters, digits, - and _\n"))
    equal(
        "a file of others",
        serve_by(setting, "--token", token_file(setting, mode=0o640)),
        (2, "", f"lra: {path}: others than its owner may read it\n"),
    )
    os.remove(path)
    equal("no file", serve_by(setting, "--token", path), (2, "", f"lra: cannot read {path}\n"))
    check("a file was made", not os.path.exists(setting.journal))


def test_another_token_is_told_without_it(setting):
    folder = folder_of(setting)
    with Based(setting, folder, "--token", token_file(setting)):
        pass
    service = Based(setting, folder, "--token", token_file(setting, OTHER + "\n"))
    service.begin()
    line = service.first_line()
    service.kill()
    check(
        f"what is told is {line!r}",
        line.startswith("lra: identifiers begin otherwise than they did") and TOKEN not in line and OTHER not in line,
    )


class Chosen(Service):
    """A service whose port the system chooses."""

    def __init__(self, setting, place, *options, host=HOST):
        super().__init__(setting.program, place)
        self.words[2:3] = [*options, host + ":0"]
        self.host = host

    def __enter__(self):
        self.begin()
        line = self.first_line()
        found = re.fullmatch(rf"serving {re.escape(self.host)}:([1-9][0-9]*)\n", line)
        if not found:
            self.kill()
            raise AssertionError(f"the service says {line!r}")
        self.port, self.address = int(found[1]), f"{self.host}:{found[1]}"
        return self


def test_a_port_of_0_is_one_that_the_system_chooses(setting):
    for place in (setting.journal, folder_of(setting)):
        with Chosen(setting, place) as service, service.client() as client:
            action = client.start()
            check(f"the action is {action}", action.startswith(f"http://{service.address}/lra-coordinator/"))
            with (
                Chosen(setting, setting.folder + "/other", "--base", BASE, host="0.0.0.0") as other,
                other.client() as beside,
            ):
                check("two have one port", other.port != service.port)
                check("the base", beside.start().startswith(BASE + "lra-coordinator/"))
        os.remove(setting.folder + "/other")
