"""Who may call: keys, which may change while the service runs, and the names by which it is called, in the requests and
in the pages that make them."""
import hashlib
import http.client
import json
import os
import re

import journal
from bases import Based, folder_of
from crowds import refused_starts
from folders import SOON, Folder, instance_of
from operators import WatchedFolder, measures
from options import config, serve_by, told_of
from participant import Participant, wait_until
from service import HOST, PATIENCE, Client, Reply, check, equal, id_of, is_ready

SHOP, TILL, FORMER = "c2hvcA.4711", "dGlsbA~0815", "Zm9ybWVy"
# Values of Authorization that give no key of SHOP and TILL.
STRANGERS = (
    None,
    "",
    "Bearer",
    "Bearer " + FORMER,
    "Bearer " + SHOP[:-1],
    f"Bearer {SHOP}x",
    f"Bearer  {SHOP}",
    f"Basic {SHOP}",
    SHOP,
    f"Bearer {SHOP} {TILL}",
)
# The bytes that a file of keys may have.
LONGEST = 65_536
# Texts that are names, and texts that are none.
NAMES = ("lra.example.com", "LRA.example.com:8080", "192.0.2.1", "[::1]", "[::1]:8080")
OTHERS = (
    *(
        "",
        "http://lra.example.com",
        "lra.example.com/",
        "*.example.com",
        "lra.example.com:",
        "lra.example.com:http",
        "lra.example.com:655360",
        "lra.example.com:80:90",
    ),
    *(":8080", "::1", "[::1", "::1]", "[[::1]]", "[::1]]", "[]::1", "lra example com"),
)
# The digests of `abc` (FIPS 180-4's example) and of nothing.
ABC, NOTHING = (
    "ba7816bf8f01cfea414140de5dae2223b00361a396177a9cb410ff61f20015ad",
    "e3b0c44298fc1c149afbf4c8996fb92427ae41e4649b934ca495991b7852b855",
)
# Texts of a file of keys, a secret, and whether that is known by it.
FILES = (
    (f"shop {ABC}", "abc", True),
    (f"shop    {ABC.upper()}\n", "abc", True),
    (f"# shop\n\ntill {NOTHING}\nshop {ABC}", "abc", True),
    (f"# shop\n\ntill {NOTHING}\nshop {ABC}", "ab", False),
    (f"shop {ABC}", "abcd", False),
    (f"shop {ABC}", "", False),
    (f"#shop {ABC}", "abc", False),
    ("", "abc", False),
    ("#" * 65_536, "abc", False),
)
# Texts of which a line is no key, and the line's number.
NO_KEYS = (
    ("# shop\n\nshop", 3),
    (f"shop {ABC[:-1]}", 1),
    (f"shop {ABC}0", 1),
    (f"shop {ABC} ", 1),
    (f"shop {ABC[:-1]}g", 1),
    (ABC, 1),
    (f" {ABC}", 1),
    (f"shop till {ABC}", 1),
    (f"shop {ABC}\n\ntill", 3),
)


def key_line(name, secret):
    """A line of a file of keys."""
    return f"{name} {hashlib.sha256(secret.encode()).hexdigest()}\n"


KEYS = "# Who may call\n\n" + key_line("shop", SHOP) + key_line("till   ", TILL).upper()


def key_file(setting, text=KEYS, mode=0o600):
    """A file of keys that takes the place of the one before, and its path."""
    path = setting.folder + "/keys"
    journal.write(path + ".new", text.encode())
    os.chmod(path + ".new", mode)
    os.replace(path + ".new", path)
    return path


def bearer(secret):
    """How a secret is given."""
    return {"Authorization": "Bearer " + secret}


def ask(service, path="/nothing", method="GET", fields=None, host=...):
    """A request by a host, that of the service unless another is named, and the code,
    the fields and the error of its reply."""
    connection = http.client.HTTPConnection(HOST, service.port, timeout=PATIENCE)
    connection.putrequest(method, path, skip_host=True)
    if host is not None:
        connection.putheader("Host", service.address if host is ... else host)
    for name, value in (fields or {}).items():
        connection.putheader(name, value)
    connection.endheaders()
    reply = connection.getresponse()
    told, told_fields = json.loads(reply.read()), dict(reply.getheaders())
    connection.close()
    return reply.status, told_fields, told.get("error")


def answer(*words, **given):
    """The code and the error alone."""
    code, _, error = ask(*words, **given)
    return code, error


NO_KEY, NO_HOST, NO_ORIGIN = (401, "WrongKey"), (403, "WrongHost"), (403, "WrongOrigin")
# What a request is answered that is let in, and whose path there isn't.
LET_IN = (404, "NoSuchPath")
# The values of Authorization, Host and Origin, and what is answered where `abc` is known, by the names
# `lra.example.com`, `[::1]` and `till.example.com:8080`.
REQUESTS = (
    ("Bearer abc", "lra.example.com", None, LET_IN),
    ("bearer abc", "LRA.Example.COM:8080", None, LET_IN),
    ("Bearer abc", "[::1]:50000", None, LET_IN),
    ("Bearer abc", "lra.example.com:", None, LET_IN),
    ("Bearer abc", "till.example.com:8080", "https://lra.example.com", LET_IN),
    ("Bearer abc", "lra.example.com", "http://till.EXAMPLE.com:8080", LET_IN),
    *(
        (it, "lra.example.com", None, NO_KEY)
        for it in (None, "Bearer", "Bearer ab", "Bearer abcd", "Bearer  abc", "Basic abc", "abc")
    ),
    (None, "example.org", "http://example.org", NO_KEY),
    *(
        ("Bearer abc", it, None, NO_HOST)
        for it in (
            "example.com",
            "lra.example.com.evil.org",
            "lra.example.comx",
            "xlra.example.com",
            "lra.example.com:80@evil.org",
            "lra.example.com:http",
        )
    ),
    *(
        ("Bearer abc", it, None, NO_HOST)
        for it in ("till.example.com", "till.example.com:80", "till.example.com:80801")
    ),
    ("Bearer abc", "example.org", "http://example.org", NO_HOST),
    *(
        ("Bearer abc", "lra.example.com", it, NO_ORIGIN)
        for it in (
            "null",
            "http://example.org",
            "http://till.example.com",
            "http://lra.example.com/",
            "http://lra.example.com.evil.org",
        )
    ),
    *(
        ("Bearer abc", "lra.example.com", it, NO_ORIGIN)
        for it in (
            "http://user@lra.example.com",
            "http://lra.example.com http://evil.org",
            "lra.example.com",
            "://lra.example.com",
        )
    ),
    *(("Bearer abc", "lra.example.com", it, NO_ORIGIN) for it in ("1://lra.example.com", "http:lra.example.com")),
)


def check_keys(setting, place):
    """A key of the file is wanted, whatever the path; and with it all goes on as without one."""
    with Participant() as member, Based(setting, place, "--key", key_file(setting)) as service:
        for path, method in (("/nothing", "GET"), ("/lra-coordinator", "POST"), ("/lra-coordinator/x", "DELETE")):
            code, fields, error = ask(service, path, method)
            equal(
                f"{method} {path}",
                (code, error, fields.get("WWW-Authenticate")),
                (401, "WrongKey", 'Bearer realm="lra"'),
            )
        for value in STRANGERS:
            equal(
                f"what {value!r} is answered",
                answer(service, fields=value is not None and {"Authorization": value}),
                NO_KEY,
            )
        for value in (f"Bearer {SHOP}", f"bearer {TILL}", f"BEARER {SHOP} "):
            equal(f"what {value!r} is answered", answer(service, fields={"Authorization": value}), LET_IN)
        connection = http.client.HTTPConnection(HOST, service.port, timeout=PATIENCE)
        body = json.dumps({"compensate": member.uri("compensate")})

        def call(method, path, text=None):
            connection.request(method, path, text, bearer(SHOP))
            reply = connection.getresponse()
            return reply.status, json.loads(reply.read())

        code, told = call("POST", "/lra-coordinator")
        equal("a start", code, 201)
        path = "/lra-coordinator/" + id_of(told["lra"])
        equal("a join", call("PUT", path, body)[0], 200)
        check("a cancel", call("PUT", path + "/cancel")[0] in (200, 202))
        member.wait("compensate")
        connection.close()


def test_a_request_has_to_give_a_key(setting):
    check_keys(setting, setting.journal)


def test_a_request_of_a_folder_has_to_give_a_key(setting):
    check_keys(setting, folder_of(setting))


class Keyed(Client):
    """A client that gives a key."""

    def send(self, method, path, body):
        self.connection.request(method, path, body, bearer(SHOP))
        reply = self.connection.getresponse()
        return Reply(reply.status, reply.reason, dict(reply.getheaders()), json.loads(reply.read()))


def test_a_journal_is_archived_while_strangers_leave_no_pause(setting):
    """No thread has a quiet moment, and none is asked for anything of a journal: each lets go of what has ended."""
    with Folder(setting, "--key", key_file(setting), *SOON) as folder, Keyed(folder.port) as client:
        actions = [client.start() for _ in range(3)]
        folder.wait_for(2)
        with refused_starts(folder, 401) as codes:
            wait_until("some are refused", lambda: len(codes) > 100)
            for action in actions:
                equal("an end", client.end(action, "close"), "Closed")
            wait_until("its journal is archived", lambda: folder.ended() == [instance_of(actions[0])])
    return f"{len(codes)} strangers refused"


def line_of(service):
    """The next line that a service tells."""
    return service.process.stdout.readline().decode() if is_ready(service.process.stdout, PATIENCE) else "nothing"


def test_keys_change_while_it_runs(setting):
    path = key_file(setting, key_line("former", FORMER))
    with Based(setting, setting.journal, "--key", path) as service:
        equal("the former key", answer(service, fields=bearer(FORMER)), LET_IN)
        equal("another", answer(service, fields=bearer(SHOP)), NO_KEY)
        key_file(setting)
        wait_until("the new key", lambda: answer(service, fields=bearer(SHOP)) == LET_IN)
        equal("what is told", line_of(service), f"lra: the keys of {path} were read again\n")
        for _ in range(20):
            equal("the former key, from then on", answer(service, fields=bearer(FORMER)), NO_KEY)
        # A file that is wrong, or that others may read, leaves the keys in force.
        for text, mode, why in (
            (key_line("till", TILL) + "shop\n", 0o600, "line 2 "),
            (key_line("former", FORMER), 0o640, "others "),
            ("#" * (LONGEST + 1), 0o600, "too long"),
        ):
            key_file(setting, text, mode)
            wait_until(
                "a look", lambda: answer(service, fields=bearer(SHOP)) == LET_IN and is_ready(service.process.stdout, 0)
            )
            line = line_of(service)
            check(
                f"what is told: {line!r}", line.startswith(f"lra: {path}: {why}") and line.endswith(" stay in force\n")
            )
            equal("a key that isn't read", answer(service, fields=bearer(FORMER)), NO_KEY)
        os.remove(path)
        wait_until(
            "a look", lambda: answer(service, fields=bearer(TILL)) == LET_IN and is_ready(service.process.stdout, 0)
        )
        check("that it is gone is told", path in line_of(service))
        # One that is written where it lies is read too; an empty one lets nobody in.
        key_file(setting, key_line("till", TILL))
        wait_until("the key that is taken away", lambda: answer(service, fields=bearer(SHOP)) == NO_KEY)
        journal.write(path, b"")
        wait_until("that nobody is let in", lambda: answer(service, fields=bearer(TILL)) == NO_KEY)


def test_a_file_of_keys_that_is_wrong_is_told_at_the_start(setting):
    digest = hashlib.sha256(SHOP.encode()).hexdigest()
    for text, mode, why in (
        (KEYS, 0o644, "others than its owner may read it"),
        (KEYS, 0o620, "others than its owner may read it"),
        ("shop\n", 0o600, "line 1 "),
        (KEYS + "\n" + digest + "\n", 0o600, "line 6 "),
        (f"shop {digest}0\n", 0o600, "line 1 "),
        (f"shop {digest} \n", 0o600, "line 1 "),
        (f"shop {digest}\r\n", 0o600, "line 1 "),
        (f"shop\t{digest}\n", 0o600, "line 1 "),
        ("#" * (LONGEST + 1), 0o600, "too long"),
    ):
        path = key_file(setting, text, mode)
        told = serve_by(setting, "--key", path)
        check(
            f"what is told of {text[:20]!r}: {told}",
            told.status == 2 and re.fullmatch(re.escape(f"lra: {path}: {why}") + ".*\n", told.told),
        )
    for path in (setting.folder + "/none", setting.folder):
        told = serve_by(setting, "--key", path)
        check(
            f"what is told of {path}: {told}", told.status == 2 and told.told.startswith("lra: ") and path in told.told
        )


def test_a_host_is_one_of_the_names(setting):
    names = ("--origin", "lra.example.com", "--origin", "Till.example.com:8080", "--origin", "[::1]")
    with Based(setting, setting.journal, *names) as service:
        for host in (
            "lra.example.com", "LRA.example.COM", "lra.example.com:1", "till.example.com:8080", "[::1]:50000", "[::1]"
        ):
            equal(f"what {host} is answered", answer(service, host=host), LET_IN)
        for host in (
            ...,
            "example.com",
            "lra.example.com.evil.org",
            "xlra.example.com",
            "lra.example.com:80@evil.org",
            "till.example.com",
            "till.example.com:80",
            "till.example.com:80801",
            "[::2]",
            "::1",
        ):
            equal(f"what {host} is answered", answer(service, host=host), NO_HOST)
        equal("a start by another name", answer(service, "/lra-coordinator", "POST", host="evil.org"), NO_HOST)
        for head, wanted in (
            (b"GET /nothing HTTP/1.0\r\n\r\n", b"403"),
            (b"GET /nothing HTTP/1.0\r\nHost: lra.example.com\r\n\r\n", b"404"),
        ):
            with service.connect() as stream:
                stream.sendall(head)
                equal(f"what {head!r} is answered", stream.recv(65536)[9:12], wanted)


def test_an_origin_is_of_one_of_the_names(setting):
    with Based(setting, setting.journal, "--origin", "lra.example.com", "--origin", "till.example.com:8080") as service:
        for origin in ("https://lra.example.com", "http://LRA.example.com:8443", "http://till.example.com:8080"):
            equal(
                f"what {origin} is answered", answer(service, fields={"Origin": origin}, host="lra.example.com"), LET_IN
            )
        for origin in (
            "null",
            "",
            "http://evil.org",
            "http://lra.example.com.evil.org",
            "http://lra.example.com/",
            "http://me@lra.example.com",
            "http://till.example.com",
            "lra.example.com",
            "://lra.example.com",
        ):
            equal(
                f"what {origin!r} is answered",
                answer(service, fields={"Origin": origin}, host="lra.example.com"),
                NO_ORIGIN,
            )
        equal(
            "a form of another page",
            answer(service, "/lra-coordinator", "POST", {"Origin": "http://evil.org"}, "lra.example.com"),
            NO_ORIGIN,
        )


def test_a_key_is_looked_at_first_and_then_the_host(setting):
    with Based(setting, folder_of(setting), "--key", key_file(setting), "--origin", "lra.example.com") as service:
        evil = {"Origin": "http://evil.org"}
        equal("no key, by another name", answer(service, fields=evil, host="evil.org"), NO_KEY)
        equal("a key, by another name", answer(service, fields=evil | bearer(SHOP), host="evil.org"), NO_HOST)
        equal(
            "a key, from another page", answer(service, fields=evil | bearer(SHOP), host="lra.example.com"), NO_ORIGIN
        )
        equal("a key, by its name", answer(service, fields=bearer(SHOP), host="lra.example.com"), LET_IN)


def test_files_of_keys_have_a_secret_or_a_line_that_is_wrong(setting):
    for text, secret, is_known in FILES:
        with Based(setting, setting.journal, "--key", key_file(setting, text)) as service:
            equal(
                f"what {secret!r} is answered by {text[:90]!r}",
                answer(service, fields=bearer(secret)),
                LET_IN if is_known else NO_KEY,
            )
    for text, line in NO_KEYS:
        path = key_file(setting, text)
        told = serve_by(setting, "--key", path)
        check(
            f"what is told of {text!r}: {told}", told.status == 2 and told.told.startswith(f"lra: {path}: line {line} ")
        )


def test_requests_are_let_in_or_denied(setting):
    names = ("--origin", "lra.example.com", "--origin", "[::1]", "--origin", "till.example.com:8080")
    with Based(setting, setting.journal, "--key", key_file(setting, f"shop {ABC}\n"), *names) as service:
        for authorization, host, origin, wanted in REQUESTS:
            fields = {
                name: value
                for name, value in (("Authorization", authorization), ("Origin", origin))
                if value is not None
            }
            equal(
                f"what {authorization}, {host} and {origin} are answered",
                answer(service, fields=fields, host=host),
                wanted,
            )


def test_denied_requests_are_counted_by_why(setting):
    with WatchedFolder(setting, "--key", key_file(setting), "--origin", "lra.example.com") as service:
        for _ in range(3):
            equal("no key", answer(service), NO_KEY)
        for _ in range(2):
            equal("another name", answer(service, fields=bearer(SHOP), host="evil.org"), NO_HOST)
        evil = {"Origin": "http://evil.org"}
        equal("another page", answer(service, fields=evil | bearer(SHOP), host="lra.example.com"), NO_ORIGIN)
        equal("one that is let in", answer(service, fields=bearer(SHOP), host="lra.example.com"), LET_IN)
        found = measures(service)
    denied = {
        re.search('"(.*)"', name)[1]: count
        for name, count in found.items()
        if name.startswith("lra_requests_denied_total")
    }
    equal("how many were denied", denied, {"WrongKey": 3, "WrongHost": 2, "WrongOrigin": 1})


def test_keys_and_names_in_a_file_and_what_is_no_name(setting):
    path = key_file(setting)
    settings = config(setting, f'key = "{path}"\norigin = ["lra.example.com", "till.example.com:8080"]\n')
    told = told_of(setting, "--config", settings)
    equal("what is told", (told["key"], told["origin"]), (f'"{path}"', '["lra.example.com", "till.example.com:8080"]'))
    equal(
        "the line's, in its place",
        told_of(setting, "--config", settings, "--origin", "shop.test")["origin"],
        '["shop.test"]',
    )
    for text in NAMES:
        told_of(setting, "--origin", text)
    for text in OTHERS:
        told = serve_by(setting, "--origin", text)
        check(
            f"what is told of {text!r}: {told}",
            (told.status, told.output) == (2, "")
            and told.told.startswith("lra: ")
            and told.told.endswith(f"origin: no name: {text}\n"),
        )
