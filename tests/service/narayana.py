"""The dialect of MicroProfile LRA's clients in Java: a client written by the facts of Narayana's interface, 1,000
random exchanges beside a model of its tables, and a program in Java that sends what the annotations' client sends."""
import collections
import http.client
import json
import os
import random
import shutil
import subprocess
import urllib.parse

import journal
from participant import Participant, wait_until
from service import HOST, PATIENCE, LeftOut, Service, check, equal, id_of

BASE = "/lra-coordinator"
NOBODY = "http://127.0.0.1:1"
RELATIONS = ("compensate", "complete", "status", "forget", "leave", "after")
TURNS = 1000

Answer = collections.namedtuple("Answer", "code text fields")


class Narayana(Service):
    """A service that speaks the dialect."""

    def __init__(self, setting, *options, workers=2, port=None):
        super().__init__(setting.program, setting.journal, workers, port)
        self.words[2:2] = ["--dialect", "narayana", *options]

    def speaker(self):
        return Speaker(self.port)

    def client(self, keep=True):
        return Caller(self.port)


class Speaker:
    """A client of the dialect, over one connection."""

    def __init__(self, port):
        self.connection = http.client.HTTPConnection(HOST, port, timeout=PATIENCE)

    def __enter__(self):
        return self

    def __exit__(self, *_):
        self.connection.close()

    def say(self, method, path, body=None, fields=None, **words):
        """A request with these words in its query, and its reply."""
        query = "?" + urllib.parse.urlencode(words) if words else ""
        self.connection.request(method, path + query, body, fields or {})
        reply = self.connection.getresponse()
        return Answer(reply.status, reply.read().decode(), dict(reply.getheaders()))

    def at(self, action, piece=""):
        return f"{BASE}/{id_of(action)}{piece}"

    def start(self, **words):
        reply = self.say("POST", f"{BASE}/start", **words)
        equal("a start", reply.code, 201)
        equal("where it is", (reply.fields["Location"], reply.fields["Long-Running-Action"]), (reply.text,) * 2)
        return reply.text

    def join(self, action, text, **words):
        reply = self.say("PUT", self.at(action), text, **words)
        equal("a join", reply.code, 200)
        named = (reply.fields["Location"], reply.fields["Long-Running-Action-Recovery"])
        equal("where the member is", named, (reply.text,) * 2)
        return reply.text

    def status(self, action):
        reply = self.say("GET", self.at(action, "/status"))
        equal("a status", reply.code, 200)
        return reply.text


class Caller(Speaker):
    """A client of the dialect with the calls of `service.Client`. A member joins by links in the body, by links in the
    field, or by both, one after another."""

    def __init__(self, port):
        super().__init__(port)
        self.joins = 0

    def join(self, action, **addresses):
        text = ",".join(f'<{uri}>; rel="{it}"; title="{it} URI"' for it, uri in addresses.items())
        self.joins += 1
        reply = self.say(
            "PUT", self.at(action), None if self.joins % 3 == 1 else text, {"Link": text} if self.joins % 3 else {}
        )
        equal("a join", (reply.code, reply.fields["Long-Running-Action-Recovery"]), (200, reply.text))
        return reply.text

    def leave(self, action, recovery):
        equal("a leave", self.say("PUT", self.at(action, "/remove"), recovery)[:2], (200, ""))

    def renew(self, action, limit):
        equal("a renewal", self.say("PUT", self.at(action, "/renew"), "", TimeLimit=limit)[:2], (200, ""))

    def end(self, action, how):
        """Closes or cancels an action, and answers the status that is told."""
        reply = self.say("PUT", self.at(action, "/" + how), "")
        going = reply.text in ("Closing", "Cancelling")
        equal(f"the code of a {how} that tells {reply.text}", reply.code, 202 if going else 200)
        return reply.text


def links(uri, *relations, separator=","):
    """The links of a member, as JAX-RS writes them."""
    return separator.join(
        f'<{uri}/{it}>; rel="{it}"; title="{it} URI"; type="text/plain"' for it in relations or RELATIONS
    )


def test_an_action_of_the_dialect_is_closed_and_its_members_are_called(setting):
    with Participant() as member, Narayana(setting) as service, service.speaker() as speaker:
        action = speaker.start(ClientID="shop", TimeLimit=600000, ParentLRA="")
        check(f"{action} is under the base", action.startswith(f"http://{service.address}{BASE}/"))
        text = links(member.uri("m").rstrip("/"), "compensate", "complete")
        recovery = speaker.join(action, text, TimeLimit=0)
        equal("the same member", speaker.join(action, text), recovery)
        by_field = speaker.say("PUT", speaker.at(action), None, {"Link": text})
        equal("the same by a field", (by_field.code, by_field.text), (200, recovery))
        both = speaker.say("PUT", speaker.at(action), text, {"Link": text})
        equal("the same by both", (both.code, both.text), (200, recovery))
        equal("active", speaker.status(action), "Active")
        closed = speaker.say("PUT", speaker.at(action, "/close"), "")
        check(f"a close: {closed}", (closed.code, closed.text) in ((202, "Closing"), (200, "Closed")))
        wait_until("the end", lambda: speaker.status(action) == "Closed")
        again = speaker.say("PUT", speaker.at(action, "/close"), "")
        equal("a close of what is closed", (again.code, again.text), (200, "Closed"))
    journal.check_sound(setting.program, journal.read(setting.journal), setting.folder)


def test_a_start_of_the_dialect_may_have_a_limit_and_a_parent(setting):
    with Narayana(setting) as service, service.speaker() as speaker:
        parent = speaker.start()
        child = speaker.start(ParentLRA=parent, ClientID="c", TimeLimit=0)
        whole = urllib.parse.quote(child, safe="")
        told = speaker.say("GET", f"{BASE}/{whole}/status")
        equal("by the whole identifier", (told.code, told.text), (200, "Active"))
        short = speaker.start(TimeLimit=1)
        wait_until("the limit", lambda: speaker.status(short) == "Cancelled")
        equal("no such parent", speaker.say("POST", f"{BASE}/start", ParentLRA=child[:-1] + "x").code, 404)
        equal("a parent that ended", speaker.say("POST", f"{BASE}/start", ParentLRA=short).code, 412)
        cancelled = speaker.say("PUT", speaker.at(parent, "/cancel"), "")
        equal("a cancel", (cancelled.code, cancelled.text), (200, "Cancelled"))
        equal("what is nested", speaker.status(child), "Cancelled")


def test_a_bare_uri_is_a_member_of_the_dialect(setting):
    with Participant() as member, Narayana(setting) as service, service.speaker() as speaker:
        action = speaker.start()
        speaker.join(action, member.uri("m"))
        speaker.say("PUT", speaker.at(action, "/cancel"), "")
        member.wait("m/compensate")
        wait_until("the end", lambda: speaker.status(action) == "Cancelled")


def test_forms_and_versions_of_the_dialect(setting):
    with Narayana(setting) as service, service.speaker() as speaker:
        action = speaker.start()
        plain = speaker.say("GET", speaker.at(action, "/status"))
        equal("its type", plain.fields["Content-Type"], "text/plain")
        check("no version", "Narayana-LRA-API-version" not in plain.fields)
        told = speaker.say("GET", speaker.at(action, "/status"), None, {"Accept": "application/json"})
        equal("a JSON string", (told.code, json.loads(told.text)), (200, "Active"))
        equal("its type", told.fields["Content-Type"], "application/json")
        for version, code in (("1.0", 200), ("1.1", 200), ("1.2", 200), ("1.3", 417), ("2", 417)):
            fields = {"Narayana-LRA-API-version": version}
            told = speaker.say("GET", speaker.at(action, "/status"), None, fields)
            equal(f"version {version}", told.code, code)
            equal("its field", told.fields.get("Narayana-LRA-API-version"), version if code == 200 else None)


def test_what_has_no_place_is_refused_by_name(setting):
    text = links(NOBODY)
    with Narayana(setting) as service, service.speaker() as speaker:
        action = speaker.start()
        path = speaker.at(action)
        before = journal.read(setting.journal)
        for code, method, target, body, fields in (
            (400, "PUT", path, "my data", {"Link": text}),
            (400, "PUT", path, text, {"Narayana-LRA-Participant-Data": "mine"}),
            (400, "PUT", path + "?TimeLimit=5", text, {}),
            (400, "PUT", path, "", {}),
            (400, "PUT", path, "my data", {}),
            (400, "PUT", path, '<http://127.0.0.1:1/x>; rel="other"', {}),
            (400, "PUT", path + "/close?userData=x", "", {}),
            (400, "POST", BASE + "/start?TimeLimit=soon", None, {}),
            (400, "POST", BASE + "/start?Other=1", None, {}),
            (404, "GET", BASE + "/nothing/here/at/all", None, {}),
            (405, "POST", path + "/close", "", {}),
            (501, "GET", BASE, None, {}),
            (501, "GET", path, None, {}),
            (501, "GET", BASE + "/recovery", None, {}),
            (501, "GET", BASE + "/recovery/failed", None, {}),
            (501, "PUT", path + "/remove", text, {}),
            (501, "GET", f"{BASE}/nested/{id_of(action)}/status", None, {}),
            (501, "PUT", f"{BASE}/nested/{id_of(action)}/complete", "", {}),
            (501, "PUT", f"/lra-recovery/{id_of(action)}", text, {}),
        ):
            told = speaker.say(method, target, body, fields)
            equal(f"{method} {target} {body} {fields}", told.code, code)
            check(f"a text: {told}", told.text)
        equal("Allow", speaker.say("POST", path).fields["Allow"], "GET, PUT")
        equal("the journal", journal.read(setting.journal), before)


class Model:
    """Actions by the tables of the dialect alone. No member of it can be reached, so that none ends by itself."""

    def __init__(self, rng):
        self.rng = rng
        self.states, self.members, self.left = {}, {}, set()

    def action(self):
        """An action, or an identifier of none."""
        if not self.states or self.rng.random() < 0.05:
            return "http://x/lra-coordinator/00000000-0000-4000-8000-000000000000"
        return self.rng.choice(list(self.states))

    def start(self, speaker):
        told = speaker.say("POST", f"{BASE}/start", ClientID=self.rng.choice(["", "a", "ä b"]), TimeLimit=0)
        self.states[told.text] = "Active"
        return told, {201}, told.fields.get("Location")

    def status(self, speaker):
        action = self.action()
        told = speaker.say("GET", speaker.at(action, "/status"))
        return told, {200 if action in self.states else 404}, self.states.get(action)

    def join(self, speaker):
        action, uri = self.action(), f"{NOBODY}/{self.rng.randrange(3)}"
        text = links(uri, "compensate", "complete", *self.rng.sample(["status", "forget", "after", "leave"], 1))
        field = self.rng.random() < 0.5
        told = speaker.say("PUT", speaker.at(action), None if field else text, {"Link": text} if field else {})
        if self.states.get(action) != "Active":
            return told, {412 if action in self.states else 404}, None
        key = (action, text.replace(f'<{uri}/leave>; rel="leave"', ""))
        known = next((it for it, of in self.members.items() if of == key and it not in self.left), None)
        self.members[told.text] = key
        return told, {200}, known or told.fields.get("Long-Running-Action-Recovery")

    def has_members(self, action):
        return any(of[0] == action and it not in self.left for it, of in self.members.items())

    def end(self, speaker, how, going, ended):
        action = self.action()
        told = speaker.say("PUT", speaker.at(action, "/" + how), "")
        state = self.states.get(action)
        if state == "Active":
            self.states[action] = state = going if self.has_members(action) else ended
        if state in (going, ended):
            return told, {202 if state == going else 200}, state
        return told, {412 if action in self.states else 404}, None

    def close(self, speaker):
        return self.end(speaker, "close", "Closing", "Closed")

    def cancel(self, speaker):
        return self.end(speaker, "cancel", "Cancelling", "Cancelled")

    def renew(self, speaker):
        action = self.action()
        told = speaker.say("PUT", speaker.at(action, "/renew"), "", TimeLimit=self.rng.randrange(10**8, 10**9))
        state = self.states.get(action)
        return told, {200 if state == "Active" else 412 if state else 404}, None

    def leave(self, speaker):
        recovery = self.rng.choice(list(self.members) or [f"{NOBODY}/x"])
        of = self.members.get(recovery, (self.action(),))[0]
        action = of if self.rng.random() < 0.9 else self.action()
        told = speaker.say("PUT", speaker.at(action, "/remove"), recovery)
        if recovery in self.members and action == of and recovery not in self.left and self.states[of] == "Active":
            self.left.add(recovery)
            return told, {200}, ""
        return told, {404, 412}, None


def test_random_exchanges_are_answered_as_the_tables_say(setting):
    seed = int(os.environ.get("NARAYANA_SEED", random.randrange(10**6)))
    model = Model(random.Random(seed))
    kinds = [model.start] + 3 * [model.status, model.join, model.leave] + [model.renew, model.close, model.cancel]
    with Narayana(setting) as service, service.speaker() as speaker:
        for turn in range(TURNS):
            kind = model.rng.choice(kinds)
            told, codes, text = kind(speaker)
            check(f"seed {seed}, turn {turn}, {kind.__name__}: {told}, wanted {codes}", told.code in codes)
            if text is not None:
                equal(f"seed {seed}, turn {turn}, {kind.__name__}", told.text, text)
        for action, state in model.states.items():
            equal("a status at the end", speaker.status(action), state)
    journal.check_sound(setting.program, journal.read(setting.journal), setting.folder)


def test_a_program_in_java_speaks_the_dialect(setting):
    if not shutil.which("javac") or not shutil.which("java"):
        raise LeftOut("there is no JDK")
    source = os.path.join(os.path.dirname(os.path.abspath(__file__)), "Narayana.java")
    subprocess.run(["javac", "-d", setting.folder, source], check=True, timeout=6 * PATIENCE)
    with Participant() as member, Narayana(setting) as service:
        words = ["java", "-cp", setting.folder, "Narayana", f"http://{service.address}{BASE}", member.uri("m")]
        done = subprocess.run(words, capture_output=True, timeout=6 * PATIENCE, check=False)
        lines = done.stdout.decode().splitlines()
        equal("what it prints", (done.returncode, lines[:8]), (0, [
            "start 201", "join 200", "again 200 same", "status 200 Active", "renew 200", "leave 200", "join 200",
            "status 200 Active",
        ]))
        equal("how it ends", lines[-1], "end Closed")
        member.wait("m/complete")


def test_the_dialect_is_spoken_under_a_base_and_over_a_folder(setting):
    os.mkdir(f"{setting.folder}/journals")
    setting.journal = f"{setting.folder}/journals"
    base = "https://lra.example.com/shop/"
    with Narayana(setting, "--base", base) as service, service.speaker() as speaker:
        told = speaker.say("POST", "/shop" + BASE + "/start")
        equal("behind a proxy", (told.code, told.text.startswith(base + "lra-coordinator/")), (201, True))
        child = speaker.start(ParentLRA=told.text)
        whole = urllib.parse.quote(child, safe="")
        for path in (speaker.at(child), "/shop" + speaker.at(child), f"/shop{BASE}/{whole}"):
            reply = speaker.say("GET", path + "/status")
            equal(f"the status at {path}", (reply.code, reply.text), (200, "Active"))
        recovery = speaker.join(child, links(NOBODY, "compensate"))
        left = speaker.say("PUT", "/shop" + speaker.at(child, "/remove"), recovery)
        equal("a leave", (left.code, left.text), (200, ""))
        closed = speaker.say("PUT", "/shop" + speaker.at(child, "/close"), "")
        check(f"a close of what is nested: {closed}", closed.code in (200, 202))


def test_other_dialects_are_refused(setting):
    for words, why in (
        (("--dialect", "other"), "lra: --dialect: other is not narayana"),
        (("--dialect", ""), "lra: --dialect:  is not narayana"),
    ):
        told = setting.run("serve", *words, f"{HOST}:0", setting.journal, "1")
        check(f"{words}: {told}", told.status != 0 and why in told.told)
    told = setting.run("serve", "--check", "--dialect", "narayana", f"{HOST}:2", setting.journal, "1")
    check(f"the check: {told}", 'dialect = "narayana"' in told.output)
