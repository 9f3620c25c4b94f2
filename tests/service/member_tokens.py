"""The token that callbacks give to members (RFC 6750, section 2.1): each of them does, the token changes with its file,
and nothing that the service says shows it."""
import os

import journal
from asks import ALL, ask_fields
from bases import Based
from folders import Folder
from logs import Logged, LoggedFolder
from operators import Watched, WatchedFolder
from options import config, serve_by, told_of
from participant import Participant, wait_until
from service import HOST, Telling, check, equal, id_of

# The token of the RFC's example, and others that its grammar has.
TOKEN, NEXT, LAST = "mF_9.B5f-4.1JqM", "abc~+/0==", "Z"
LONGEST = 4_096
# What a file may have beside its token.
ENDS = ("", "\n", "\r\n")
# Texts of a file without a token, and what is told of them.
NO_TOKENS = (
    ("", "no bearer token"),
    ("\n", "no bearer token"),
    ("two words\n", "no bearer token"),
    (f" {TOKEN}\n", "no bearer token"),
    (f"{TOKEN} \n", "no bearer token"),
    (f"{TOKEN}\r", "no bearer token"),
    (f"{TOKEN}\rX: y\n", "no bearer token"),
    (f"Bearer:{TOKEN}\n", "no bearer token"),
    (f"={TOKEN}\n", "no bearer token"),
    ("a=b\n", "no bearer token"),
    ("tökén\n", "no bearer token"),
    ("x" * (LONGEST + 1), "no bearer token"),
    (f"{TOKEN}\n{NEXT}\n", "more than one line"),
    (f"{TOKEN}\n\n", "more than one line"),
    (f"\n{TOKEN}\n", "more than one line"),
    ("x" * (LONGEST + 3), "too long"),
)
# What operators read.
PAGES = ("/", "/health", "/metrics", "/actions", "/actions/{}", "/page/actions/{}")
# What a member answers to each kind of callback, in turn, and the kinds that an action asks for by its end.
WAYS = (
    ("close", {"complete": [202], "status": [(200, b"Completed")], "after": [200]}, ("complete", "status", "after")),
    ("cancel", {"compensate": [409], "forget": [200], "after": [200]}, ("compensate", "forget", "after")),
)


def token_file(setting, text=TOKEN + "\n", mode=0o600):
    """Puts a file with this text in the place of the one before. Returns its path."""
    path = setting.folder + "/member-token"
    journal.write(path + ".new", text.encode())
    os.chmod(path + ".new", mode)
    os.rename(path + ".new", path)
    return path


def given(request):
    """What a callback gives as its credentials."""
    return request.fields.get("Authorization")


def answers_by(answers):
    """Returns an answer for each path in turn."""

    def answer(request):
        it = answers[request.path[1:]].pop(0)
        return it if isinstance(it, tuple) else (it, b"")

    return answer


def check_ways(service, wanted):
    """Ends actions whose members are called in each way. Each callback has that token, behind all its other fields but
    `Connection`."""
    with service.client() as client:
        for how, answers, kinds in WAYS:
            answers = {kind: list(codes) for kind, codes in answers.items()}
            with Participant(answers_by(answers)) as member:
                action = client.start()
                recovery = client.join(action, **member.addresses(*ALL))
                client.end(action, how)
                for kind in kinds:
                    request = member.wait(kind)[0]
                    fields = ask_fields(kind, f"{HOST}:{member.port}", action, recovery, request.body.decode())
                    del fields["Connection"]
                    fields |= {"Authorization": f"Bearer {wanted}", "Connection": "close"}
                    equal(f"the fields of {kind}", list(request.fields.items()), list(fields.items()))
                equal("faults of the member", member.faults, [])


def silenced(service, member):
    """Ends an action whose member is called until the service ends. Returns the action."""
    with service.client() as client:
        action = client.start()
        client.join(action, compensate=member.uri("compensate"))
        client.end(action, "cancel")
    return action


def last_given(member):
    return given(member.requests[-1]) if member.requests else None


def test_each_callback_gives_the_token(setting):
    for kind in (Watched, WatchedFolder):
        path = token_file(setting)
        service = kind(setting)
        service.words[2:2] = ["--member-token", path]
        with service:
            check_ways(service, TOKEN)


def test_the_longest_token_and_each_end_of_its_line_are_read(setting):
    for text in (*(TOKEN + end for end in ENDS), *("x" * LONGEST + end for end in ENDS)):
        path = token_file(setting, text)
        equal("what is told", told_of(setting, "--member-token", path)["member-token"], f'"{path}"')
    with Based(setting, setting.journal, "--member-token", path) as service, Participant() as member:
        silenced(service, member)
        equal("the token", given(member.wait("compensate")[0]), "Bearer " + "x" * LONGEST)


def test_the_token_changes_with_its_file(setting):
    """One that is wrong, or that others may read, leaves the token in force."""
    for kind in (Telling, Folder):
        path = token_file(setting)
        service = kind(setting) if kind is Folder else kind(setting.program, setting.journal)
        service.words[2:2] = ["--member-token", path, "--retry-first", "20", "--retry-last", "20"]
        with Participant(lambda _: (500, b"")) as member, service:
            silenced(service, member)
            equal("the token", given(member.wait("compensate")[0]), f"Bearer {TOKEN}")
            token_file(setting, NEXT)
            wait_until("the new token", lambda: last_given(member) == f"Bearer {NEXT}")
            wanted = f"lra: the token of {path} was read again\n"
            wait_until("what is told", lambda: service.told().endswith(wanted))
            for text, mode, why in (
                ("two words", 0o600, "no bearer token"),
                (f"{LAST}\n{LAST}", 0o600, "more than one line"),
                (LAST, 0o640, "others than its owner may read it"),
            ):
                token_file(setting, text, mode)
                wanted += f"lra: {path}: {why}: the token of before stays in force\n"
                wait_until(f"that {why} is told", lambda: service.told().endswith(wanted))
                count = len(member.requests) + 3
                member.wait("compensate", count)
                equal("the token that stays", last_given(member), f"Bearer {NEXT}")
            os.remove(path)
            wanted += f"lra: cannot read {path}: the token of before stays in force\n"
            wait_until("that it is gone is told", lambda: service.told().endswith(wanted))
            token_file(setting, LAST)
            wait_until("the last token", lambda: last_given(member) == f"Bearer {LAST}")
            equal("the tokens", {given(it) for it in member.requests}, {f"Bearer {it}" for it in (TOKEN, NEXT, LAST)})
            for token in (TOKEN, NEXT):
                check(f"{token} is told", token not in service.told())


def test_no_line_and_no_page_shows_the_token(setting):
    for kind in (Logged, LoggedFolder):
        path = token_file(setting)
        words = ("--log", "debug", "--retry-first", "1", "--retry-last", "1", "--member-token", path)
        with Participant(lambda _: (500, b"")) as member, kind(setting, *words) as service:
            number = id_of(silenced(service, member))
            member.wait("compensate", 12)
            token_file(setting, f"{NEXT}\n{NEXT}")
            wait_until("that it is wrong is told", lambda: "more than one line" in service.told())
            token_file(setting, NEXT)
            wait_until("the new token", lambda: last_given(member) == f"Bearer {NEXT}")
            wait_until("that it was read is told", lambda: "was read again" in service.told())
            texts = [service.told()]
            if kind is Logged:
                for page in PAGES:
                    reply = service.ask(page.format(number))
                    equal(f"the code of {page}", reply.code, 200)
                    texts.append(reply.body)
            for text in texts:
                for token in (TOKEN, NEXT):
                    check(f"{token} stands in {text!r}", token not in text)


def test_a_proxy_gets_the_token_with_the_callback(setting):
    path = token_file(setting)
    with Participant() as proxy:
        words = ("--members-via", f"{HOST}:{proxy.port}", "--member-token", path)
        with Based(setting, setting.journal, *words) as service, service.client() as client:
            action = client.start()
            client.join(action, compensate="https://pay.example/compensate")
            client.end(action, "cancel")
            fields = proxy.wait("compensate")[0].fields
    equal("what it gets", (fields["Host"], fields["Authorization"]), ("pay.example:443", f"Bearer {TOKEN}"))


def test_what_is_no_token_is_told_at_the_start(setting):
    for text, why in NO_TOKENS:
        path = token_file(setting, text)
        for words in (("--member-token", path), ("--config", config(setting, f'member-token = "{path}"\n'))):
            told = serve_by(setting, *words)
            equal(f"what is told of {text[:20]!r}", (told.status, told.told), (2, f"lra: {path}: {why}\n"))
    for mode in (0o644, 0o620):
        told = serve_by(setting, "--member-token", token_file(setting, mode=mode))
        equal("the status", told.status, 2)
        equal("what is told", told.told, f"lra: {path}: others than its owner may read it\n")
    for path in (setting.folder + "/none", setting.folder):
        told = serve_by(setting, "--member-token", path)
        equal("what is told", (told.status, told.told), (2, f"lra: cannot read {path}\n"))


def test_a_check_tells_that_the_file_is_used(setting):
    path = token_file(setting)
    check("there is one", "member-token" not in told_of(setting))
    told = told_of(setting, "--member-token", path)
    equal("what is told", told["member-token"], f'"{path}"')
    check(f"the token is told: {told}", not any(TOKEN in it for it in told.values()))
    told = told_of(setting, "--config", config(setting, f'member-token = "{path}"\n'))
    equal("what is told of a file's", told["member-token"], f'"{path}"')
