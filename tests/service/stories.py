"""Stories, listings, and journals that are followed: journals that scripts make,
and the sentences that are wanted of them."""
import os
import signal
import subprocess
import time
from xml.etree import ElementTree

from folders import SOON, Folder
from participant import wait_until
from service import PATIENCE, check, equal

# 2026-11-26T22:15:01.250Z, in milliseconds from 1970 on.
AT = 1795731301250
HEADER = "lra-journal 2 7"
# An action, and one below it with a limit of 5 s, two members and one that left, whose limit passes.
SCRIPT = f"""\
0 {AT} enrol
1 {AT} start * 0
1 {AT + 1000} start 1 5000
1 {AT + 1100} join 2 http://n.test/u http://n.test/c * * *
1 {AT + 1200} join 2 http://n.test/v http://n.test/d * * *
1 {AT + 1300} leave 2 2
1 {AT + 6000} tick
1 {AT + 6000} ask
"""
# What the second action's journal comes to, line by line: 1 is the header, 2 enrols the clerk,
# 3 starts the first action.
STARTED = "line 4: started by clerk 1 at 2026-11-26T22:15:02.250Z, below action 1, with a limit of 5.000 s\n"
MIDDLE = (
    STARTED
    + "line 5: member 1 joined, compensate http://n.test/u, complete http://n.test/c\n"
    + "line 6: member 2 joined, compensate http://n.test/v, complete http://n.test/d\n"
    + "line 7: member 2 left\n"
    + "line 8: its limit passed: it is Cancelling\n"
    + "line 9: member 1 is asked to compensate (ask 1)\n"
)
WAITING = "action 2 (nested in 1) is Cancelling\n" + MIDDLE + (
    "waits for member 1, which is Compensating\n"
    "member 1 is asked to compensate at http://n.test/u: ask 1, of line 9, "
    "has no answer since 2026-11-26T22:15:07.250Z\n"
)
ENDED = "action 2 (nested in 1) is Cancelled\n" + MIDDLE + (
    "line 10: member 1 answered that it is compensated\n"
    "line 11: it is Cancelled: all that it waited for has ended well\n"
)
FAILED = "action 2 (nested in 1) is FailedToCancel\n" + MIDDLE + (
    "line 10: member 1 answered that it failed to compensate\n"
    "line 11: it is FailedToCancel: all that it waited for has ended, and not all of it well\n"
    "member 1 is FailedToCompensate\n"
)
OUTER = (
    "action 1 is Active\n"
    "line 3: started by clerk 1 at 2026-11-26T22:15:01.250Z\n"
    "line 4: action 2 started below it\n"
    "line 8: action 2 below it is Cancelling\n"
    "line 11: action 2 below it is Cancelled\n"
    "waits for its client to close or cancel it\n"
)
# The second action's member gives no answer, twice.
SILENCES = ((7000, "reply 1 silent"), (7100, "ask"), (7900, "reply 2 silent"))
SILENT = "action 2 (nested in 1) is Cancelling\n" + MIDDLE + (
    "line 10: member 1 gave no answer to ask 1\n"
    "line 11: member 1 is asked to compensate (ask 2)\n"
    "line 12: member 1 gave no answer to ask 2\n"
    "waits for member 1, which is Compensating\n"
    "member 1 is to be asked to compensate at http://n.test/u again, "
    "from 2026-11-26T22:15:09.350Z on by the default pauses\n"
    "member 1 was called 2 times for that, last without an answer (line 12): the operators' page has the reason\n"
)
AT_IT = "action 2 (nested in 1) is Cancelling\n" + MIDDLE + (
    "line 10: member 1 answered that it goes on\n"
    "waits for member 1, which is Compensating\n"
    "member 1 is to be asked to compensate at http://n.test/u again, "
    "from 2026-11-26T22:15:07.450Z on by the default pauses\n"
    "member 1 was called once for that, last with the answer that it goes on (line 10)\n"
)
# An action that closed, and of which a member is still to be told; its addresses have marks that XML reads.
NOTICES = (
    (0, "start * 0"),
    (0, "join 1 http://n.test/u http://n.test/c http://n.test/s http://n.test/f http://n.test/a'b?x=1&y=2"),
    (0, "close 1"),
    (0, "ask"),
    (1000, "reply 1 done"),
    (1000, "ask"),
)
TOLD = (
    "action 1 is Closed\n"
    "line 3: started by clerk 1 at 2026-11-26T22:15:01.250Z\n"
    "line 4: member 1 joined, compensate http://n.test/u, complete http://n.test/c, status http://n.test/s, "
    "forget http://n.test/f, "
    "after http://n.test/a'b?x=1&y=2\n"
    "line 5: its client closes it: it is Closing\n"
    "line 6: member 1 is asked to complete (ask 1)\n"
    "line 7: member 1 answered that it is completed\n"
    "line 8: it is Closed: all that it waited for has ended well\n"
    "line 9: member 1 is told how the action ended (ask 2)\n"
)
OPEN_NOTICE = (
    "member 1 is told how the action ended at http://n.test/a'b?x=1&y=2: ask 2, of line 9, "
    "has no answer since 2026-11-26T22:15:02.250Z\n"
)
SILENT_NOTICE = (
    "line 10: member 1 gave no answer to ask 2\n"
    "member 1 is to be told how the action ended at http://n.test/a'b?x=1&y=2 again, "
    "from 2026-11-26T22:15:03.350Z on by the default pauses\n"
    "member 1 was called once for that, last without an answer (line 10): the operators' page has the reason\n"
)
# The identifier of the second action at the instance of every script, 7.
ID = "00000000-0000-8007-8000-000000000002"
FIRST_ID = "00000000-0000-8007-8000-000000000001"


def played(setting, *more):
    """The journal that the script makes, with more lines of it, in a file."""
    return write_played(setting, SCRIPT + "".join(f"1 {AT + moment} {words}\n" for moment, words in more))


def write_played(setting, text):
    """The journal that a script makes, in a file."""
    script = f"{setting.folder}/script"
    with open(script, "w") as it:
        it.write(text)
    lines = setting.run("play", script).output.splitlines()
    text = "".join(line[2:] + "\n" for line in lines if line.startswith("+ "))
    with open(setting.journal, "w") as it:
        it.write(text)
    return text


def explained(setting, name):
    return setting.run("explain", setting.journal, name)


def test_a_story_that_goes_on(setting):
    played(setting)
    for name in ("2", ID, "http://127.0.0.1:8080/lra-coordinator/" + ID, "https://else.test/x/lra-coordinator/" + ID):
        equal(name, explained(setting, name), (0, WAITING, ""))


def test_a_story_that_has_ended(setting):
    played(setting, (6100, "reply 1 done"))
    equal("the action", explained(setting, "2"), (0, ENDED, ""))
    equal("the one above it", explained(setting, "1"), (0, OUTER, ""))


def test_a_story_that_ended_badly(setting):
    played(setting, (6100, "reply 1 failed"))
    equal("the action", explained(setting, "2"), (0, FAILED, ""))


def test_a_story_of_a_member_that_gives_no_answer(setting):
    """Its end says at which address it is called, how often it was in vain, and from when on it is called again."""
    played(setting, *SILENCES)
    equal("the action", explained(setting, "2"), (0, SILENT, ""))
    played(setting, (6100, "reply 1 accepted"))
    equal("a member that is at it", explained(setting, "2"), (0, AT_IT, ""))


def notices(*more):
    """A script of the action of which a member is still to be told, with more lines."""
    return f"0 {AT} enrol\n" + "".join(f"1 {AT + moment} {words}\n" for moment, words in NOTICES + more)


def test_a_story_that_has_ended_but_for_a_notice(setting):
    """A member that is still to be told how the action ended stands there too, once it is asked and after a silence."""
    write_played(setting, notices())
    equal("it is asked", explained(setting, "1"), (0, TOLD + OPEN_NOTICE, ""))
    write_played(setting, notices((2000, "reply 2 silent")))
    equal("it gave no answer", explained(setting, "1"), (0, TOLD + SILENT_NOTICE, ""))
    texts = pieces(drawn(setting, "1").output, "text")
    equal(
        "the lines of the picture", "".join(text for _, look, text in texts if look != "moment"), TOLD + SILENT_NOTICE
    )
    write_played(setting, notices((2000, "reply 2 done")))
    equal(
        "it was told",
        explained(setting, "1"),
        (0, TOLD + "line 10: member 1 answered that it knows how the action ended\n", ""),
    )


def test_a_story_of_no_action(setting):
    played(setting)
    other = "00000000-0000-8008-8000-000000000002"
    for name in ("3", "0", other, ID[:-1] + "9"):
        equal(name, explained(setting, name), (1, f"unknown action {name}\n", ""))
    for name in ("2x", "", "02", "+2", ID.replace("-", ""), ID + "/"):
        equal(name, explained(setting, name), (2, "", "lra: usage\n"))


def test_a_story_in_an_unsound_journal(setting):
    text = played(setting)
    with open(setting.journal, "a") as it:
        it.write(f"1 {AT + 9000} end 1 Closed\n")
    equal("a rule is broken", explained(setting, "2"), (1, "unsound line 10 unsettled\n", ""))
    with open(setting.journal, "w") as it:
        it.write(text[:-1])
    equal("the last line is torn", explained(setting, "2"), (1, "unsound line 9 grammar\n", ""))


def test_a_story_on_standard_input(setting):
    text = played(setting, (6100, "reply 1 done"))
    it = subprocess.run([setting.program, "explain", "-", "2"], input=text, capture_output=True, text=True)
    equal("the action", (it.returncode, it.stdout, it.stderr), (0, ENDED, ""))


def test_a_story_in_a_folder(setting):
    """The journal is the one whose instance the identifier bears, whatever its name is, also where it was put away."""
    text = played(setting)
    place = Place(setting)
    equal("no journal", setting.run("explain", place.path, ID), (2, "", f"lra: no journal in {place.path}\n"))
    place.put("a.journal", text.replace(HEADER, "lra-journal 2 8", 1))
    place.put("torn.journal", "lra-jour")
    equal("another's", setting.run("explain", place.path, ID), (1, f"unknown action {ID}\n", ""))
    os.symlink("circle.journal", f"{place.path}/circle.journal")
    told = f"lra: cannot read {place.path}/circle.journal\n"
    equal("one can't be read", setting.run("explain", place.path, ID), (2, "", told))
    place.put("ended/z.journal", text)
    for name in (ID, "https://else.test/x/lra-coordinator/" + ID):
        equal(name, setting.run("explain", place.path, name), (0, WAITING, told))
    place.remove("circle.journal")
    equal("a picture", setting.run("explain", place.path, ID, "--svg"), drawn(setting, ID))
    other = ID[:-1] + "9"
    equal("no action of it", setting.run("explain", place.path, other), (1, f"unknown action {other}\n", ""))
    told = f"lra: 2 is ambiguous in {place.path}: name the action by its UUID or URI\n"
    equal("a number alone", setting.run("explain", place.path, "2"), (2, "", told))


def test_a_folder_without_a_journal_is_a_fault(setting):
    place = Place(setting)
    listings = (("list", *options) for options in ((), ("--now",), ("--waits",), ("--state", "Active", "--now")))
    for verb, *options in (("audit",), ("show",), *listings):
        told = setting.run(verb, place.path, *options)
        equal(f"{verb} {options}", told, (2, "", f"lra: no journal in {place.path}\n"))
    place.put("notes", "")
    told = f"lra: {place.path}/notes is no journal\nlra: no journal in {place.path}\n"
    for verb in ("audit", "list"):
        equal(f"what is no journal, by {verb}", setting.run(verb, place.path), (2, "", told))
    place.remove("notes")
    place.put("ended/a.journal", HEADER + "\n")
    equal("one that was put away", setting.run("list", place.path), (0, "", ""))


def drawn(setting, name):
    return setting.run("explain", setting.journal, name, "--svg")


def pieces(picture, *names):
    """The pieces of a picture that have these names, in their order, each as its name, its class and its text."""
    found = (
        (it.tag.removeprefix("{http://www.w3.org/2000/svg}"), it.get("class"), it.text)
        for it in ElementTree.fromstring(picture).iter()
    )
    return [it for it in found if it[0] in names]


def test_a_picture_of_a_story(setting):
    """Its texts are the lines of the story, and beside each entry's are its moment and its mark."""
    done, failed = (6100, "reply 1 done"), (6100, "reply 1 failed")
    for more, name, lines in (
        ((), "2", WAITING),
        (SILENCES, "2", SILENT),
        ((done,), ID, ENDED),
        ((failed,), "2", FAILED),
        ((done,), "1", OUTER),
    ):
        played(setting, *more)
        picture = drawn(setting, name)
        equal("the status, and what is told", (picture.status, picture.told), (0, ""))
        texts = pieces(picture.output, "text")
        equal("the lines", "".join(text for _, look, text in texts if look != "moment"), lines)
        moments = [look for _, look, text in texts if look == "moment" and text.startswith("2026-11-26T22:15:0")]
        equal("how many moments there are", len(moments), lines.count("\nline "))
        check("it stands alone", not any(it in picture.output for it in ("<script", "href", "url(", "@import")))
    member, nested = "rect", "path"
    played(setting, failed)
    wanted = [("circle", "Active"), (member, "joined"), (member, "joined"), (member, "left"), ("circle", "Cancelling")]
    wanted += [(member, "asked"), (member, "failed"), ("circle", "FailedToCancel")]
    marks = pieces(drawn(setting, "2").output, "circle", member, nested)
    equal("the marks", [it[:2] for it in marks if it[1] != "lane"], wanted)
    marks = pieces(drawn(setting, "1").output, "circle", member, nested)
    wanted = [("circle", "Active"), (nested, "Active"), (nested, "Cancelling"), (nested, "FailedToCancel")]
    equal("the marks of the one above it", [it[:2] for it in marks if it[1] != "lane"], wanted)


def test_no_picture(setting):
    """Where the action isn't there, or the journal is unsound, the same is told as without one."""
    text = played(setting)
    for name in ("3", "0", ID[:-1] + "9"):
        equal(name, drawn(setting, name), (1, f"unknown action {name}\n", ""))
    for words in (
        ("--svg", setting.journal, "2"),
        (setting.journal, "--svg", "2"),
        (setting.journal, "--svg"),
        (setting.journal, "2", "--png"),
    ):
        equal(f"explain {words}", setting.run("explain", *words), (2, "", "lra: usage\n"))
    for words in (
        (setting.journal, "2", "--svg", "--svg"), (setting.journal, "2x", "--svg"), (setting.journal, "2", "")
    ):
        equal(f"explain {words}", setting.run("explain", *words), (2, "", "lra: usage\n"))
    with open(setting.journal, "a") as it:
        it.write(f"1 {AT + 9000} end 1 Closed\n")
    equal("a rule is broken", drawn(setting, "2"), (1, "unsound line 10 unsettled\n", ""))
    with open(setting.journal, "w") as it:
        it.write(text[:-1])
    equal("the last line is torn", drawn(setting, "2"), (1, "unsound line 9 grammar\n", ""))
    os.remove(setting.journal)
    equal("no journal", drawn(setting, "2"), (2, "", f"lra: cannot read {setting.journal}\n"))


def test_a_listing(setting):
    played(setting, (6100, "reply 1 done"))
    first = f"1 {FIRST_ID} Active * 6.100 *\n"
    second = f"2 {ID} Cancelled 1 5.100 Compensated=1,Left=1\n"
    wanted = {
        (): first + second,
        ("--state", "Cancelled"): second,
        ("--state", "Closed"): "",
        ("--older-than", "5"): first + second,
        ("--older-than", "6"): first,
        ("--older-than", "6", "--state", "Active"): first,
        ("--older-than", "7"): "",
    }
    for options, lines in wanted.items():
        equal(f"list {options}", setting.run("list", setting.journal, *options), (0, lines, ""))
    for options in (("--state", "Open"), ("--older-than",), ("--older-than", "-1"), ("--all",), ("2",)):
        equal(f"list {options}", setting.run("list", setting.journal, *options), (2, "", "lra: usage\n"))


def test_a_listing_with_what_is_waited_for(setting):
    """Below each action's line stand those with which its story ends, also once it has ended; in a folder too."""
    text = played(setting, *SILENCES)
    lines = {
        "1": (f"1 {FIRST_ID} Active * 7.900 *\n", "waits for its client to close or cancel it\n"),
        "2": (f"2 {ID} Cancelling 1 6.900 Compensating=1,Left=1\n", SILENT.rpartition("line 12:")[2].split("\n", 1)[1]),
    }

    def waited(numbers, prefix=""):
        told = ([lines[number][0], *("  " + it for it in lines[number][1].splitlines(True))] for number in numbers)
        return "".join(prefix + line for each in told for line in each)

    for options, wanted in (
        (("--waits",), waited("12")),
        (("--state", "Cancelling", "--waits"), waited("2")),
        (("--waits", "--older-than", "7"), waited("1")),
        (("--older-than", "8", "--waits"), ""),
        ((), lines["1"][0] + lines["2"][0]),
    ):
        equal(f"list {options}", setting.run("list", setting.journal, *options), (0, wanted, ""))
    place = Place(setting)
    place.put("a.journal", text)
    equal("a folder", setting.run("list", place.path, "--waits"), (0, waited("12", "a.journal "), ""))
    write_played(setting, notices((2000, "reply 2 silent")))
    line = f"1 {FIRST_ID} Closed * 2.000 Completed=1\n"
    wanted = line + "".join("  " + it for it in SILENT_NOTICE.splitlines(True)[1:])
    equal("a notice", setting.run("list", setting.journal, "--waits"), (0, wanted, ""))
    write_played(setting, notices((2000, "reply 2 done")))
    equal("nothing", setting.run("list", setting.journal, "--waits"), (0, line, ""))


def test_a_listing_of_what_ended_badly(setting):
    played(setting, (6100, "reply 1 failed"))
    line = f"2 {ID} FailedToCancel 1 5.100 FailedToCompensate=1,Left=1\n"
    for state, lines in (("FailedToCancel", line), ("Cancelled", ""), ("FailedToClose", "")):
        equal(f"those that are {state}", setting.run("list", setting.journal, "--state", state), (0, lines, ""))
    begun = "".join(
        f"1 {AT} {words}\n" for words in ("start * 0", "join 1 http://n.test/u http://n.test/c * * *", "close 1", "ask")
    )
    write_played(setting, f"0 {AT} enrol\n{begun}1 {AT + 1000} reply 1 failed\n")
    line = f"1 {FIRST_ID} FailedToClose * 1.000 FailedToComplete=1\n"
    for state, lines in (("FailedToClose", line), ("Closed", ""), ("FailedToCancel", "")):
        equal(f"those that are {state}", setting.run("list", setting.journal, "--state", state), (0, lines, ""))


def test_a_listing_of_a_folder(setting):
    text = played(setting, (6100, "reply 1 done"))
    os.remove(setting.journal)
    os.remove(f"{setting.folder}/script")
    os.makedirs(f"{setting.folder}/ended")
    for name, content in (
        ("b.journal", text),
        ("a.journal", HEADER + "\n1 0 end 1 Closed\n"),
        ("ended/c.journal", HEADER + "\n"),
        ("notes", ""),
    ):
        with open(f"{setting.folder}/{name}", "w") as it:
            it.write(content)
    wanted = (
        "a.journal unsound line 2 clerk\n"
        f"b.journal 1 {FIRST_ID} Active * 6.100 *\n"
        f"b.journal 2 {ID} Cancelled 1 5.100 Compensated=1,Left=1\n"
    )
    equal(
        "the folder", setting.run("list", setting.folder), (1, wanted, f"lra: {setting.folder}/notes is no journal\n")
    )


def test_names_that_are_no_text_or_have_control_characters(setting):
    """They are told like all that is no journal, and the others go on."""
    for name in (b"\xff\xfe.journal", b"a\x1b[2Jb\n"):
        with open(os.path.join(setting.folder.encode(), name), "wb"):
            pass
    with open(f"{setting.folder}/a.journal", "w") as it:
        it.write(HEADER + "\n")
    told = "".join(f"lra: {setting.folder}/{name} is no journal\n" for name in ("?", "a?[2Jb?"))
    for verb, wanted in (("audit", "a.journal sound 0\njournals sound 1 unsound 0 unread 0\n"), ("list", "")):
        done = setting.run(verb, setting.folder)
        equal(verb, (done.status, done.told), (0, told))
        check(f"{verb} says {done.output!r}", done.output.endswith(wanted.splitlines(True)[-1] if wanted else ""))


class Following:
    """A program that follows a journal, or those of a folder."""

    def __init__(self, setting, *options, place=None):
        self.output = open(f"{setting.folder}/followed", "w+")
        self.told = open(f"{setting.folder}/told", "w+")
        self.process = subprocess.Popen(
            [setting.program, "follow", place or setting.journal, *options],
            stdin=subprocess.PIPE,
            stdout=self.output,
            stderr=self.told,
            text=True,
        )

    def __enter__(self):
        return self

    def __exit__(self, *_):
        self.process.kill()
        self.process.wait()
        self.process.stdin.close()
        self.output.close()
        self.told.close()

    def read(self):
        with open(self.output.name) as it:
            return it.read()

    def waits_for(self, *texts):
        """Waits until it has printed one of these texts, and answers that."""
        wait_until(f"it prints {' or '.join(map(repr, texts))}", lambda: self.read() in texts)
        return self.read()

    def last(self):
        """What was told last of each journal of a folder, by its name."""
        rows = [line.split(" ", 1) for line in self.read().splitlines()]
        return {os.path.basename(name): words for name, words in filter(lambda row: len(row) == 2, rows)}

    def ends(self, status, told=""):
        equal("the status", self.process.wait(PATIENCE), status)
        with open(self.told.name) as it:
            equal("what is told", it.read(), told)


def test_a_journal_that_is_followed(setting):
    lines = played(setting, (6100, "reply 1 done")).splitlines(keepends=True)
    with open(setting.journal, "w") as it:
        it.write("")
    with Following(setting) as following, open(setting.journal, "a", buffering=1) as journal:
        journal.write("".join(lines[:3]))
        first = "sound so far: 2 entries, 1 actions, 1 unended\n"
        following.waits_for(first)
        journal.write("".join(lines[3:]))
        second = first + "sound so far: 10 entries, 2 actions, 1 unended\n"
        following.waits_for(second)
        journal.write(f"1 {AT + 9000} end 1 Cl")
        journal.flush()
        time.sleep(1.5)
        equal("a line that is being written", following.read(), second)
        journal.write("osed\n")
        following.waits_for(second + "unsound line 12 unsettled\n")
        following.ends(1)


def test_a_journal_that_is_lost(setting):
    text = played(setting)
    wanted = "sound so far: 8 entries, 2 actions, 2 unended\n"
    with Following(setting) as following:
        following.waits_for(wanted)
        with open(setting.journal, "r+") as it:
            it.truncate(len(text) - 1)
        following.ends(2, f"lra: {setting.journal} has become shorter\n")
    played(setting)
    with Following(setting) as following:
        following.waits_for(wanted)
        with open(setting.journal + ".new", "w") as it:
            it.write(text)
        os.replace(setting.journal + ".new", setting.journal)
        following.ends(2, f"lra: {setting.journal} isn't the file that was read any more\n")


def test_following_ends(setting):
    played(setting)
    wanted = "sound so far: 8 entries, 2 actions, 2 unended\n"
    with Following(setting, "--stop-at-eof") as following:
        following.waits_for(wanted)
        following.process.stdin.close()
        following.ends(0)
        equal("what is printed", following.read(), wanted)
    with Following(setting) as following:
        following.waits_for(wanted)
        following.process.send_signal(signal.SIGTERM)
        following.ends(-signal.SIGTERM)


def sound(entries, actions, unended):
    return f"sound so far: {entries} entries, {actions} actions, {unended} unended\n"


class Place:
    """A folder of journals that a test writes."""

    def __init__(self, setting):
        self.path = f"{setting.folder}/journals"
        os.makedirs(f"{self.path}/ended")

    def put(self, name, text, mode="w"):
        with open(f"{self.path}/{name}", mode) as it:
            it.write(text)

    def move(self, name, other):
        os.rename(f"{self.path}/{name}", f"{self.path}/{other}")

    def remove(self, name):
        os.remove(f"{self.path}/{name}")


def test_a_folder_that_is_followed(setting):
    """What was put away is followed too, and so is what is new; a journal that is put away goes on as the same one."""
    text = played(setting, (6100, "reply 1 done"))
    lines = text.splitlines(keepends=True)
    place = Place(setting)
    place.put("b.journal", text)
    place.put("ended/a.journal", text)
    place.put("c.next", "no journal yet\n")
    place.put("notes", "")
    with Following(setting, place=place.path) as following:
        told = f"b.journal {sound(10, 2, 1)}ended/a.journal {sound(10, 2, 1)}"
        following.waits_for(told)
        place.put("c.next", "".join(lines[:3]))
        place.move("c.next", "c.journal")
        told += "c.journal " + sound(2, 1, 1)
        following.waits_for(told)
        place.put("c.journal", "".join(lines[3:6]), "a")
        place.move("c.journal", "ended/c.journal")
        # It may look before that is moved, or after it.
        told = following.waits_for(*(f"{told}{name} {sound(5, 2, 2)}" for name in ("ended/c.journal", "c.journal")))
        place.put("ended/c.journal", "".join(lines[6:]), "a")
        told += "ended/c.journal " + sound(10, 2, 1)
        following.waits_for(told)
        place.put("b.journal", f"1 {AT + 9000} end 1 Closed\n", "a")
        following.waits_for(told + "b.journal unsound line 12 unsettled\n")
        following.ends(1, f"lra: {place.path}/notes is no journal\n")


def test_a_journal_of_a_folder_that_is_lost(setting):
    """Who lets go of what was put away does no harm; but one that isn't there, or is shorter, is lost."""
    text = played(setting)
    told = f"b.journal {sound(8, 2, 2)}ended/a.journal {sound(8, 2, 2)}"
    place = Place(setting)
    for deed, wanted in (
        (lambda: place.remove("b.journal"), "isn't the file that was read any more"),
        (lambda: place.put("b.journal", text[:-1]), "has become shorter"),
    ):
        place.put("b.journal", text)
        place.put("ended/a.journal", text)
        with Following(setting, place=place.path) as following:
            following.waits_for(told)
            place.remove("ended/a.journal")
            time.sleep(1)
            equal("what is printed", following.read(), told)
            deed()
            following.ends(2, f"lra: {place.path}/b.journal {wanted}\n")
    os.chmod(f"{place.path}/b.journal", 0)
    if not os.access(f"{place.path}/b.journal", os.R_OK):
        equal(
            "one that can't be read",
            setting.run("follow", place.path),
            (2, "", f"lra: cannot read {place.path}/b.journal\n"),
        )


def test_a_folder_that_is_served_and_followed(setting):
    """At its end each journal, also those that were put away meanwhile, was told as the audit tells it."""
    with Folder(setting, *SOON) as folder, Following(setting, "--stop-at-eof", place=folder.folder) as following:
        with folder.client() as client:
            for ended in (1, 2):
                for action in folder.first(3):
                    client.end(action, "close")
                wait_until("it is put away", lambda ended=ended: len(folder.ended()) == ended)
            client.start()
        folder.kill()
        audited = setting.run("audit", folder.folder)
        equal("the audit's status", audited.status, 0)
        wanted = {}
        for line in audited.output.splitlines()[:-1]:
            name, _, _, entries, _, actions, _, unended, *_ = line.split()
            wanted[os.path.basename(name)] = sound(entries, actions, unended).strip()
        names = sorted(name + ".journal" for name in folder.journals() + folder.ended())
        equal("the journals that are audited", sorted(wanted), names)
        # It looks some times a second.
        wait_until("that all is followed", lambda: following.last() == wanted)
        following.process.stdin.close()
        following.ends(0)
        equal("what was told last of each", following.last(), wanted)


def test_what_cannot_be_read(setting):
    for words in (("explain", setting.journal, "1"), ("list", setting.journal), ("follow", setting.journal)):
        equal(words[0], setting.run(*words), (2, "", f"lra: cannot read {setting.journal}\n"))
    check(
        "help has them", all(f"lra {verb} " in setting.run("--help").output for verb in ("explain", "list", "follow"))
    )
