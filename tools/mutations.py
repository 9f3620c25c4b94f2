"""Changes texts, lists of lines and connections at random, for `fuzz`. Each function takes the random numbers and a
text or a list, and returns another."""
import re
from collections import namedtuple

ACTIONS = b"Active Closing Closed FailedToClose Cancelling Cancelled FailedToCancel".split()
MEMBERS = b"Active Completing Completed FailedToComplete Compensating Compensated FailedToCompensate Left".split()
DEEDS = b"enrol start join leave close cancel skip ask reply report end restart renew tick status member".split()
OTHERS = b"client parent limit complete compensate status forget after done accepted failed silent * audit".split()
NAMES = sorted(set(ACTIONS + MEMBERS + DEEDS + OTHERS))
ADDRESSES = (
    b"* http://a.test/u http://a.test/c http://[::1]:99/p?q=1#f http://A.test http://u:p@h.test/ https://no.test/ "
    b"p.test/x"
).split()
EDGES = [
    0, 1, 2, 63, 64, 65, 99, 100, 4095, 4096,
    2**31, 2**32 - 1, 2**32, 2**60 - 1, 2**60, 2**62 - 1, 2**62, 2**63, 2**64 - 1, 2**64,
]
# What bytes are set into a text.
BYTES = [b" ", b"\n", b"\r\n", b"\0", b"*", b"0", b"+", b"-", b"\xff", b"\xc3\xa9", b"\t", b"a" * 5000]
NUMBER = re.compile(rb"(?<![0-9A-Za-z])\d+(?![0-9A-Za-z])")

# What is set into requests of an interface: fields, targets and bodies.
Words = namedtuple("Words", "heads targets bodies")

HEADS = [
    b"Transfer-Encoding: chunked", b"Content-Length: 0", b"Content-Length: +1", b"Content-Length: 65537",
    b"Content-Length: 2", b"Content-Encoding: gzip", b"Expect: 100-continue", b"Connection: close",
    b"Connection: keep-alive, Close", b"Host: h.test", b"Host:", b"X: \xff", b" folded", b"X", b"X:" + b"y" * 9000,
    b"Content-Length: 99999999999999999999",
]
TARGETS = (
    b"/lra-coordinator /lra-coordinator/ /lra-recovery / * /lra-coordinator?x=1 "
    b"http://127.0.0.1:8080/lra-coordinator /%6cra-coordinator"
).split()
BODIES = [
    b"", b"{}", b"[]", b"null", b'{"limit":-1}', b'{"limit":1e3}', b'{"limit":18446744073709551616}',
    b'{"status":"Completed"}', b'{"limit":"1"}', b"{" * 200, b'{"a":' * 130, b'{"compensate":"http://a.test/u"}',
    b'{"after":"\\u0000"}', b'"\xff"',
]
OWN = Words(HEADS, TARGETS, BODIES)


def part(rng, data):
    """A short part of a text: where it begins and ends."""
    start = rng.randrange(len(data) + 1)
    return start, min(len(data), start + rng.choice([1, 1, 2, 8, 40]))


def change_bytes(rng, data):
    start, end = part(rng, data)
    how = rng.randrange(6)
    if how == 0 and start < len(data):
        return data[:start] + bytes([data[start] ^ 1 << rng.randrange(8)]) + data[start + 1 :]
    if how == 1:
        return data[:start] + data[end:]
    if how == 2:
        return data[:end] + data[start:]
    if how == 3:
        return data[:start]
    if how == 4:
        return data[:start] + rng.randbytes(end - start) + data[end:]
    return data[:start] + rng.choice(BYTES) + data[start:]


def number(rng, others=()):
    """A number as a word: one near those that are there, or at an edge of what numbers may be."""
    if others and rng.random() < 0.6:
        return b"%d" % max(0, int(rng.choice(others)[:30]) + rng.choice([-1, 0, 0, 1]))
    return rng.choice([
        b"%d" % rng.choice(EDGES), b"%d" % rng.randrange(8), b"%d" % rng.randrange(2000), b"0%d" % rng.randrange(9),
        b"-1", b"+1", b"*",
    ])


def change_number(rng, data):
    found = list(NUMBER.finditer(data))
    if not found:
        return data
    at = rng.choice(found)
    return data[: at.start()] + number(rng, [it[0] for it in found]) + data[at.end() :]


def change_word(rng, data):
    """One word of a text replaced, dropped, repeated, or set beside another."""
    words = list(re.finditer(rb"[^ \r\n]+", data))
    if not words:
        return data
    at = rng.choice(words)
    word = rng.choice([
        rng.choice(NAMES), rng.choice(ADDRESSES), rng.choice(words)[0], b"",
        at[0] + b" " + at[0], at[0][:-1], at[0].swapcase(),
    ])
    return data[: at.start()] + word + data[at.end() :]


def change_lines(rng, lines, others):
    """Lines swapped, dropped, repeated, moved, or spliced with those of another text."""
    lines = list(lines)
    if not lines:
        return list(others)
    one, two = rng.randrange(len(lines)), rng.randrange(len(lines))
    how = rng.randrange(8)
    if how == 0:
        lines[one], lines[two] = lines[two], lines[one]
    elif how == 1:
        del lines[min(one, two) : min(max(one, two), one + 5) + 1]
    elif how == 2:
        lines[two:two] = lines[one : one + rng.choice([1, 1, 3, 30])]
    elif how == 3:
        lines.insert(two, lines.pop(one))
    elif how == 4 and others:
        lines = lines[:one] + others[rng.randrange(len(others)) :]
    elif how == 5 and others:
        lines.insert(one, rng.choice(others))
    elif how == 6:
        lines[one:one] = [lines[one]] * rng.choice([2, 70, 1500])
    else:
        lines = lines[:one]
    return lines


def requests(data):
    """The requests of a connection as it is well spelled, each with its head and its body."""
    found = []
    while data:
        head, gap, data = data.partition(b"\r\n\r\n")
        length = re.search(rb"(?i)^content-length: (\d{1,5})\r?$", head, re.M)
        size = int(length[1]) if length else 0
        found.append(head + gap + data[:size])
        data = data[size:]
    return found


def change_request(rng, request, words=OWN):
    head, gap, body = request.partition(b"\r\n\r\n")
    lines = head.split(b"\r\n")
    how = rng.randrange(7)
    if how == 0:
        lines.insert(rng.randrange(len(lines)) + 1, rng.choice(words.heads))
    elif how == 1:
        lines = lines[:1] + change_lines(rng, lines[1:], words.heads)
    elif how == 2:
        first = lines[0].split(b" ")
        first[rng.randrange(len(first))] = rng.choice(
            [*words.targets, b"GET", b"PUT", b"POST", b"DELETE", b"HTTP/1.0", b"HTTP/1.1", b"HTTP/2", b""]
        )
        lines[0] = b" ".join(first)
    elif how == 3:
        body = rng.choice([*words.bodies, change_bytes(rng, body), change_word(rng, body), change_number(rng, body)])
        lines = [it for it in lines if not it.lower().startswith(b"content-length:")]
        lines += [b"Content-Length: %d" % len(body)]
    elif how == 4:
        lines[0] = change_number(rng, lines[0].replace(b"-", b" - ")).replace(b" - ", b"-")
    elif how == 5:
        lines[0] = re.sub(rb"[0-9a-f]{12}(?=[/ ])", b"%012x" % rng.choice([0, 1, 2, 3, 99]), lines[0])
    else:
        return change_bytes(rng, request)
    return b"\r\n".join(lines) + gap + body


def change_stream(rng, data, others, words=OWN):
    """A connection, changed a few times: its requests, and then its bytes."""
    found = requests(data)
    for _ in range(rng.choice([0, 1, 2, 4, 8])):
        if rng.random() < 0.3 or not found:
            found = change_lines(rng, found, requests(rng.choice(others)))
        else:
            at = rng.randrange(len(found))
            found[at] = change_request(rng, found[at], words)
    data = b"".join(found)
    return change_bytes(rng, data) if rng.random() < 0.2 else data

