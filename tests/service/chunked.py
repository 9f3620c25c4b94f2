"""Chunked bodies of requests and `Expect: 100-continue`, with `--chunked` and without: pieces cut at each byte,
extensions, trailers, limits, requests sent ahead, and framings by which a request could be smuggled, some made at
random."""
import json
import os
import random
import socket
import time

import framings
import journal
from framings import BAD_BODY, BAD_HEAD, BAD_LENGTH, CODED, CREATED, MOST, NO_ACTION, NOT_SERVED, TOO_LARGE
from framings import HEAD as START
from options import config, refused, told_of
from service import Service, check, equal, is_ready, received

# A start with the parent that there isn't, and what it is answered: it shows that the body was read to its end.
BODY = b'{"parent":"http://h/lra-coordinator/9","limit":1}'
CONTINUE = b"HTTP/1.1 100 Continue\r\n\r\n"
# How many connections are made at random.
RANDOM = 200


def chunked(*contents, extension=b"", trailer=b""):
    """A body in these chunks (RFC 9112, section 7.1)."""
    lines = b"".join(b"%x%s\r\n%s\r\n" % (len(it), extension, it) for it in contents)
    return lines + b"0" + extension + b"\r\n" + trailer + b"\r\n"


def start(body=None, fields=CODED):
    """A request with chunks, or with another body and other fields."""
    return START + fields + b"\r\n" + (chunked(BODY) if body is None else body)


def sized(body):
    """The same request with a stated length."""
    return START + b"Content-Length: %d\r\n\r\n" % len(body) + body


class Chunked(Service):
    """A service that accepts chunked bodies."""

    def __init__(self, setting, *options):
        super().__init__(setting.program, setting.journal, 1)
        self.words[2:2] = ["--chunked", *options]


def replies_in(data):
    """The status and the error of each reply, in order; an interim response is a reply without a body."""
    found = []
    while data:
        head, _, data = data.partition(b"\r\n\r\n")
        lines = head.split(b"\r\n")
        fields = dict(line.lower().split(b": ", 1) for line in lines[1:])
        length = int(fields.get(b"content-length", 0))
        body, data = data[:length], data[length:]
        value = json.loads(body) if body else {}
        found.append((int(lines[0].split()[1]), value.get("error")))
    return found


def exchange(service, *pieces, pause=0, shut=True):
    """Sends pieces over a connection of their own, and returns the replies once the connection has ended."""
    with service.connect() as stream:
        for piece in pieces:
            try:
                stream.sendall(piece)
            except (BrokenPipeError, ConnectionResetError):
                break
            time.sleep(pause)
        if shut:
            try:
                stream.shutdown(socket.SHUT_WR)
            except OSError:
                pass  # it is closed already
        return replies_in(received(stream)[0])


def answered(service, what, request, *wanted):
    """Compares the replies to bytes that are sent at once."""
    equal(what, exchange(service, request), list(wanted))


def test_bodies_in_chunks(setting):
    with Chunked(setting) as service:
        answered(service, "one chunk", start(), NO_ACTION)
        answered(service, "bytes", start(chunked(*(bytes([it]) for it in BODY))), NO_ACTION)
        answered(service, "no chunk", start(chunked()), CREATED)
        answered(service, "extensions", start(chunked(BODY[:9], BODY[9:], extension=b';a=b;c="d"')), NO_ACTION)
        answered(service, "white space", start(chunked(BODY, extension=b" \t")), NO_ACTION)
        answered(service, "trailers", start(chunked(BODY, trailer=b"X: 1\r\nContent-Length: 7\r\n")), NO_ACTION)
        answered(service, "zeros", start(b"%016x\r\n%s\r\n000\r\n\r\n" % (len(BODY), BODY)), NO_ACTION)
        answered(service, "capitals", start(b"%X\r\n%s\r\n0\r\n\r\n" % (len(BODY), BODY)), NO_ACTION)
        answered(service, "a name's case", start(fields=b"tRANSFER-eNCODING:\tCHUNKED \r\n"), NO_ACTION)
        answered(service, "a stated length", sized(BODY), NO_ACTION)
        answered(service, "no JSON", start(chunked(BODY[:-1])), BAD_BODY)
        answered(service, "line ends in the data", start(chunked(BODY[:1] + b"\r\n0\r\n\r\n")), BAD_BODY)
        # Only what the chunks have is the body: neither a trailer nor an extension is.
        answered(service, "a trailer as body", start(chunked(BODY[:-1], trailer=b"A: }\r\n")), BAD_BODY)


def test_pieces_cut_at_each_byte(setting):
    request = start(chunked(BODY[:20], BODY[20:], extension=b";x", trailer=b"A: b\r\n"))
    with Chunked(setting) as service:
        for place in range(1, len(request)):
            equal(f"cut at {place}", exchange(service, request[:place], request[place:], pause=0.002), [NO_ACTION])
        equal("each byte", exchange(service, *(bytes([it]) for it in request)), [NO_ACTION])


def test_requests_behind_a_chunked_one(setting):
    whole = start(chunked(BODY, trailer=b"A: b\r\n"))
    with Chunked(setting) as service:
        answered(service, "two", whole + start(chunked()), NO_ACTION, CREATED)
        answered(service, "between", sized(BODY) + whole + sized(b"") + whole, NO_ACTION, NO_ACTION, CREATED, NO_ACTION)
        answered(service, "twenty", 20 * whole, *20 * [NO_ACTION])
        answered(service, "in halves", whole + whole[:-1], NO_ACTION)
        equal("cut", exchange(service, whole[:-1]), [])


def test_limits_of_chunked_bodies(setting):
    full = BODY + (MOST - len(BODY)) * b" "
    with Chunked(setting) as service:
        answered(service, "the largest body", start(chunked(full)), NO_ACTION)
        many = (full[it : it + 64] for it in range(0, MOST, 64))
        answered(service, "in 1,024 chunks", start(chunked(*many)), NO_ACTION)
        answered(service, "one byte more", start(chunked(full + b" ")), TOO_LARGE)
        answered(service, "one byte more in a chunk of its own", start(chunked(full, b" ")), TOO_LARGE)
        answered(service, "a size past it", start(b"%x\r\n" % (MOST + 1)), TOO_LARGE)
        # The lines of the chunks and the trailer may have as many bytes as a body.
        answered(service, "a long extension", start(chunked(BODY, extension=b";" + 30_000 * b"x")), NO_ACTION)
        answered(service, "one that is too long", start(chunked(BODY, extension=b";" + 140_000 * b"x")), TOO_LARGE)
        answered(service, "a long trailer", start(chunked(BODY, trailer=b"A: " + 60_000 * b"x" + b"\r\n")), NO_ACTION)
        answered(service, "one that is too long", start(chunked(BODY, trailer=b"A: " + 140_000 * b"x")), TOO_LARGE)
        answered(service, "64 fields", start(chunked(BODY, trailer=64 * b"A: b\r\n")), NO_ACTION)
        answered(service, "65 fields", start(chunked(BODY, trailer=65 * b"A: b\r\n")), BAD_LENGTH)
        answered(service, "chunks of a byte", start(chunked(*(65_536 * [b" "]))), TOO_LARGE)


# What could be taken for another message by someone between, and what it is answered. The connection is closed.
SMUGGLED = (
    ("both lengths", start(fields=CODED + b"Content-Length: 5\r\n"), BAD_LENGTH),
    ("both, the other way round", start(fields=b"Content-Length: 5\r\n" + CODED), BAD_LENGTH),
    ("a length that is none", start(fields=CODED + b"Content-Length: x\r\n"), BAD_LENGTH),
    ("HTTP/1.0", start().replace(b"HTTP/1.1", b"HTTP/1.0"), BAD_LENGTH),
    ("another coding", start(fields=b"Transfer-Encoding: gzip\r\n"), NOT_SERVED),
    ("a list of codings", start(fields=b"Transfer-Encoding: gzip, chunked\r\n"), NOT_SERVED),
    ("chunked twice in a field", start(fields=b"Transfer-Encoding: chunked, chunked\r\n"), NOT_SERVED),
    ("chunked in two fields", start(fields=CODED + CODED), NOT_SERVED),
    ("identity", start(fields=b"Transfer-Encoding: identity\r\n"), NOT_SERVED),
    ("no coding", start(fields=b"Transfer-Encoding:\r\n"), NOT_SERVED),
    ("a parameter", start(fields=b"Transfer-Encoding: chunked;q=1\r\n"), NOT_SERVED),
    ("a control byte", start(fields=b"Transfer-Encoding: \x0bchunked\r\n"), BAD_HEAD),
    ("a coding of the content", start(fields=CODED + b"Content-Encoding: gzip\r\n"), NOT_SERVED),
    ("no digit", start(b"\r\n%s\r\n0\r\n\r\n" % BODY), BAD_LENGTH),
    ("an extension alone", start(b";a\r\n%s\r\n0\r\n\r\n" % BODY), BAD_LENGTH),
    ("another digit", start(b"3g\r\n%s\r\n0\r\n\r\n" % BODY), BAD_LENGTH),
    ("0x", start(b"0x%x\r\n%s\r\n0\r\n\r\n" % (len(BODY), BODY)), BAD_LENGTH),
    ("a sign", start(b"+%x\r\n%s\r\n0\r\n\r\n" % (len(BODY), BODY)), BAD_LENGTH),
    ("17 digits", start(b"%017x\r\n%s\r\n0\r\n\r\n" % (len(BODY), BODY)), BAD_LENGTH),
    ("a number past 64 bits", start(b"1%016x\r\n%s\r\n0\r\n\r\n" % (len(BODY), BODY)), BAD_LENGTH),
    ("the largest number", start(b"ffffffffffffffff\r\n%s\r\n0\r\n\r\n" % BODY), TOO_LARGE),
    ("white space before the size", start(b" %x\r\n%s\r\n0\r\n\r\n" % (len(BODY), BODY)), BAD_LENGTH),
    ("white space within the size", start(b"3 1\r\n%s\r\n0\r\n\r\n" % BODY), BAD_LENGTH),
    ("a bare line feed after the size", start(b"%x\n%s\r\n0\r\n\r\n" % (len(BODY), BODY)), BAD_LENGTH),
    ("a bare line feed in an extension", start(b"%x;a\n%s\r\n0\r\n\r\n" % (len(BODY), BODY)), BAD_LENGTH),
    ("a bare CR in an extension", start(b"%x;a\rb\r\n%s\r\n0\r\n\r\n" % (len(BODY), BODY)), BAD_LENGTH),
    ("a bare line feed after the data", start(b"%x\r\n%s\n0\r\n\r\n" % (len(BODY), BODY)), BAD_LENGTH),
    ("no line end after the data", start(b"%x\r\n%s0\r\n\r\n" % (len(BODY), BODY)), BAD_LENGTH),
    ("data that are longer", start(b"%x\r\n%s\r\n0\r\n\r\n" % (len(BODY) - 1, BODY)), BAD_LENGTH),
    ("data that are shorter", start(b"%x\r\n%s\r\n0\r\n\r\n" % (len(BODY) + 1, BODY)), BAD_LENGTH),
    ("a bare line feed after the last size", start(b"%x\r\n%s\r\n0\n\r\n" % (len(BODY), BODY)), BAD_LENGTH),
    ("a bare line feed at the end", start(b"%x\r\n%s\r\n0\r\n\n" % (len(BODY), BODY)), BAD_LENGTH),
    ("a bare line feed in a trailer", start(chunked(BODY, trailer=b"A: b\n")), BAD_LENGTH),
    ("a trailer without a name", start(chunked(BODY, trailer=b": b\r\n")), BAD_LENGTH),
    ("a trailer without a colon", start(chunked(BODY, trailer=b"GET / HTTP/1.1\r\n")), BAD_LENGTH),
    ("a folded trailer", start(chunked(BODY, trailer=b"A: b\r\n c\r\n")), BAD_LENGTH),
)


def test_framings_that_smuggle(setting):
    with Chunked(setting) as service:
        for what, request, wanted in SMUGGLED:
            # The request behind isn't read: nothing is answered but the fault.
            answered(service, what, request + start(chunked()), wanted)
            equal(f"{what}, in bytes", exchange(service, *(bytes([it]) for it in request)), [wanted])
        equal("the service goes on", exchange(service, start()), [NO_ACTION])


def test_random_bodies_in_random_chunks(setting):
    random.seed(1)
    with Chunked(setting) as service:
        for number in range(1000):
            size = random.choice((0, 1, 2, 15, 16, 17, 100, 1000, random.randrange(3000)))
            body = random.choice((random.randbytes(size), b" " * size, b"{%s}" % (b" " * size), BODY))
            rest, contents = body, []
            while rest:
                count = random.randint(1, random.choice((1, 5, 50, 5000)))
                contents.append(rest[:count])
                rest = rest[count:]
            extension = random.choice((b"", b";", b";a=1", b" "))
            trailer = random.choice((b"", b"A: 1\r\n", b"A: 1\r\nB:\r\n"))
            # Chunks of a byte make more bytes of framing than a body may have.
            if 12 * len(contents) > MOST:
                continue
            request = start(chunked(*contents, extension=extension, trailer=trailer))
            place = random.randrange(1, len(request))
            got, wanted = exchange(service, request[:place], request[place:]), exchange(service, sized(body))
            equal(f"body {number}, {body[:60]!r} in {len(contents)} chunks", got, wanted)


def test_random_framings_in_random_pieces(setting):
    seed = os.environ.get("FRAMINGS_SEED", random.randrange(10**6))
    rng, fresh, ordered = random.Random(f"{seed} framings"), framings.limits(), []
    with Chunked(setting) as service:
        for number in range(RANDOM):
            messages = framings.connection(rng, fresh)
            pieces = framings.pieces_of(rng, messages)
            got, wanted = exchange(service, *pieces, pause=rng.choice((0, 0, 0.001))), framings.replies_to(messages)
            told = f"seed {seed}, connection {number}, {[it.what for it in messages]}: {got}, wanted {wanted}"
            check(told, framings.agree(got, wanted))
            ordered += framings.ordered_by(messages)
    # Nothing that stood behind a fault was ordered.
    starts = [int(it.fields[2]) for it in journal.entries(setting.journal) if it.deed == "start"]
    equal(f"seed {seed}: the limits of what was started", starts, ordered)
    journal.check_sound(setting.program, journal.read(setting.journal), setting.folder)


def expecting(fields, expectation=b"100-continue"):
    return START + b"Expect: " + expectation + b"\r\n" + fields + b"\r\n"


def awaited(stream, seconds=5):
    """What comes next within so many seconds."""
    return stream.recv(65536) if is_ready(stream, seconds) else b""


def test_clients_that_wait_for_100_continue(setting):
    length = b"Content-Length: %d\r\n" % len(BODY)
    with Chunked(setting) as service:
        for what, fields, body in (("chunks", CODED, chunked(BODY)), ("a length", length, BODY)):
            with service.connect() as stream:
                for _ in range(2):
                    stream.sendall(expecting(fields))
                    equal(f"{what}: what comes first", awaited(stream), CONTINUE)
                    equal(f"{what}: nothing more comes", awaited(stream, 0.3), b"")
                    stream.sendall(body)
                    equal(f"{what}: the reply", replies_in(awaited(stream)), [NO_ACTION])
            # A body that has come needs no leave.
            answered(service, f"{what}, with the body", expecting(fields) + body, NO_ACTION)
            # Nothing is said before the head is whole.
            with service.connect() as stream:
                head = expecting(fields)
                stream.sendall(head[:-2])
                equal(f"{what}: a head that isn't whole", awaited(stream, 0.3), b"")
                stream.sendall(head[-2:])
                equal(f"{what}: once it is", awaited(stream), CONTINUE)
            # The replies to the requests before come first.
            with service.connect() as stream:
                stream.sendall(3 * start() + expecting(fields))
                data = b""
                while piece := awaited(stream, 1):
                    data += piece
                equal(f"{what}: behind others", replies_in(data), 3 * [NO_ACTION] + [(100, None)])
                stream.sendall(body)
                equal(f"{what}: and then", replies_in(awaited(stream)), [NO_ACTION])
        both = CODED + length
        answered(service, "a head that is refused", expecting(both), BAD_LENGTH)
        answered(service, "a length that is too large", expecting(b"Content-Length: 65537\r\n"), TOO_LARGE)
        answered(service, "another coding", expecting(b"Transfer-Encoding: gzip\r\n"), NOT_SERVED)
        answered(service, "another expectation", expecting(length, b"a=b") + BODY, NOT_SERVED)
        answered(service, "two", expecting(length, b"100-continue, a=b") + BODY, NOT_SERVED)
        answered(service, "twice", expecting(b"Expect: 100-continue\r\n" + length) + BODY, NOT_SERVED)
        answered(service, "no Host", expecting(length).replace(b"Host: h\r\n", b""), BAD_HEAD)
        answered(service, "no body", expecting(b""), CREATED)
        # A client of HTTP/1.0 is sent none (RFC 9110, section 10.1.1), but its reply.
        with service.connect() as stream:
            stream.sendall(expecting(length).replace(b"HTTP/1.1", b"HTTP/1.0"))
            equal("HTTP/1.0", awaited(stream, 0.3), b"")
            stream.sendall(BODY)
            equal("HTTP/1.0, the reply", replies_in(received(stream)[0]), [NO_ACTION])


def test_chunked_bodies_without_the_option(setting):
    with setting.serve() as service:
        answered(service, "chunks", start() + start(), NOT_SERVED)
        answered(service, "chunks and a length", start(fields=CODED + b"Content-Length: 5\r\n"), NOT_SERVED)
        answered(service, "chunks in HTTP/1.0", start().replace(b"HTTP/1.1", b"HTTP/1.0"), NOT_SERVED)
        answered(service, "an expectation", expecting(b"Content-Length: 1\r\n"), NOT_SERVED)
        answered(service, "a stated length", sized(BODY), NO_ACTION)


def test_the_option_for_chunked_bodies(setting):
    check("it isn't told", "chunked" not in told_of(setting))
    equal("on the line", told_of(setting, "--chunked").get("chunked"), "true")
    path = config(setting, "chunked = true\n")
    equal("in a file", told_of(setting, "--config", path).get("chunked"), "true")
    path = config(setting, "chunked = 1\n")
    refused(setting, f"{path}: chunked: neither true nor false", "--config", path)
