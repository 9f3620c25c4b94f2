"""Chunked requests made at random, well framed and not, each with what it has to be answered by RFC 9112, section 7.1,
and docs/use/http.md and options.md. Each start in them has a limit of its own, by which its line is found in a journal:
so an order shows that was smuggled in behind a message that is refused."""
import itertools
from collections import namedtuple

# A message: what it is, its bytes, the replies that it gets, the limits of the starts that it orders, and whether the
# connection is answered nothing behind it.
Message = namedtuple("Message", "what data wanted limits closes")

HEAD = b"POST /lra-coordinator HTTP/1.1\r\nHost: h\r\n"
CODED = b"Transfer-Encoding: chunked\r\n"
CREATED, NO_ACTION, BAD_BODY = (201, None), (404, "NoSuchAction"), (400, "BadBody")
BAD_HEAD, BAD_LENGTH = (400, "BadHead"), (400, "BadLength")
TOO_LARGE, NOT_SERVED = (413, "TooLarge"), (501, "Chunked")
# A refusal whose name the standard leaves open: the head is at fault, or the length that it states.
REFUSED = (400, "BadHead or BadLength")
# The most bytes of a body, fields of a trailer, and bytes of a message with its framing.
MOST, FIELDS, WHOLE = 65_536, 64, 139_264
# The least limit of a start here, in milliseconds: no limit is over while a test runs.
LEAST = 10**10


def limits():
    """The limits that starts are given, each once."""
    return itertools.count(LEAST)


# Well framed


EXTENSIONS = (
    *(b";a", b";a=1", b' ; a = "b"', b';a="\\"\\r;\\\\";b', b"\t;x-y=z.z", b";0=0;1=1;2=2", b' ;a="0\t}{"'),
    b";" + 200 * b"n" + b"=" + 200 * b"v",
)
TRAILERS = (
    *(b"A: b", b"X-Sum:", b"x:\t y \t", b"A:b:c;d", b"Content-Length: 7", b"Transfer-Encoding: chunked"),
    *(b"Connection: close", b"Host: other", b"Expect: 100-continue", b'T: {"limit":1}', b"A: " + 300 * b"x"),
)
# Other spellings of the field that says it is chunked (RFC 9110, sections 5.1 and 5.5).
SPELLINGS = (*(4 * [CODED]), b"TRANSFER-ENCODING:chunked\r\n", b"transfer-encoding: \t Chunked \t\r\n")


def cut(rng, data, most):
    """The data in pieces, none empty, and no more than so many."""
    places = sorted(rng.sample(range(1, len(data)), min(rng.randrange(most), len(data) - 1))) if data else []
    return [data[a:b] for a, b in itertools.pairwise([0, *places, len(data)]) if a < b]


def size_text(rng, size):
    """A size as hexadecimal digits, at most 16 of them."""
    text = b"%x" % size
    text = text.upper() if rng.random() < 0.3 else text
    return text.rjust(rng.choice((0, 0, 0, 2, 8, 16)), b"0")


def framed(rng, contents, fields=()):
    """A body in these chunks, as a list of its parts: pairs of a part's name and its bytes."""
    parts = []
    for content in (*contents, None):
        parts += [
            ("size", size_text(rng, len(content or b""))),
            ("extension", rng.choice(EXTENSIONS) if rng.random() < 0.2 and len(contents) < 50 else b""),
            ("line end", b"\r\n"),
        ]
        if content:
            parts += [("data", content), ("data end", b"\r\n")]
    for field in fields:
        parts += [("field", field), ("field end", b"\r\n")]
    return [*parts, ("last", b"\r\n")]


def text_of(parts):
    return b"".join(data for _, data in parts)


def body_of(rng, limit, size=None):
    """A body that starts an action with a limit, of so many bytes."""
    body = b'{"limit":%d}' % limit
    white = max(0, (size or rng.choice((0, 0, 1, 3, 50, 2000))) - len(body))
    before = rng.randrange(white + 1)
    return before * rng.choice((b" ", b"\n", b"\t")) + body + (white - before) * b" "


def fields_of(rng):
    return [rng.choice(TRAILERS) for _ in range(rng.choice((0, 0, 0, 1, 2, 5)))]


def well_framed(rng, limit):
    """A start in chunks, or one like it that has no order."""
    kind = rng.randrange(12)
    body = body_of(rng, limit, MOST if kind == 0 else None)
    contents = cut(rng, body, rng.choice((1, 2, 5, 40)))
    data = HEAD + rng.choice(SPELLINGS) + b"\r\n" + text_of(framed(rng, contents, fields_of(rng)))
    if kind == 1:
        plain = HEAD + b"Content-Length: %d\r\n\r\n" % len(body) + body
        return Message("a stated length", plain, [CREATED], [limit], False)
    if kind == 2:
        trailer = [b'A: "limit":%d}' % limit]
        data = HEAD + CODED + b"\r\n" + text_of(framed(rng, cut(rng, body[: body.rindex(b"}")], 5), trailer))
        return Message("a body that ends in a trailer", data, [BAD_BODY], [], False)
    if kind == 3:
        data = data.replace(b"POST /lra-coordinator ", b"GET /lra-coordinator/x ", 1)
        return Message("a read with a body", data, [NO_ACTION], [], False)
    if kind == 4:
        data = data.replace(b"\r\n\r\n", b"\r\nConnection: close\r\n\r\n", 1)
        return Message("the last one", data, [CREATED], [limit], True)
    if kind == 5:
        trailer = [rng.choice(TRAILERS[:3]) for _ in range(FIELDS)]
        data = HEAD + CODED + b"\r\n" + text_of(framed(rng, contents, trailer))
        return Message("as many fields as may be", data, [CREATED], [limit], False)
    if kind == 6:
        # A body that looks like a message is a body.
        fake = b"0\r\n\r\n" + HEAD + b"\r\n"
        data = HEAD + CODED + b"\r\n" + text_of(framed(rng, cut(rng, fake, 5)))
        return Message("a message as the data", data, [BAD_BODY], [], False)
    return Message("chunks", data, [CREATED], [limit], False)


# Framed wrongly


def one_less(_, size):
    return b"%x" % (int(size, 16) - 1)


def one_more(rng, size):
    return b"%x" % (int(size, 16) + rng.choice((1, 2)))


def past(power):
    """A size that is the right one where numbers wrap at a power of 2."""
    return lambda _, size: b"%x" % (2**power + int(size, 16))


def one_of(*texts):
    return lambda rng, old: rng.choice(texts)


def around(*forms):
    return lambda rng, old: rng.choice(forms) % old


# A fault in the framing: what it is, the part that it stands in, what stands there instead, and how it is refused. The
# size that is one less isn't that of the last chunk, nor 1.
FAULTS = (
    ("a bare line feed after a size", "line end", one_of(b"\n", b"\n\r"), BAD_LENGTH),
    ("a bare CR after a size", "line end", one_of(b"\r", b"\r\r\n"), BAD_LENGTH),
    ("no line end after the data", "data end", one_of(b"", b"\r", b"\n", b"\n\r", b" \r\n", b"\0\r\n"), BAD_LENGTH),
    ("data that are longer", "full size", one_less, BAD_LENGTH),
    ("data that are shorter", "first size", one_more, BAD_LENGTH),
    ("a size that is none", "size", one_of(b"", b"g", b"-1", b"0x", b"_", b"\xef\xbc\x91", b"%31", b'"1"'), BAD_LENGTH),
    ("a size behind a mark", "size", around(b"0x%s", b"+%s", b"-%s", b" %s", b"\t%s"), BAD_LENGTH),
    ("a size before a mark", "size", around(b"%sh", b"%s_0", b"%s.", b"%s\0"), BAD_LENGTH),
    ("two sizes", "size", around(b"%s 0", b"0 %s", b"%s,0", b"%s\t0"), BAD_LENGTH),
    ("a size past 64 bits", "size", past(64), BAD_LENGTH),
    ("a size past 128 bits", "size", past(128), BAD_LENGTH),
    ("17 digits", "size", lambda _, size: size.rjust(17, b"0"), BAD_LENGTH),
    ("1,000 digits", "size", lambda _, size: size.rjust(1000, b"0"), BAD_LENGTH),
    ("a size past 32 bits", "size", past(32), TOO_LARGE),
    ("a size past 63 bits", "size", past(63), TOO_LARGE),
    ("the largest size", "size", one_of(b"ffffffffffffffff", b"FFFFFFFFFFFFFFFF", b"7fffffffffffffff"), TOO_LARGE),
    ("a size past the limit", "size", one_of(b"10001", b"0000000000010001", b"fffff"), TOO_LARGE),
    ("a bare line feed in an extension", "extension", one_of(b";a\nb", b";\n", b';a="\n"'), BAD_LENGTH),
    ("a bare CR in an extension", "extension", one_of(b";a\rb", b';a="\r"', b";\r\r"), BAD_LENGTH),
    ("no extension", "extension", one_of(b" a", b"\ta=b", b" 0"), BAD_LENGTH),
    ("a long extension", "extension", one_of(b";" + WHOLE * b"x"), TOO_LARGE),
    ("no trailer", "field", one_of(b": b", b"GET / HTTP/1.1", b"A", b"A B: c", b"(: b", b"A\0: b"), BAD_LENGTH),
    ("white space before a colon", "field", one_of(b"A : b", b"A\t: b"), BAD_LENGTH),
    ("a folded trailer", "field", one_of(b"A: b\r\n c", b"A: b\r\n\tc: d", b" A: b"), BAD_LENGTH),
    ("a bare line feed in a trailer", "field end", one_of(b"\n"), BAD_LENGTH),
    ("too many fields", "field", one_of(b"\r\n".join((FIELDS + 1) * [b"A: b"])), BAD_LENGTH),
    ("a long trailer", "field", one_of(b"A: " + WHOLE * b"x"), TOO_LARGE),
    ("a bare line feed at the end", "last", one_of(b"\n"), BAD_LENGTH),
    ("no end", "last", one_of(b""), BAD_LENGTH),
)

# A fault in the head of a message whose chunks are right, and how it is refused.
HEADS = (
    ("both lengths", CODED + b"Content-Length: 5\r\n", BAD_LENGTH),
    ("both, the other way round", b"Content-Length: 0\r\n" + CODED, BAD_LENGTH),
    ("both, with another between", b"Content-Length: 5\r\nA: b\r\n" + CODED, BAD_LENGTH),
    ("both, and a length that is none", CODED + b"Content-Length: +5\r\n", BAD_LENGTH),
    ("a coding of the coding", b"Transfer-Encoding: gzip, chunked\r\n", NOT_SERVED),
    ("chunked first", b"Transfer-Encoding: chunked, identity\r\n", NOT_SERVED),
    ("chunked twice", CODED + CODED, NOT_SERVED),
    ("another coding", b"Transfer-Encoding: xchunked\r\n", NOT_SERVED),
    ("a coding in quotes", b'Transfer-Encoding: "chunked"\r\n', NOT_SERVED),
    ("a parameter", b"Transfer-Encoding: chunked;a\r\n", NOT_SERVED),
    ("another expectation", CODED + b"Expect: 200-ok\r\n", NOT_SERVED),
    ("white space before the colon", b"Transfer-Encoding : chunked\r\n", BAD_HEAD),
    ("a control byte", b"Transfer-Encoding: \x0bchunked\r\n", BAD_HEAD),
    ("a folded coding", b"Transfer-Encoding:\r\n chunked\r\n", REFUSED),
    ("a length behind a bare line feed", b"Transfer-Encoding: chunked\nContent-Length: 5\r\n", REFUSED),
)


def places_of(parts, name):
    """Where the parts of a name stand. A first size isn't the last chunk's, and a full one is 2 at least as well."""
    if name in ("first size", "full size"):
        return [it for it in places_of(parts, "size") if int(parts[it][1], 16) > (name == "full size")]
    return [place for place, (part, _) in enumerate(parts) if part == name]


def wrongly_framed(rng, limit):
    """A message that is refused by its framing. Further bytes have to follow."""
    body = body_of(rng, limit, rng.choice((30, 40, 200)))
    contents = cut(rng, body, rng.choice((1, 2, 5, 9)))
    parts = framed(rng, contents, [*fields_of(rng), b"A: b"])
    kind = rng.randrange(8)
    if kind == 0:
        what, fields, refusal = rng.choice(HEADS)
        return Message(what, HEAD + fields + b"\r\n" + text_of(parts), [refusal], [], True)
    head = HEAD + CODED + b"\r\n"
    if kind == 1 and rng.random() < 0.5:
        return Message("HTTP/1.0", head.replace(b"1.1", b"1.0") + text_of(parts), [BAD_LENGTH], [], True)
    if kind == 1:
        # It isn't chunked at all, so that its chunks are the next message.
        data = head.replace(b"r-E", rng.choice((b"r_E", b"rE", b"r--E"))) + text_of(parts)
        return Message("a field of another name", data, [CREATED, BAD_HEAD], [0], True)
    if kind == 2:
        # What comes next is no chunk line: a method doesn't begin with a size.
        last = max(places_of(parts, "size"))
        return Message("no last chunk", head + text_of(parts[:last]), [BAD_LENGTH], [], True)
    if kind == 3 and rng.random() < 0.3:
        body = body_of(rng, limit, MOST + rng.choice((1, 2, 500)))
        return Message("too large by chunks", head + text_of(framed(rng, cut(rng, body, 40))), [TOO_LARGE], [], True)
    what, name, changed, refusal = rng.choice(FAULTS)
    place = rng.choice(places_of(parts, name) or places_of(parts, "line end"))
    if parts[place][0] == "line end" and name != "line end":
        what, changed, refusal = "a bare line feed after a size", one_of(b"\n"), BAD_LENGTH
    parts[place] = (name, changed(rng, parts[place][1]))
    return Message(what, head + text_of(parts), [refusal], [], True)


# Connections


def connection(rng, fresh):
    """Messages of one connection: some that are well framed, mostly one that isn't, and some behind it; or one that is
    cut."""
    found = [well_framed(rng, next(fresh)) for _ in range(rng.choice((0, 1, 1, 2, 5)))]
    kind = rng.random()
    if kind < 0.15:
        whole = well_framed(rng, next(fresh)).data
        found.append(Message("a cut", whole[: rng.randrange(1, len(whole))], [], [], True))
    elif kind < 0.85:
        found.append(wrongly_framed(rng, next(fresh)))
        found += [well_framed(rng, next(fresh)) for _ in range(rng.choice((1, 1, 3)))]
    return found


def pieces_of(rng, messages):
    """The bytes of messages in some pieces, cut anywhere."""
    return cut(rng, b"".join(it.data for it in messages), rng.choice((1, 3, 20)))


def answered(messages):
    """The messages up to the last one that is answered, or isn't whole."""
    until = next((place for place, it in enumerate(messages) if it.closes), len(messages))
    return messages[: until + 1]


def replies_to(messages):
    return [reply for it in answered(messages) for reply in it.wanted]


def ordered_by(messages):
    """The limits of the starts that are ordered."""
    return [limit for it in answered(messages) for limit in it.limits]


def agree(got, wanted):
    """Whether replies are those wanted. An interim response may stand before a reply."""
    got = [it for it in got if it[0] != 100]
    return len(got) == len(wanted) and all(
        it == to or to == REFUSED and it in (BAD_HEAD, BAD_LENGTH) for it, to in zip(got, wanted)
    )
