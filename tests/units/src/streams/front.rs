//! The HTTP interface: streams over a counter that refuses every order, and in `bench` over a coordinator.
mod bench;
mod counter;
mod memory;
mod steps;

use crate::streams::pieces::{Pieces, Sink};
use crate::streams::rows::{parted, written_out};
use counter::{Still, worn_counter};
use lra_commands::Counter;
use lra_front::{StreamEnd, serve_stream};
use lra_wire::WireFault;
use std::alloc::Global;

/// A stream, its reply, and how it ends, between `|`. The last stream has 65 fields, which are too many.
const STREAMS: &str = "\
GET /a HTTP/1.1~~|HTTP/1.1 400 Bad Request#19~Connection: close~~{\"error\":\"BadHead\"}|BadHead
GET /a HTTP/1.1~Host: h~Transfer-Encoding: chunked~Content-Length: 1~Content-Length: 1~~x|HTTP/1.1 501 Not Implemented#19~Connection: close~~{\"error\":\"Chunked\"}|Chunked
GET /a HTTP/1.1~Host: h~Content-Length: +1~~x|HTTP/1.1 400 Bad Request#21~Connection: close~~{\"error\":\"BadLength\"}|BadLength
GET /a HTTP/1.1~Host: h~Content-Length: 65537~~x|HTTP/1.1 413 Payload Too Large#20~Connection: close~~{\"error\":\"TooLarge\"}|TooLarge
DELETE /lra-coordinator HTTP/1.1~Host: h~~|HTTP/1.1 405 Method Not Allowed#21~Allow: POST~~{\"error\":\"BadMethod\"}|Done
POST /lra-coordinator?x=1 HTTP/1.1~Host: h~~|HTTP/1.1 404 Not Found#22~~{\"error\":\"NoSuchPath\"}|Done
GET /lra-coordinator/00000000-0000-8007-8000-000000000001?x=1 HTTP/1.1~Host: h~~|HTTP/1.1 404 Not Found#22~~{\"error\":\"NoSuchPath\"}|Done
PUT /lra-coordinator/x/close? HTTP/1.1~Host: h~Content-Length: 2~~[]|HTTP/1.1 404 Not Found#22~~{\"error\":\"NoSuchPath\"}|Done
HEAD /lra-recovery/x?y/z HTTP/1.1~Host: h~~|HTTP/1.1 404 Not Found#22~~|Done
POST /lra-coordinator HTTP/1.1~Host: h~Content-Length: 2~~[]|HTTP/1.1 400 Bad Request#19~~{\"error\":\"BadBody\"}|Done
POST /lra-coordinator HTTP/1.1~Host: h~Content-Length: 12~~{\"limit\":-1}|HTTP/1.1 400 Bad Request#19~~{\"error\":\"BadBody\"}|Done
HEAD /lra-coordinator/x HTTP/1.1~Host: h~Connection: x, CLOSE~~GET /a HTTP/1.1~Host: h~~|HTTP/1.1 405 Method Not Allowed#21~Allow: GET, PUT~Connection: close~~|Done
GET /lra-recovery/x HTTP/1.0~~GET /a HTTP/1.1~Host: h~~|HTTP/1.1 404 Not Found#24~Connection: close~~{\"error\":\"NoSuchMember\"}|Done
GET /lra-coordinator/00000000-0000-8007-8000-000000000001 HTTP/1.1~Host: h~~|HTTP/1.1 503 Service Unavailable#16~~{\"error\":\"Worn\"}|Done
GET /a HTTP/1.1~Host: h~X: y~X: y~X: y~X: y~X: y~X: y~X: y~X: y~X: y~X: y~X: y~X: y~X: y~X: y~X: y~X: y~X: y~X: y~X: y~X: y~X: y~X: y~X: y~X: y~X: y~X: y~X: y~X: y~X: y~X: y~X: y~X: y~X: y~X: y~X: y~X: y~X: y~X: y~X: y~X: y~X: y~X: y~X: y~X: y~X: y~X: y~X: y~X: y~X: y~X: y~X: y~X: y~X: y~X: y~X: y~X: y~X: y~X: y~X: y~X: y~X: y~X: y~X: y~X: y~~|HTTP/1.1 400 Bad Request#19~Connection: close~~{\"error\":\"BadHead\"}|BadHead";

/// Returns the word for how a stream ended.
fn end_word(end: StreamEnd) -> &'static str {
    match end {
        StreamEnd::Done => "Done",
        StreamEnd::Refused(WireFault::BadHead) => "BadHead",
        StreamEnd::Refused(WireFault::Chunked) => "Chunked",
        StreamEnd::Refused(WireFault::BadLength) => "BadLength",
        StreamEnd::Refused(WireFault::TooLarge) => "TooLarge",
        StreamEnd::Refused(WireFault::Cut) => "Cut",
        StreamEnd::Refused(WireFault::Io) => "Io",
        StreamEnd::Refused(WireFault::Memory) => "Memory",
        StreamEnd::WriteFault => "WriteFault",
    }
}

/// Returns whether a counter's stream has this reply, as far as the sink accepts it, and this end.
fn comes_to<C: Counter>(
    alloc: Global,
    counter: &mut C,
    moment: u64,
    reader: Pieces<'_>,
    sink: &mut Sink,
    reply: &[u8],
    end: &str,
) -> bool {
    let ended = serve_stream(alloc, reader, sink, counter, &mut Still { moment });
    sink.taken.as_slice() == reply && end_word(ended) == end
}

/// Returns whether a counter's stream has this reply and this end. The reply goes in pieces of the reader's size.
fn is_answered<C: Counter>(
    alloc: Global,
    counter: &mut C,
    moment: u64,
    reader: Pieces<'_>,
    reply: &str,
    end: &str,
) -> bool {
    let mut sink = Sink::new(alloc, reader.size, usize::MAX);
    let reply = reply.as_bytes();
    let answered = comes_to(alloc, counter, moment, reader, &mut sink, reply, end);
    drop(sink);
    answered
}

/// Returns whether a stream has this reply and this end at a counter that refuses every order.
fn worn_answers(alloc: Global, reader: Pieces<'_>, reply: &str, end: &str) -> bool {
    let Some(mut counter) = worn_counter(alloc) else {
        return false;
    };
    let answered = is_answered(alloc, &mut counter, 5, reader, reply, end);
    drop(counter);
    answered
}

/// Returns whether the stream of a row has the row's reply and end, byte by byte and whole.
fn row_is_answered(alloc: Global, row: &str) -> bool {
    let row = written_out(alloc, row);
    let (stream, rest) = parted(row.as_str(), "|");
    let (reply, end) = parted(rest, "|");
    let answered = worn_answers(alloc, Pieces::of(stream, 1), reply, end)
        && worn_answers(alloc, Pieces::of(stream, 4096), reply, end);
    drop(row);
    answered
}

#[test]
fn answers_streams_whole_and_byte_by_byte(rt: HostRuntime) {
    for row in STREAMS.lines() {
        assert!(rt; row_is_answered(rt.alloc(), row), "{row}");
    }
}

/// Returns whether a stream that ends or fails after these bytes has no reply, and this end.
fn is_cut(alloc: Global, rest: &[u8], fails: bool, end: &str) -> bool {
    let reader = Pieces {
        rest,
        size: 4096,
        fails,
    };
    worn_answers(alloc, reader, "", end)
}

// A stream that is cut inside a request, or fails there, gets no reply.
#[test]
fn a_cut_request_has_no_reply(rt: HostRuntime) {
    let stream = b"POST /lra-coordinator HTTP/1.1\r\nHost: h\r\nContent-Length: 2\r\n\r\n{}";
    for len in 1..stream.len() {
        let front = &stream[..len];
        assert!(rt; is_cut(rt.alloc(), front, false, "Cut"), "at {len}");
        assert!(rt; is_cut(rt.alloc(), front, true, "Io"), "at {len}");
    }
}
