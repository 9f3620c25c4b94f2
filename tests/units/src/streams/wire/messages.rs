//! Messages that come in pieces of any size, as they are read.
use crate::streams::pieces::{Pieces, in_pieces};
use crate::streams::rows::{parted, written_out};
use lra_wire::{Inbox, RequestRead, ResponseRead, WireFault, read_request, read_response};
use std::alloc::{AllocError, Global};
use std::fmt::Write;
use std::str::from_utf8;
use std::test::Fail;

// Between `|`: whether requests or responses are read, and whether the stream ends or fails; the stream; and what each
// call reads. Of a request that is the method, the target, the minor version, whether the connection is to be closed,
// and the body; of a response the code and the body. `~` stands for a line's end, and `^` for a line feed. Once a whole
// message has come the reader isn't asked for more: it would fail.
const READ: &str = "\
requests fail|~POST /lra-coordinator HTTP/1.1~host: x~Content-Length: 2~~{}^GET /a HTTP/1.0^^|POST /lra-coordinator 1 false {}^GET /a 0 true ^input or output failed^
requests end|GET / HTTP/1.0~~|GET / 0 true ^nothing^
requests end|GET / HTTP/1.2~|bad head^message cut short^
requests end|GET / HTTP/1.1~~|bad head^message cut short^
requests end|GET / HTTP/1.0~Expect: x~~|coding not served^message cut short^
requests end|GET / HTTP/1.0~Content-Length: +1~~1|bad length^message cut short^
requests end|GET / HTTP/1.0~Content-Length: 65537~~|body too large^message cut short^
requests end|GET / HTTP/1.0~Content-Length: 2~~1|message cut short^message cut short^
responses fail|HTTP/1.1 200 OK~Transfer-Encoding: chunked~~9~Completed~0~~HTTP/1.1 100 Go on~~HTTP/1.1 200 OK~Transfer-Encoding: chunked~~9;a=b~Completed~0~C: d~~~HTTP/1.1 202 ~Content-Length: 2~~ok^HTTP/1.1 204 x^^|200 Completed^200 Completed^202 ok^204 ^input or output failed^
responses end|HTTP/1.0 200 OK^^to the end|200 to the end^
responses end|HTTP/1.1 20 OK~~|bad head^message cut short^
responses end|HTTP/1.1 103 x~~HTTP/1.1 103 x~~HTTP/1.1 103 x~~HTTP/1.1 103 x~~HTTP/1.1 103 x~~HTTP/1.1 103 x~~HTTP/1.1 103 x~~HTTP/1.1 103 x~~HTTP/1.1 103 x~~|bad head^message cut short^
responses end|HTTP/1.1 200 OK~Transfer-Encoding: gzip~~|coding not served^message cut short^
responses end|HTTP/1.1 200 OK~Transfer-Encoding: chunked~~x~|bad length^message cut short^
responses end|HTTP/1.1 200 OK~Transfer-Encoding: chunked~~1~xy~|bad length^message cut short^
responses end|HTTP/1.1 200 OK~Transfer-Encoding: chunked~~10001~|body too large^message cut short^
responses end|HTTP/1.1 200 OK~Content-Length: 4~|message cut short^message cut short^
responses end|HTTP/1.1 200 OK~Content-Length: 4~~abc|message cut short^message cut short^
responses end|HTTP/1.1 200 OK~Transfer-Encoding: chunked~~1~x~|message cut short^message cut short^";

// Writes a request that was read.
fn put_request(
    read: &Result<Option<RequestRead>, WireFault>,
    text: &mut String,
) -> Result<(), AllocError> {
    match read {
        Ok(Some(read)) => {
            let (method, target) = (read.method.as_str(), read.target.as_str());
            let (minor, close) = (read.minor, read.close);
            let body = from_utf8(read.body.as_slice()).unwrap_or("no text");
            writeln!(text, "{method} {target} {minor} {close} {body}")
        }
        Ok(None) => writeln!(text, "nothing"),
        Err(fault) => writeln!(text, "{fault}"),
    }
}

// Writes a response that was read.
fn put_response(
    read: &Result<ResponseRead, WireFault>,
    text: &mut String,
) -> Result<(), AllocError> {
    match read {
        Ok(read) => {
            let code = read.code;
            let body = from_utf8(read.body.as_slice()).unwrap_or("no text");
            writeln!(text, "{code} {body}")
        }
        Err(fault) => writeln!(text, "{fault}"),
    }
}

// Writes the next message of an inbox.
fn put_next(
    alloc: Global,
    kind: &str,
    inbox: &mut Inbox<Pieces<'_>>,
    text: &mut String,
) -> Result<(), AllocError> {
    if kind == "requests" {
        let read = read_request(alloc, inbox);
        let done = put_request(&read, text);
        drop(read);
        return done;
    }
    let read = read_response(alloc, inbox);
    let done = put_response(&read, text);
    drop(read);
    done
}

// Writes the messages of an inbox, one for each wanted line.
fn put_all(
    alloc: Global,
    kind: &str,
    inbox: &mut Inbox<Pieces<'_>>,
    wanted: &str,
    text: &mut String,
) -> Result<(), AllocError> {
    for _ in wanted.lines() {
        put_next(alloc, kind, inbox, text)?;
    }
    Ok(())
}

// Writes the messages of a stream that comes in pieces of this size, and then ends or fails.
fn put_stream(
    alloc: Global,
    how: &str,
    stream: &str,
    size: usize,
    wanted: &str,
    text: &mut String,
) -> Result<(), AllocError> {
    let (kind, end) = parted(how, " ");
    let mut inbox = in_pieces(alloc, stream.as_bytes(), size, end == "fail")?;
    let done = put_all(alloc, kind, &mut inbox, wanted, text);
    drop(inbox);
    done
}

// Returns whether a stream in pieces of this size is read as the wanted messages.
fn is_read_by(alloc: Global, how: &str, stream: &str, size: usize, wanted: &str) -> bool {
    let mut text = String::new(alloc);
    let done = put_stream(alloc, how, stream, size, wanted, &mut text);
    done.is_ok() && text.as_str() == wanted
}

// Returns whether a stream is read as the wanted messages in pieces of any size.
fn is_read(alloc: Global, how: &str, stream: &str, wanted: &str) -> bool {
    for size in 1..stream.len() + 1 {
        if !is_read_by(alloc, how, stream, size, wanted) {
            return false;
        }
    }
    !stream.is_empty()
}

// Returns whether a row's stream is read as the row's messages.
fn row_is_read(alloc: Global, row: &str) -> bool {
    let row = written_out(alloc, row);
    let (how, rest) = parted(row.as_str(), "|");
    let (stream, wanted) = parted(rest, "|");
    let holds = is_read(alloc, how, stream, wanted);
    drop(row);
    holds
}

#[test]
fn reads_messages_in_pieces_of_any_size_and_no_further(rt: HostRuntime) {
    for row in READ.lines() {
        assert!(rt; row_is_read(rt.alloc(), row), "{row}");
    }
}

// The other faults are printed above.
#[test]
fn refused_memory_prints(rt: HostRuntime) -> Result<(), Fail> {
    let printed = format!(in rt.alloc(); "{}", WireFault::Memory)?;
    assert!(rt; printed.as_str() == "out of memory");
    Ok(())
}
