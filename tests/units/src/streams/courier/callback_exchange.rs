//! Callback exchanges: as steps, in pieces, and by `exchange`.
use crate::streams::pieces::{Pieces, Sink};
use crate::streams::rows::{parted, repeated, written_out};
use lra_courier::{CallFault, Callback, CallbackExchange, ExtraFields, Step};
use lra_model::{AskKind, Direction, Outcome};
use std::alloc::{AllocError, Global};

// A response, `~` for each line's end, and its outcome if a member was asked to complete. Every byte of it is needed.
const WHOLE: &str = "\
HTTP/1.1 200 OK~Content-Length: 9~~Completed|done
HTTP/1.1 200 OK~Content-Length: 10~~Completing|accepted
HTTP/1.1 200 OK~Content-Length: 16~~FailedToComplete|failed
HTTP/1.1 200 OK~Content-Length: 11~~Compensated|silent
HTTP/1.1 202 x~Content-Length: 0~~|accepted
HTTP/1.1 204 x~~|done
HTTP/1.1 409 x~Content-Length: 0~~|failed
HTTP/1.1 410 x~Content-Length: 4~~gone|done
HTTP/1.1 412 x~Content-Length: 0~~|silent
HTTP/1.1 200 OK~Transfer-Encoding: chunked~~4~Comp~5~leted~0~~|done
HTTP/1.1 200 OK~Transfer-Encoding: chunked~~a;x=1~Completing~0~A: b~~|accepted
HTTP/1.1 100 x~~HTTP/1.1 103 x~A: b~~HTTP/1.1 409 x~Content-Length: 0~~|failed";

// As in `WHOLE`, but these responses are whole only once the stream ends.
const ENDED: &str = "\
HTTP/1.1 200 OK~~Completing|accepted
HTTP/1.1 200 OK~~|done
HTTP/1.1 409 x~~|failed
HTTP/1.1 500 x~~Completed|silent";

// As in `WHOLE`, but these bytes begin no response, whatever follows. The last column is the fault.
const FAULTY: &str = "\
HTTP/2 200 OK~|no response: bad head
HTTP/1.1 200 OK~Transfer-Encoding: gzip~~|no response: coding not served
HTTP/1.1 200 OK~Content-Length: 1x~~|no response: bad length
HTTP/1.1 200 OK~Content-Length: 65537~~|no response: body too large
HTTP/1.1 200 OK~Transfer-Encoding: chunked~~1~abc|no response: bad length
HTTP/1.1 200 OK~Transfer-Encoding: chunked~~10001~|no response: body too large";

pub(super) fn asked() -> Callback<'static> {
    Callback {
        kind: AskKind::Complete,
        direction: Direction::Completion,
        address: "http://p.test:9000/c",
        action_uri: "http://c.test/a",
        parent_uri: None,
        recovery_uri: "http://c.test/r",
        ended: None,
        extra: ExtraFields::none(),
    }
}

const REQUEST: &[u8] = b"PUT /c HTTP/1.1\r
Host: p.test:9000\r
Long-Running-Action: http://c.test/a\r
Long-Running-Action-Recovery: http://c.test/r\r
Content-Length: 0\r
Connection: close\r
\r
";

/// Ways in which a stream goes on after its bytes.
#[derive(Clone, Copy)]
enum Rest {
    Open,
    Ends,
    Fails,
}

/// Sends at most `size` bytes of a callback exchange, and appends them to `sent`.
fn hand_out(
    callback_exchange: &mut CallbackExchange,
    size: usize,
    sent: &mut Vec<u8>,
) -> Option<()> {
    let out = callback_exchange.out();
    let count = out.len().min(size);
    sent.extend_from_slice(&out[..count]).ok()?;
    callback_exchange.advance_by(count);
    Some(())
}

/// Moves a callback exchange on with these bytes, in pieces of this size. Returns its result, or none if it wants more
/// than there is.
fn moved(
    callback_exchange: &mut CallbackExchange,
    bytes: &[u8],
    size: usize,
    rest: Rest,
    sent: &mut Vec<u8>,
) -> Option<Result<Outcome, CallFault>> {
    let mut left = bytes;
    for _ in 0..30_000 {
        match callback_exchange.next().ok()? {
            Step::Came(told) => return Some(told),
            Step::Sends => hand_out(callback_exchange, size, sent)?,
            Step::NeedsInput => {
                let (piece, behind) = left.split_at(size.min(left.len()));
                left = behind;
                if piece.is_empty() {
                    match rest {
                        Rest::Open => return None,
                        Rest::Ends => callback_exchange.ended(),
                        Rest::Fails => callback_exchange.failed(),
                    }
                }
                if !callback_exchange.take(piece).ok()? && !piece.is_empty() {
                    return None;
                }
            }
        }
    }
    None
}

/// Returns the result of a callback whose response comes in pieces of this size, if the whole request was sent.
fn carried(
    alloc: Global,
    bytes: &[u8],
    size: usize,
    rest: Rest,
) -> Option<Result<Outcome, CallFault>> {
    let mut callback_exchange = CallbackExchange::new(alloc, &asked()).ok()?;
    let mut sent = Vec::new(alloc);
    let told = moved(&mut callback_exchange, bytes, size, rest, &mut sent);
    let whole = sent.as_slice() == REQUEST && is_coded(alloc, &callback_exchange, told, bytes);
    drop(sent);
    drop(callback_exchange);
    if whole { told } else { None }
}

/// Returns whether an exchange reports its result, and with an outcome the code of a final response in the bytes.
fn is_coded(
    alloc: Global,
    callback_exchange: &CallbackExchange,
    told: Option<Result<Outcome, CallFault>>,
    bytes: &[u8],
) -> bool {
    if callback_exchange.told() != told {
        return false;
    }
    match callback_exchange.code() {
        Ok(Some(code)) => {
            let head = format!(in alloc; "HTTP/1.1 {code} ");
            let is_there = match &head {
                Ok(head) => {
                    let head = head.as_bytes();
                    bytes
                        .windows(head.len().max(1))
                        .any(|window| window == head)
                }
                Err(_) => false,
            };
            drop(head);
            code >= 200 && is_there && matches!(told, Some(Ok(_)))
        }
        Ok(None) => !matches!(told, Some(Ok(_))),
        Err(AllocError) => false,
    }
}

/// Returns the outcome of `exchange` where these bytes come, and then the end.
fn exchanged(alloc: Global, bytes: &[u8]) -> Outcome {
    let mut writer = Sink::new(alloc, 4096, 4096);
    let reader = Pieces {
        rest: bytes,
        size: 7,
        fails: false,
    };
    let outcome = asked().exchange(alloc, reader, &mut writer);
    drop(writer);
    outcome
}

fn is_outcome(told: Option<Result<Outcome, CallFault>>, outcome: &str) -> bool {
    match told {
        Some(Ok(told)) => told.name() == outcome,
        Some(Err(_)) => false,
        None => false,
    }
}

fn is_fault(alloc: Global, told: Option<Result<Outcome, CallFault>>, fault: &str) -> bool {
    match told {
        Some(Err(told)) => match format!(in alloc; "{told}") {
            Ok(text) => text.as_str() == fault,
            Err(_) => false,
        },
        Some(Ok(_)) => false,
        None => false,
    }
}

/// Returns whether bytes have this outcome in pieces of 1, of 7 and as a whole, and by `exchange`, and no fewer bytes
/// do.
fn whole_comes_to(alloc: Global, bytes: &[u8], outcome: &str) -> bool {
    let fewer = &bytes[..bytes.len().saturating_sub(1)];
    exchanged(alloc, bytes).name() == outcome
        && is_outcome(carried(alloc, bytes, 1, Rest::Open), outcome)
        && is_outcome(carried(alloc, bytes, 7, Rest::Open), outcome)
        && is_outcome(carried(alloc, bytes, 4096, Rest::Fails), outcome)
        && carried(alloc, fewer, 7, Rest::Open).is_none()
        && is_fault(
            alloc,
            carried(alloc, fewer, 7, Rest::Ends),
            "no response: message cut short",
        )
        && is_fault(
            alloc,
            carried(alloc, fewer, 7, Rest::Fails),
            "no response: input or output failed",
        )
}

/// Returns whether bytes have this outcome once the stream ends after them, and not before.
fn ended_comes_to(alloc: Global, bytes: &[u8], outcome: &str) -> bool {
    exchanged(alloc, bytes).name() == outcome
        && is_outcome(carried(alloc, bytes, 1, Rest::Ends), outcome)
        && is_outcome(carried(alloc, bytes, 4096, Rest::Ends), outcome)
        && carried(alloc, bytes, 7, Rest::Open).is_none()
        && is_fault(
            alloc,
            carried(alloc, bytes, 7, Rest::Fails),
            "no response: input or output failed",
        )
}

/// Returns whether bytes have this fault, whatever follows.
fn is_refused(alloc: Global, bytes: &[u8], fault: &str) -> bool {
    exchanged(alloc, bytes).name() == "silent"
        && is_fault(alloc, carried(alloc, bytes, 1, Rest::Open), fault)
        && is_fault(alloc, carried(alloc, bytes, 4096, Rest::Ends), fault)
}

fn whole_row_holds(alloc: Global, row: &str) -> bool {
    let row = written_out(alloc, row);
    let (response, outcome) = parted(row.as_str(), "|");
    let holds = whole_comes_to(alloc, response.as_bytes(), outcome);
    drop(row);
    holds
}

fn ended_row_holds(alloc: Global, row: &str) -> bool {
    let row = written_out(alloc, row);
    let (response, outcome) = parted(row.as_str(), "|");
    let holds = ended_comes_to(alloc, response.as_bytes(), outcome);
    drop(row);
    holds
}

fn faulty_row_holds(alloc: Global, row: &str) -> bool {
    let row = written_out(alloc, row);
    let (response, fault) = parted(row.as_str(), "|");
    let holds = is_refused(alloc, response.as_bytes(), fault);
    drop(row);
    holds
}

#[test]
fn a_response_comes_to_its_outcome_once_it_is_whole(rt: HostRuntime) {
    for row in WHOLE.lines() {
        assert!(rt; whole_row_holds(rt.alloc(), row), "{row}");
    }
}

#[test]
fn a_body_that_ends_with_the_stream_counts_at_its_end(rt: HostRuntime) {
    for row in ENDED.lines() {
        assert!(rt; ended_row_holds(rt.alloc(), row), "{row}");
    }
}

#[test]
fn what_is_no_response_is_told_at_once(rt: HostRuntime) {
    for row in FAULTY.lines() {
        assert!(rt; faulty_row_holds(rt.alloc(), row), "{row}");
    }
}

/// Returns a response whose body comes in this many chunks of one byte.
fn in_chunks(alloc: Global, count: usize) -> Result<String, AllocError> {
    let mut response = String::from_str(
        alloc,
        "HTTP/1.1 410 x\r\nTransfer-Encoding: chunked\r\n\r\n",
    )?;
    let body = repeated(alloc, "1\r\nx\r\n", count, "0\r\n\r\n")?;
    response.push_str(body.as_str())?;
    Ok(response)
}

fn chunks_come_to(alloc: Global, count: usize, outcome: &str) -> bool {
    match in_chunks(alloc, count) {
        Ok(response) => whole_comes_to(alloc, response.as_bytes(), outcome),
        Err(_) => false,
    }
}

#[test]
fn a_body_comes_in_many_chunks_byte_by_byte(rt: HostRuntime) {
    assert!(rt; chunks_come_to(rt.alloc(), 2000, "done"));
}
