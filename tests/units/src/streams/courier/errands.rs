//! Errands of a coordinator, exchanged over streams in memory until the member has answered.

use crate::streams::coordinator::{coordinator, record};
use crate::streams::rows::{parted, written_out};
use lra_core::{Coordinator, Errand, Refusal};
use lra_courier::exchange;
use lra_model::{Outcome, Uris};
use std::alloc::{AllocError, Global};
use std::io::Write;

/// Longest time before a member is asked again, in milliseconds.
const PAUSE: u64 = 1_000_000;

/// Addresses of a member: to compensate, to complete, and for its status.
const ADDRESSES: &str = "http://p.test:9000/u http://p.test:9000/c http://p.test:9000/s";

/// Request of the first ask.
const FIRST_REQUEST: &str = "PUT /c HTTP/1.1\r
Host: p.test:9000\r
Long-Running-Action: http://127.0.0.1:8080/lra-coordinator/00000000-0000-8007-8000-000000000001\r
Long-Running-Action-Recovery: http://127.0.0.1:8080/lra-recovery/00000000-0000-8007-8000-000000000001\r
Content-Length: 0\r
Connection: close\r
\r
";

/// Before `>`: a response to each ask, between `|`. After it: the outcome of the first ask, and the request and outcome
/// of each later ask. The bodies of the later rows are chunked: their lengths are hexadecimal digits.
const CARRIED: &str = "\
HTTP/1.1 202 Accepted~Content-Length: 0~~|HTTP/1.1 412 Precondition Failed~Content-Length: 0~~|HTTP/1.1 410 Gone~Content-Length: 0~~>1 accepted~GET /s HTTP/1.1~Host: p.test:9000~Long-Running-Action: $1~Long-Running-Action-Recovery: %1~Connection: close~~2 silent~PUT /c HTTP/1.1~Host: p.test:9000~Long-Running-Action: $1~Long-Running-Action-Recovery: %1~Content-Length: 0~Connection: close~~3 done~
HTTP/1.1 200 OK~Transfer-Encoding: chunked~~9~Completed~0~~>1 done~
HTTP/1.1 200 OK~Transfer-Encoding: chunked~~10~FailedToComplete~0~~>1 failed~
HTTP/1.1 200 OK~Transfer-Encoding: chunked~~b~Compensated~0~~>1 silent~
HTTP/1.1 200 OK~Transfer-Encoding: chunked~~2~ok~0~~>1 done~";

fn fill(alloc: Global, addresses: &str, uris: &mut Uris) -> Result<(), AllocError> {
    let (compensate, addresses) = parted(addresses, " ");
    let (complete, status) = parted(addresses, " ");
    uris.compensate = Some(String::from_str(alloc, compensate)?);
    uris.complete = Some(String::from_str(alloc, complete)?);
    uris.status = Some(String::from_str(alloc, status)?);
    Ok(())
}

/// Returns the URIs of a member with these addresses, or none if memory is refused.
pub(super) fn member(alloc: Global, addresses: &str) -> Option<Uris> {
    let mut uris = Uris {
        compensate: None,
        complete: None,
        status: None,
        forget: None,
        after: None,
    };
    if fill(alloc, addresses, &mut uris).is_err() {
        drop(uris);
        return None;
    }
    Some(uris)
}

/// Lets a member join an action, and closes that action.
fn close(coordinator: &mut Coordinator, member: &Uris) -> Result<(), Refusal> {
    coordinator.enrol(0)?;
    coordinator.start(1, 0, None, 0)?;
    coordinator.join(1, 0, 1, member)?;
    coordinator.close(1, 0, 1)?;
    Ok(())
}

/// Exchanges the next errand of a coordinator, whose response is given. Returns the ask's number and its outcome.
fn carry(
    alloc: Global,
    coordinator: &mut Coordinator,
    moment: u64,
    response: &str,
    text: &mut Vec<u8>,
) -> Option<(u64, Outcome)> {
    let Ok(Some(errand)) = coordinator.next_ask(1, moment) else {
        return None;
    };
    let ask = errand.ask();
    let outcome = exchange(alloc, response.as_bytes(), text, &errand);
    record(coordinator, moment, errand, outcome).then_some((ask, outcome))
}

/// Exchanges the next errand, and appends the request, the ask's number and its outcome to a text.
fn take_down(
    alloc: Global,
    coordinator: &mut Coordinator,
    moment: u64,
    response: &str,
    text: &mut Vec<u8>,
) -> bool {
    let Some((ask, outcome)) = carry(alloc, coordinator, moment, response, text) else {
        return false;
    };
    let name = outcome.name();
    write!(text, "{ask} {name}\r\n").is_ok()
}

/// Closes an action and exchanges its errands, whose responses are given. Appends each request and outcome to a text.
fn carry_all(
    alloc: Global,
    coordinator: &mut Coordinator,
    member: &Uris,
    responses: &str,
    text: &mut Vec<u8>,
) -> bool {
    if close(coordinator, member).is_err() {
        return false;
    }
    let mut moment = 0u64;
    for response in responses.split('|') {
        moment = moment.saturating_add(PAUSE);
        if !take_down(alloc, coordinator, moment, response, text) {
            return false;
        }
    }
    true
}

/// Runs `carry_all` at a new coordinator.
fn carry_anew(alloc: Global, member: &Uris, responses: &str, text: &mut Vec<u8>) -> bool {
    let Some(mut coordinator) = coordinator(alloc) else {
        return false;
    };
    let done = carry_all(alloc, &mut coordinator, member, responses, text);
    drop(coordinator);
    done
}

/// Returns whether this is the text after the first request.
fn come_to(alloc: Global, member: &Uris, responses: &str, wanted: &str) -> bool {
    let mut text = Vec::new(alloc);
    let done = carry_anew(alloc, member, responses, &mut text);
    let later = text.as_slice().strip_prefix(FIRST_REQUEST.as_bytes());
    done && later == Some(wanted.as_bytes())
}

/// Returns whether the responses of a row have the requests and outcomes of the row.
fn row_holds(alloc: Global, row: &str) -> bool {
    let Some(member) = member(alloc, ADDRESSES) else {
        return false;
    };
    let row = written_out(alloc, row);
    let (responses, wanted) = parted(row.as_str(), ">");
    let holds = come_to(alloc, &member, responses, wanted);
    drop(row);
    drop(member);
    holds
}

#[test]
fn a_member_is_asked_until_it_has_answered(rt: HostRuntime) {
    for row in CARRIED.lines() {
        assert!(rt; row_holds(rt.alloc(), row), "{row}");
    }
}

/// Closes the only action of a coordinator, and returns the first errand.
fn asked(coordinator: &mut Coordinator, member: &Uris) -> Result<Option<Errand>, Refusal> {
    close(coordinator, member)?;
    coordinator.next_ask(1, PAUSE)
}

/// Returns the first errand of a new coordinator, or none if memory is refused.
fn first_errand(alloc: Global, member: &Uris) -> Option<Errand> {
    let mut coordinator = coordinator(alloc)?;
    let asked = asked(&mut coordinator, member);
    drop(coordinator);
    asked.ok()?
}

/// Returns an errand to a member with these addresses, or none if memory is refused.
pub(super) fn errand_to(alloc: Global, addresses: &str) -> Option<Errand> {
    let member = member(alloc, addresses)?;
    let errand = first_errand(alloc, &member);
    drop(member);
    errand
}

/// Returns a word for how much of the first request this is.
fn part(taken: &[u8]) -> &'static str {
    if taken.is_empty() {
        return "nothing";
    }
    if taken == FIRST_REQUEST.as_bytes() {
        return "all";
    }
    "a part"
}

/// Exchanges an errand that the member has done, and returns the outcome. The request's text goes to `taken`.
fn exchanged_in(alloc: Global, errand: &Errand, taken: &mut Vec<u8>) -> Outcome {
    let response: &[u8] = b"HTTP/1.1 200 OK\r\nContent-Length: 9\r\n\r\nCompleted";
    if taken.reserve(1024).is_err() {
        return Outcome::Silent;
    }
    exchange(alloc, response, taken, errand)
}

/// Exchanges an errand that the member has done. Returns how much of the request was sent, and the outcome: "nothing"
/// and "silent" if there is no memory for the request's text.
fn exchanged(alloc: Global, errand: &Errand) -> (&'static str, &'static str) {
    let mut taken = Vec::new(alloc);
    let outcome = exchanged_in(alloc, errand, &mut taken);
    let sent = part(taken.as_slice());
    drop(taken);
    (sent, outcome.name())
}

/// Returns whether the whole request was sent and the outcome is done.
fn is_done((sent, outcome): (&str, &str)) -> bool {
    sent == "all" && outcome == "done"
}

/// Returns whether this can be an exchange that was refused memory: nothing or all was sent, and the outcome is silent.
fn is_refused((sent, outcome): (&str, &str)) -> bool {
    sent != "a part" && outcome == "silent"
}

// Run with one growth refused in turn. The outcome is silent then, and the same errand is exchanged well again.
#[test]
fn a_refused_growth_is_silent(rt: HostRuntime) {
    if let Some(errand) = errand_to(rt.alloc(), ADDRESSES) {
        let first = exchanged(rt.alloc(), &errand);
        let second = exchanged(rt.alloc(), &errand);
        errand.discard();
        assert!(rt; is_done(first) || is_refused(first) && is_done(second));
    }
}
