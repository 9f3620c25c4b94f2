//! The HTTP interface over a coordinator of its own, whose writer accepts a part of a reply. The replies to requests
//! are tested on the built program (`vectors/front`).

use super::comes_to;
use crate::streams::coordinator::coordinator;
use crate::streams::pieces::{Pieces, Sink};
use lra_core::Bench;
use std::alloc::Global;

/// Returns a bench whose clerk is enrolled.
pub(super) fn enrolled(alloc: Global) -> Option<Bench> {
    let mut coordinator = coordinator(alloc)?;
    if coordinator.enrol(0).is_err() {
        drop(coordinator);
        return None;
    }
    Some(Bench::new(coordinator, 1))
}

/// Drops a bench, and returns how many entries it had.
pub(super) fn entries_of(bench: Bench) -> usize {
    let coordinator = bench.into_coordinator();
    let count = coordinator.entries().len();
    drop(coordinator);
    count
}

const START: &str = "POST /lra-coordinator HTTP/1.1\r\nHost: 127.0.0.1:8080\r\n\r\n";

/// Reply to the first start, byte for byte.
pub(super) const STARTED: &str = "HTTP/1.1 201 Created\r
Content-Type: application/json\r
Content-Length: 84\r
Location: http://127.0.0.1:8080/lra-coordinator/00000000-0000-8007-8000-000000000001\r
Long-Running-Action: http://127.0.0.1:8080/lra-coordinator/00000000-0000-8007-8000-000000000001\r
\r
{\"lra\":\"http://127.0.0.1:8080/lra-coordinator/00000000-0000-8007-8000-000000000001\"}";

/// Returns whether the reply to a start has this front and this end, if the writer has room for that front only.
fn has_front(alloc: Global, bench: &mut Bench, front: &[u8], end: &str) -> bool {
    let mut sink = Sink::new(alloc, 7, front.len());
    let reader = Pieces::of(START, 4096);
    let has_front = comes_to(alloc, bench, 0, reader, &mut sink, front, end);
    drop(sink);
    has_front
}

/// Returns whether a start is entered, and has this end, if the writer accepts only this front of its reply.
fn stands(alloc: Global, front: &[u8], end: &str) -> bool {
    let Some(mut bench) = enrolled(alloc) else {
        return false;
    };
    let has_front = has_front(alloc, &mut bench, front, end);
    entries_of(bench) == 2 && has_front
}

#[test]
fn a_start_stands_whatever_the_writer_takes_of_its_reply(rt: HostRuntime) {
    let reply = STARTED.as_bytes();
    for room in 0..reply.len() {
        assert!(rt; stands(rt.alloc(), &reply[..room], "WriteFault"), "{room}");
    }
    assert!(rt; stands(rt.alloc(), reply, "Done"));
}
