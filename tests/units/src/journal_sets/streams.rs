//! Streams over a journal router: requests to different members on one connection, and a member that joins meanwhile.

use crate::journal_sets::counter::{Counting, NEWER, OLDER, alone, newcomer, orders_of};
use lra_clocks::Clock;
use lra_ids::Instance;
use lra_journal_router::{JournalRouter, Membership, add_member};
use lra_journal_sets::JournalSet;
use lra_steps::{Handler, answer_pieces};
use std::alloc::Global;

/// Membership that adds a newer counter at the third poll.
#[derive(Drop)]
struct Late {
    looks: u64,
    newer: Option<Counting>,
    /// Answer of `lacks_any` and `lacks`: whether a member may be missing.
    lacks: bool,
}

/// Lets the newer counter join, if it hasn't joined yet and memory isn't refused.
fn join(journal_set: &mut JournalSet<Counting>, newer: &mut Option<Counting>) {
    let Some(counter) = newer.take() else {
        return;
    };
    *newer = add_member(journal_set, counter).err();
}

impl Membership<Counting> for Late {
    ghost tells = { λ named lacks. Unit {0} };

    fn look(&mut self, journal_set: &mut JournalSet<Counting>) {
        self.looks = self.looks.saturating_add(1);
        if self.looks != 3 {
            return;
        }
        join(journal_set, &mut self.newer);
    }

    fn lacks_any(&self) -> bool {
        self.lacks
    }

    fn lacks(&self, _named: Option<Instance>) -> bool {
        self.lacks
    }
}

/// Clock that stands still.
#[derive(Drop)]
struct Still {
    moment: u64,
}

impl Clock for Still {
    ghost tells = { λ before moment after. moment ≡ before.moment };

    fn now(&mut self) -> u64 {
        self.moment
    }
}

/// Requests of one connection.
const STREAM: &str = "\
GET /lra-coordinator/00000000-0000-8007-8000-000000000001 HTTP/1.1\r\nHost: h.test\r\n\r\n\
GET /lra-coordinator/00000000-0001-8007-8000-000000000001 HTTP/1.1\r\nHost: h.test\r\n\r\n\
GET /lra-coordinator/00000000-0001-8007-8000-000000000001 HTTP/1.1\r\nHost: h.test\r\n\r\n\
GET /lra-coordinator/00000000-0001-8008-8000-000000000001 HTTP/1.1\r\nHost: h.test\r\n\r\n\
POST /lra-coordinator HTTP/1.1\r\nHost: h.test\r\n\r\n\
GET /lra-coordinator/00000000-0000-8007-8000-000000000001 HTTP/1.1\r\nHost: h.test\r\n\r\n";

/// Status of each reply: 503 if a member is given the order, and 404 if there is no such member.
const STATUSES: &str = "503 404 503 404 503 503 ";

/// The same if a member may be missing: 503 also for requests that no member answers.
const LACKING: &str = "503 503 503 503 503 503 ";

/// Cuts the stream into pieces of this size.
fn cut(alloc: Global, size: usize) -> Option<Vec<Vec<u8>>> {
    let mut pieces = Vec::new(alloc);
    for piece in STREAM.as_bytes().chunks(size.max(1)) {
        let piece = Vec::from_slice(alloc, piece).ok()?;
        pieces.push(piece).ok()?;
    }
    Some(pieces)
}

/// Returns the statuses of replies.
fn statuses(alloc: Global, replies: &str) -> Option<String> {
    let mut told = String::new(alloc);
    let mut rest = replies;
    for _reply in 0..16 {
        let Some((_, more)) = rest.split_once("HTTP/1.1 ") else {
            break;
        };
        told.push_str(more.get(..4)?).ok()?;
        rest = more;
    }
    Some(told)
}

/// Returns whether the replies have these statuses.
fn are_so(alloc: Global, sent: &[u8], wanted: &str) -> bool {
    let Ok(replies) = str::from_utf8(sent) else {
        return false;
    };
    match statuses(alloc, replies) {
        Some(told) => told.as_str() == wanted,
        None => false,
    }
}

/// Returns a journal router with the older member. The newer member joins at the third poll; `looks` polls count
/// already.
fn journal_router(alloc: Global, looks: u64, lacks: bool) -> Option<JournalRouter<Counting, Late>> {
    let newer = newcomer(alloc);
    let journal_set = alone(alloc)?;
    Some(JournalRouter::new(
        journal_set,
        Late {
            looks,
            newer,
            lacks,
        },
    ))
}

/// Returns whether the replies to the stream at a journal router have the wanted statuses.
fn is_replied(
    alloc: Global,
    journal_router: &mut JournalRouter<Counting, Late>,
    size: usize,
    wanted: &str,
) -> Option<bool> {
    let pieces = cut(alloc, size)?;
    let mut sent = Vec::new(alloc);
    let mut clock = Still { moment: 5 };
    let end = answer_pieces(
        alloc,
        pieces.as_slice(),
        &mut sent,
        journal_router,
        &mut clock,
    );
    let replied = end.is_ok() && are_so(alloc, sent.as_slice(), wanted);
    drop(pieces);
    Some(replied)
}

/// Returns whether the stream has its statuses, and each member is given two orders.
fn comes_to(alloc: Global, size: usize) -> Option<bool> {
    let mut journal_router = journal_router(alloc, 0, false)?;
    let replied = is_replied(alloc, &mut journal_router, size, STATUSES);
    let (journal_set, membership) = journal_router.into_parts();
    drop(membership);
    let given = orders_of(&journal_set, OLDER) == Some(2)
        && orders_of(&journal_set, NEWER) == Some(2);
    drop(journal_set);
    Some(replied? && given)
}

#[test]
fn a_connection_asks_members_by_turns(rt: HostRuntime) {
    assert!(rt; comes_to(rt.alloc(), 1) == Some(true));
    assert!(rt; comes_to(rt.alloc(), 4096) == Some(true));
}

/// Returns whether requests that no member answers are refused while a member may be missing. The older member is given
/// its own two orders, and no start.
fn reaches_nobody(alloc: Global, size: usize) -> Option<bool> {
    let mut journal_router = journal_router(alloc, 3, true)?;
    let replied = is_replied(alloc, &mut journal_router, size, LACKING);
    let (journal_set, membership) = journal_router.into_parts();
    drop(membership);
    let given = orders_of(&journal_set, OLDER) == Some(2);
    drop(journal_set);
    Some(replied? && given)
}

#[test]
fn what_may_be_lacked_reaches_nobody(rt: HostRuntime) {
    assert!(rt; reaches_nobody(rt.alloc(), 1) == Some(true));
    assert!(rt; reaches_nobody(rt.alloc(), 4096) == Some(true));
}

/// Returns whether the newer member has joined after these polls and one rest.
fn has_joined(alloc: Global, looks: u64) -> Option<bool> {
    let mut journal_router = journal_router(alloc, looks, false)?;
    journal_router.on_idle();
    let (journal_set, membership) = journal_router.into_parts();
    drop(membership);
    let joined = orders_of(&journal_set, NEWER) == Some(0);
    drop(journal_set);
    Some(joined)
}

#[test]
fn members_join_while_nobody_asks(rt: HostRuntime) {
    assert!(rt; has_joined(rt.alloc(), 1) == Some(false));
    assert!(rt; has_joined(rt.alloc(), 2) == Some(true));
}
