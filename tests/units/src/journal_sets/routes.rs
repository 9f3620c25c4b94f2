//! Each route, with an identifier of the older member, of the newer and of neither.

use crate::journal_sets::counter::{Counting, NEWER, OLDER, journal_set, orders_of};
use lra_front::{Answer, RoutedRequest, Routes};
use lra_journal_router::respond;
use lra_journal_sets::JournalSet;
use lra_steps::Answered;
use lra_wire::{RequestFields, RequestRead};
use std::alloc::Global;

/// A request and its body, the word of its API error, and how many orders the older and the newer member are given,
/// between `|`. The instances end in 0-8007 and 1-8007. There is none that ends in 1-8008.
const ROWS: &str = r###"POST /lra-coordinator||Worn|0 1
POST /lra-coordinator|{"limit":5}|Worn|0 1
POST /lra-coordinator|{"parent":"http://h.test/lra-coordinator/00000000-0000-8007-8000-000000000001"}|Worn|1 0
POST /lra-coordinator|{"parent":"http://h.test/lra-coordinator/00000000-0001-8007-8000-000000000001"}|Worn|0 1
POST /lra-coordinator|{"parent":"http://h.test/lra-coordinator/00000000-0001-8008-8000-000000000001"}|NoSuchAction|0 0
POST /lra-coordinator|{"parent":"http://other.test/lra-coordinator/00000000-0000-8007-8000-000000000001"}|NoSuchAction|0 0
POST /lra-coordinator|{"parent":"http://h.test/lra-recovery/00000000-0000-8007-8000-000000000001"}|NoSuchAction|0 0
POST /lra-coordinator|{"parent":""}|NoSuchAction|0 0
POST /lra-coordinator|{"parent":5}|BadBody|0 0
POST /lra-coordinator|[]|BadBody|0 0
GET /lra-coordinator/00000000-0000-8007-8000-000000000001||Worn|1 0
GET /lra-coordinator/00000000-0001-8007-8000-000000000001||Worn|0 1
GET /lra-coordinator/00000000-0001-8008-8000-000000000001||NoSuchAction|0 0
GET /lra-coordinator/00000000-0000-8007-8000-000000000000||NoSuchAction|0 0
GET /lra-coordinator/urn:uuid:00000000-0000-8007-8000-000000000001||NoSuchAction|0 0
GET /lra-coordinator/00000000000080078000000000000001||NoSuchAction|0 0
GET /lra-coordinator/x||NoSuchAction|0 0
PUT /lra-coordinator/00000000-0000-8007-8000-000000000001|{"compensate":"http://p.test/u"}|Worn|1 0
PUT /lra-coordinator/00000000-0001-8007-8000-000000000001|{"compensate":"http://p.test/u"}|Worn|0 1
PUT /lra-coordinator/00000000-0001-8008-8000-000000000001|{"compensate":"http://p.test/u"}|NoSuchAction|0 0
PUT /lra-coordinator/00000000-0001-8008-8000-000000000001|{"parent":""}|BadBody|0 0
PUT /lra-coordinator/00000000-0000-8007-8000-000000000001/close||Worn|1 0
PUT /lra-coordinator/00000000-0001-8007-8000-000000000001/close||Worn|0 1
PUT /lra-coordinator/00000000-0001-8008-8000-000000000001/close||NoSuchAction|0 0
PUT /lra-coordinator/00000000-0000-8007-8000-000000000001/cancel||Worn|1 0
PUT /lra-coordinator/00000000-0001-8007-8000-000000000001/cancel||Worn|0 1
PUT /lra-coordinator/00000000-0001-8008-8000-000000000001/cancel||NoSuchAction|0 0
PUT /lra-coordinator/00000000-0000-8007-8000-000000000001/renew|{"limit":5}|Worn|1 0
PUT /lra-coordinator/00000000-0001-8007-8000-000000000001/renew|{"limit":5}|Worn|0 1
PUT /lra-coordinator/00000000-0001-8008-8000-000000000001/renew|{"limit":5}|NoSuchAction|0 0
PUT /lra-coordinator/00000000-0001-8008-8000-000000000001/renew||BadBody|0 0
PUT /lra-coordinator/00000000-0000-8007-8000-000000000001/remove|{"recovery":"http://h.test/lra-recovery/00000000-0000-8007-8000-000000000002"}|Worn|1 0
PUT /lra-coordinator/00000000-0001-8007-8000-000000000001/remove|{"recovery":"http://h.test/lra-recovery/00000000-0001-8007-8000-000000000002"}|Worn|0 1
PUT /lra-coordinator/00000000-0000-8007-8000-000000000001/remove|{"recovery":"http://h.test/lra-recovery/00000000-0001-8007-8000-000000000002"}|NoSuchMember|0 0
PUT /lra-coordinator/00000000-0001-8007-8000-000000000001/remove|{"recovery":"http://h.test/lra-recovery/00000000-0000-8007-8000-000000000002"}|NoSuchMember|0 0
PUT /lra-coordinator/00000000-0001-8007-8000-000000000001/remove|{"recovery":"http://h.test/lra-recovery/00000000-0001-8008-8000-000000000002"}|NoSuchMember|0 0
PUT /lra-coordinator/00000000-0001-8008-8000-000000000001/remove|{"recovery":"http://h.test/lra-recovery/00000000-0000-8007-8000-000000000002"}|NoSuchAction|0 0
GET /lra-recovery/00000000-0000-8007-8000-000000000001||Worn|1 0
GET /lra-recovery/00000000-0001-8007-8000-000000000001||Worn|0 1
GET /lra-recovery/00000000-0001-8008-8000-000000000001||NoSuchMember|0 0
PUT /lra-recovery/00000000-0000-8007-8000-000000000001|{"status":"Completed"}|Worn|1 0
PUT /lra-recovery/00000000-0001-8007-8000-000000000001|{"status":"Completed"}|Worn|0 1
PUT /lra-recovery/00000000-0001-8008-8000-000000000001|{"status":"Completed"}|NoSuchMember|0 0
GET /nothing||NoSuchPath|0 0
GET /lra-coordinator/00000000-0000-8007-8000-000000000001?x||NoSuchPath|0 0
DELETE /lra-coordinator/00000000-0000-8007-8000-000000000001||BadMethod|0 0"###;

/// Returns the text before a sign and the text after it.
fn parted<'t>(text: &'t str, sign: &str) -> (&'t str, &'t str) {
    match text.split_once(sign) {
        Some(parts) => parts,
        None => (text, ""),
    }
}

fn request(alloc: Global, head: &str, body: &str) -> Option<RequestRead> {
    let (method, target) = parted(head, " ");
    let mut bytes = Vec::new(alloc);
    bytes.extend_from_slice(body.as_bytes()).ok()?;
    Some(RequestRead {
        method: String::from_str(alloc, method).ok()?,
        target: String::from_str(alloc, target).ok()?,
        minor: 1,
        close: false,
        body: bytes,
        fields: RequestFields::none(),
    })
}

/// Returns the word of an API error.
fn word(answer: Answer) -> &'static str {
    match answer {
        Answer::Denied(api_error) => api_error.name(),
        _ => "",
    }
}

/// Returns the answer to a request.
fn answered(
    alloc: Global,
    routes: &Routes,
    journal_set: &mut JournalSet<Counting>,
    request: &RequestRead,
) -> Answered {
    respond(alloc, journal_set, 5, &RoutedRequest::new(alloc, routes, request))
}

/// Returns whether the members were given as many orders as two digits say.
fn were_given(journal_set: &JournalSet<Counting>, digits: &str) -> bool {
    let older = orders_of(journal_set, OLDER);
    let newer = orders_of(journal_set, NEWER);
    match digits {
        "0 0" => older == Some(0) && newer == Some(0),
        "1 0" => older == Some(1) && newer == Some(0),
        "0 1" => older == Some(0) && newer == Some(1),
        _ => false,
    }
}

/// Returns whether an answer has a position exactly if a member was given an order: the position of that member.
fn has_position(told: Answered, digits: &str) -> bool {
    match digits {
        "0 0" => told.position.is_none(),
        "1 0" => told.position == Some(1) && told.instance.number() == OLDER,
        _ => told.position == Some(1) && told.instance.number() == NEWER,
    }
}

/// Returns whether a request to a journal set of both members has the wanted word, orders and position.
fn comes_to(alloc: Global, head: &str, body: &str, wanted: &str, digits: &str) -> Option<bool> {
    let routes = Routes::new(alloc).ok()?;
    let request = request(alloc, head, body)?;
    let mut journal_set = journal_set(alloc)?;
    let told = answered(alloc, &routes, &mut journal_set, &request);
    let given = were_given(&journal_set, digits);
    Some(word(told.answer) == wanted && given && has_position(told, digits))
}

fn row_is_answered(alloc: Global, row: &str) -> bool {
    let (head, rest) = parted(row, "|");
    let (body, rest) = parted(rest, "|");
    let (wanted, digits) = parted(rest, "|");
    comes_to(alloc, head, body, wanted, digits) == Some(true)
}

#[test]
fn a_request_is_the_one_member_s_that_it_names(rt: HostRuntime) {
    for row in ROWS.lines() {
        assert!(rt; row_is_answered(rt.alloc(), row), "{row}");
    }
}

/// A start that is nested in an action of the older member.
const NESTED: &str =
    r#"{"parent":"http://h.test/lra-coordinator/00000000-0000-8007-8000-000000000001"}"#;

/// Returns whether a nested start goes to its parent's journal. If memory is refused for it, it goes to no member, and
/// is answered the next time.
fn is_given_once(alloc: Global) -> Option<bool> {
    let routes = Routes::new(alloc).ok()?;
    let request = request(alloc, "POST /lra-coordinator", NESTED)?;
    let mut journal_set = journal_set(alloc)?;
    let mut told = answered(alloc, &routes, &mut journal_set, &request);
    if word(told.answer) == "Memory" && were_given(&journal_set, "0 0") {
        told = answered(alloc, &routes, &mut journal_set, &request);
    }
    let given = were_given(&journal_set, "1 0");
    Some(word(told.answer) == "Worn" && given && has_position(told, "1 0"))
}

#[test]
fn a_refused_growth_reaches_nobody(rt: HostRuntime) {
    let given = match is_given_once(rt.alloc()) {
        Some(given) => given,
        None => is_given_once(rt.alloc()) == Some(true),
    };
    assert!(rt; given);
}
