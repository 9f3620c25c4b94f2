//! A service with a history of three actions: action 2 is nested in action 1, and has two members. Action 3 has ended,
//! and its member is still to be notified of that.

use lra_commands::{
    Blocker, CounterFault, Listing, Order, Query, QueryResult, Refusal, Row, Told, Want,
};
use lra_ids::{Address, Base, Instance, base_of};
use lra_model::{ActionStatus, AskKind, MemberStatus, Memory};
use lra_outcomes::{Attempt, Reply};
use lra_overview::{Facts, Overview};
use std::alloc::Global;

/// Time that passes from one call of `facts` to the next, in milliseconds.
const STEP: u64 = 1_500;

/// Facts that are known beside the history, at first.
const FACTS: Facts = Facts {
    moment: 9_000,
    began: 1_500,
    has_failed: false,
    is_ending: false,
    journals: 1,
    bytes: 250,
    most_bytes: 1_000,
    entries: 5,
    most_entries: 10,
    most_actions: 100,
    most_members: 2,
    connections: 3,
    callbacks: 1,
    virtual_bytes: None,
    resident_bytes: Some(4_096),
    processor_ticks: Some(123),
    lags: false,
    sync_age: 0,
    sync_limit: 5_000,
    lost_workers: 0,
    lost_callback_workers: 0,
    standing: None,
};

/// The service, and how many orders it was given.
#[derive(Drop)]
pub(crate) struct Toy {
    base: Base,
    moment: u64,
    pub(crate) given: u64,
}

/// Returns the base of the service.
fn base(alloc: Global) -> Option<Address> {
    match base_of(alloc, "h.test") {
        Ok(found) => found,
        Err(_) => None,
    }
}

/// Returns a service that was given no order.
pub(crate) fn new_toy(alloc: Global) -> Option<Toy> {
    let base = Base::of(base(alloc)?);
    Some(Toy {
        base,
        moment: FACTS.moment,
        given: 0,
    })
}

/// Returns the status of an action, if there is such an action.
fn action_status(action: u64) -> Option<ActionStatus> {
    match action {
        1 => Some(ActionStatus::Active),
        2 => Some(ActionStatus::Closing),
        3 => Some(ActionStatus::Closed),
        _ => None,
    }
}

fn action_row(action: u64, status: ActionStatus) -> Row {
    Row::Action {
        action,
        status,
        parent: if action == 2 { Some(1) } else { None },
    }
}

/// Returns the row at a place of all actions. If it isn't of the status that is asked for, it returns the place after
/// it.
fn action_at(status: Option<ActionStatus>, place: u64) -> QueryResult {
    let action = place.saturating_add(1);
    match (action_status(action), status) {
        (None, _) => QueryResult::NoMore,
        (Some(own), Some(wanted)) if !wanted.is_same(own) => QueryResult::Further(action),
        (Some(own), _) => QueryResult::Row {
            place,
            row: action_row(action, own),
        },
    }
}

/// Member that is being asked.
const ASKED: Row = Row::Member {
    member: 1,
    status: MemberStatus::Completing,
    ask: Some(7),
    want: None,
};

/// Member that was asked in vain, and is asked again later.
const SILENT: Row = Row::Member {
    member: 2,
    status: MemberStatus::Active,
    ask: None,
    want: Some(Want {
        kind: AskKind::Complete,
        repeats: 3,
        due: 90_000,
    }),
};

/// Member that is still to be notified of its action's end.
const UNTOLD: Row = Row::Member {
    member: 3,
    status: MemberStatus::Completed,
    ask: None,
    want: Some(Want {
        kind: AskKind::After,
        repeats: 6,
        due: 90_000,
    }),
};

/// Returns the row of a listing at a place.
fn row_at(of: Listing, place: u64) -> QueryResult {
    match (of, place) {
        (Listing::Actions { status }, _) => action_at(status, place),
        (Listing::Members { action: 2 }, 0) => QueryResult::Row { place, row: ASKED },
        (Listing::Members { action: 2 }, 1) => QueryResult::Row { place, row: SILENT },
        (Listing::Members { action: 3 }, 0) => QueryResult::Row { place, row: UNTOLD },
        (Listing::Nested { action: 1 }, 0) => QueryResult::Row {
            place,
            row: action_row(2, ActionStatus::Closing),
        },
        _ => QueryResult::NoMore,
    }
}

/// Returns whether the row at a place belongs to a listing, as a count of 1 or 0, and the place after it.
fn count_at(of: Listing, place: u64) -> QueryResult {
    match row_at(of, place) {
        QueryResult::Row { .. } => QueryResult::Counted {
            count: 1,
            next: Some(place.saturating_add(1)),
        },
        QueryResult::Further(next) => QueryResult::Counted {
            count: 0,
            next: Some(next),
        },
        _ => QueryResult::Counted {
            count: 0,
            next: None,
        },
    }
}

/// Returns what an action waits for.
fn awaited_by(action: u64) -> QueryResult {
    match action {
        1 => QueryResult::Awaits {
            place: 0,
            awaited: Blocker::Action { action: 2 },
        },
        2 => QueryResult::Awaits {
            place: 0,
            awaited: Blocker::Member {
                member: 1,
                ask: Some(7),
            },
        },
        _ => QueryResult::AwaitsNothing,
    }
}

fn told(query: Query) -> Option<QueryResult> {
    match query {
        Query::ActionStatus { action } => Some(QueryResult::ActionIs(action_status(action)?)),
        Query::MemberStatus { member: 1 } => Some(QueryResult::MemberIs(MemberStatus::Completing)),
        Query::MemberStatus { member: 2 } => Some(QueryResult::MemberIs(MemberStatus::Active)),
        Query::MemberStatus { .. } => None,
        Query::Awaited { action, .. } => Some(awaited_by(action)),
        Query::Row { of, place } => Some(row_at(of, place)),
        Query::Count { of, place } => Some(count_at(of, place)),
    }
}

impl Overview for Toy {
    ghost orders = { λ t. [] };

    fn instance(&self, place: u64) -> Option<Instance> {
        if place == 0 { Instance::new(7) } else { None }
    }

    fn base(&self) -> &Base {
        &self.base
    }

    fn catch_up(&mut self) {}

    fn facts(&mut self) -> Facts {
        let moment = self.moment;
        self.moment = moment.saturating_add(STEP);
        Facts { moment, ..FACTS }
    }

    fn put_tallies(&mut self, _page: &mut Vec<u8>) -> Result<(), Memory> {
        Ok(())
    }

    fn query(&mut self, _instance: Instance, query: Query) -> Result<QueryResult, CounterFault> {
        told(query).ok_or(CounterFault::Refused(Refusal::NoSuchAction))
    }

    fn attempt(
        &mut self,
        alloc: Global,
        _instance: Instance,
        member: u64,
    ) -> Result<Option<Attempt>, Memory> {
        if member != 2 {
            return Ok(None);
        }
        Ok(Some(Attempt {
            address: String::from_str(alloc, "http://m.test/\"<'complete&'>")?,
            reply: Reply::NotHttp,
            moment: FACTS.moment,
        }))
    }

    fn has_given_up(&self, _instance: Instance, _member: u64) -> bool {
        false
    }

    fn give(&mut self, _instance: Instance, _order: &Order<'_>) -> Result<Told, CounterFault> {
        self.given = self.given.saturating_add(1);
        Ok(Told::Now(ActionStatus::Cancelling))
    }

    fn end_asking(&mut self, _instance: Instance, _member: u64) -> Result<(), CounterFault> {
        Ok(())
    }
}
