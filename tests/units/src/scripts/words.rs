//! Words of a script's line.

use lra_commands::{Listing, Order, Query};
use lra_model::{ActionStatus, Ending, Uris};
use std::alloc::{AllocError, Global};

/// Words of a line that are still to be read.
#[derive(Drop)]
pub struct Words<'a> {
    pub left: &'a str,
}

/// Splits a row at the first `sign`. Without one it returns the whole row and an empty text.
pub fn parted<'a>(row: &'a str, sign: &str) -> (&'a str, &'a str) {
    row.split_once(sign).unwrap_or((row, ""))
}

/// Returns whether a line with this first word is a query.
pub fn asks(first: &str) -> bool {
    first == "awaited" || first == "listed" || first == "counted"
}

impl<'a> Words<'a> {
    /// Returns the next word. It is empty if none is left.
    pub fn next(&mut self) -> &'a str {
        let (word, left) = parted(self.left, " ");
        self.left = left;
        word
    }

    pub fn number(&mut self) -> Option<u64> {
        self.next().parse().ok()
    }

    /// Reads a number, or none, for which `*` stands.
    fn optional(&mut self) -> Option<Option<u64>> {
        let word = self.next();
        if word == "*" {
            return Some(None);
        }
        Some(Some(word.parse().ok()?))
    }

    /// Reads an address, or none, for which `*` stands.
    fn address(&mut self, alloc: Global) -> Result<Option<String>, AllocError> {
        let word = self.next();
        if word == "*" {
            return Ok(None);
        }
        Ok(Some(String::from_str(alloc, word)?))
    }

    fn uris(mut self, alloc: Global) -> Result<Uris, AllocError> {
        let mut uris = Uris {
            compensate: None,
            complete: None,
            status: None,
            forget: None,
            after: None,
        };
        if let Err(fault) = self.fill(alloc, &mut uris) {
            drop(uris);
            return Err(fault);
        }
        Ok(uris)
    }

    fn fill(&mut self, alloc: Global, uris: &mut Uris) -> Result<(), AllocError> {
        uris.compensate = self.address(alloc)?;
        uris.complete = self.address(alloc)?;
        uris.status = self.address(alloc)?;
        uris.forget = self.address(alloc)?;
        uris.after = self.address(alloc)?;
        Ok(())
    }

    /// Reads a query from a place on, whose line has this first word: what an action waits for, the next row of a
    /// listing, or how many rows are left.
    pub fn query(&mut self, first: &str) -> Option<Query> {
        if first == "awaited" {
            let action = self.number()?;
            let place = self.number()?;
            return Some(Query::Awaited { action, place });
        }
        let of = self.listing()?;
        let place = self.number()?;
        if first == "counted" {
            return Some(Query::Count { of, place });
        }
        Some(Query::Row { of, place })
    }

    /// Reads which rows are listed: the members of an action, its nested actions, or all actions of a status.
    fn listing(&mut self) -> Option<Listing> {
        let kind = self.next();
        if kind == "actions" {
            let status = self.status()?;
            return Some(Listing::Actions { status });
        }
        let action = self.number()?;
        if kind == "nested" {
            return Some(Listing::Nested { action });
        }
        Some(Listing::Members { action })
    }

    /// Reads an action's status, or any, for which `*` stands.
    fn status(&mut self) -> Option<Option<ActionStatus>> {
        let word = self.next();
        if word == "*" {
            return Some(None);
        }
        Some(Some(ActionStatus::from_name(word.as_bytes())?))
    }

    /// Reads an order of any kind but that to join.
    pub fn order(&mut self, verb: &str) -> Option<Order<'static>> {
        if verb == "tick" {
            return Some(Order::Tick);
        }
        if verb == "restart" {
            return Some(Order::Restart);
        }
        if verb == "start" {
            return self.start();
        }
        let number = self.number()?;
        if verb == "report" {
            return self.report(number);
        }
        if verb == "leave" || verb == "renew" {
            return Some(of_two(verb, number, self.number()?));
        }
        of_one(verb, number)
    }

    fn start(&mut self) -> Option<Order<'static>> {
        let parent = self.optional()?;
        let limit = self.number()?;
        Some(Order::Start { parent, limit })
    }

    fn report(&mut self, member: u64) -> Option<Order<'static>> {
        let ending = Ending::from_name(self.next().as_bytes())?;
        Some(Order::Report { member, ending })
    }
}

/// Reads the addresses of a member, twice if memory was refused.
pub fn uris(alloc: Global, addresses: &str) -> Option<Uris> {
    match (Words { left: addresses }).uris(alloc) {
        Err(_) => (Words { left: addresses }).uris(alloc).ok(),
        Ok(uris) => Some(uris),
    }
}

/// Returns an order that names only an action or a member.
fn of_one(verb: &str, number: u64) -> Option<Order<'static>> {
    if verb == "close" {
        return Some(Order::Close { action: number });
    }
    if verb == "cancel" {
        return Some(Order::Cancel { action: number });
    }
    if verb == "status" {
        return Some(Order::Status { action: number });
    }
    (verb == "member").then_some(Order::MemberStatus { member: number })
}

/// Returns an order to leave an action, or else to renew it.
fn of_two(verb: &str, action: u64, number: u64) -> Order<'static> {
    if verb == "leave" {
        return Order::Leave {
            action,
            member: number,
        };
    }
    Order::Renew {
        action,
        limit: number,
    }
}
