//! Offices as the tests make and end them. The work in between borrows an office.

use lra_core::{Instance, Limits};
use lra_ids::{Address, address};
use lra_model::Uris;
use lra_office::{Clerk, Desk, LockedService, Office, OfficeOf};
use lra_ticket::Pass;
use std::alloc::{AllocError, Global};
use std::io::Write;
use std::sync::Wait;
use std::test::Fail;

/// Returns the base of the URIs.
pub fn base(alloc: Global) -> Result<Address, Fail> {
    let base = address(alloc, "http://127.0.0.1:8080/")?;
    if base.is_base() {
        Ok(base)
    } else {
        drop(base);
        Err("no base")?
    }
}

/// Returns a new office with a writer, and the pass of its first clerk.
pub fn made<W: Write + Drop>(alloc: Global, writer: W) -> Result<(Office<W>, Pass<Desk<W>>), Fail> {
    let instance = Instance::new(7).ok_or("no instance")?;
    match Office::create(alloc, instance, base(alloc)?, Limits::usual(), writer) {
        Ok(made) => Ok(made),
        Err(refused) => {
            drop(refused);
            Err("an office can be made")?
        }
    }
}

/// Enrols a clerk.
pub fn enrolled<V: LockedService, R: Wait>(
    rt: &R,
    office: &OfficeOf<V>,
    pass: Pass<V>,
) -> Result<Clerk<V>, Fail> {
    match office.clerk(rt, pass, 0) {
        Ok(clerk) => Ok(clerk),
        Err(refused) => {
            drop(refused);
            Err("a clerk can be enrolled")?
        }
    }
}

/// Enrols two clerks.
pub fn enrolled_two<V: LockedService, R: Wait>(
    rt: &R,
    office: &OfficeOf<V>,
    pass: Pass<V>,
) -> Result<(Clerk<V>, Clerk<V>), Fail> {
    let (first, pass) = office.split(enrolled(rt, office, pass)?);
    match enrolled(rt, office, pass) {
        Ok(second) => Ok((first, second)),
        Err(fault) => {
            drop(first);
            Err(fault)
        }
    }
}

/// Shuts an office by its clerk, and returns its writer beside a result.
pub fn ended<W: Write + Drop, T: Drop>(
    office: Office<W>,
    clerk: Clerk<Desk<W>>,
    told: T,
) -> Result<(W, T), Fail> {
    match office.shut(clerk) {
        Ok((coordinator, scribe)) => {
            drop(coordinator);
            Ok((scribe.into_writer(), told))
        }
        Err(left) => {
            drop(left);
            drop(told);
            Err("the lock is free")?
        }
    }
}

/// Shuts an office after work there, and returns its writer beside the work's result.
pub fn shut<W: Write + Drop, T: Drop>(
    office: Office<W>,
    worked: Result<(Clerk<Desk<W>>, T), Fail>,
) -> Result<(W, T), Fail> {
    match worked {
        Ok((clerk, told)) => ended(office, clerk, told),
        Err(fault) => {
            drop(office);
            Err(fault)
        }
    }
}

/// Returns the addresses of a participant at a host: to compensate, to complete, and for its status if that is asked
/// for.
pub fn participant(alloc: Global, host: &str, has_status: bool) -> Result<Uris, AllocError> {
    let status = if has_status {
        Some(format!(in alloc; "{host}/s")?)
    } else {
        None
    };
    Ok(Uris {
        compensate: Some(format!(in alloc; "{host}/u")?),
        complete: Some(format!(in alloc; "{host}/c")?),
        status,
        forget: None,
        after: None,
    })
}
