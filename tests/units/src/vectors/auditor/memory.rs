//! Calls that are refused a growth: run with one allocation failing in turn. A call that is made again has memory.
use super::{NESTED, NESTED_VERDICT, journal_of, told_in_memory, told_in_pieces, told_whole};
use crate::vectors::texts::assert_told;
use lra_auditor::{Account, Auditor, AuditorFault, Memory};
use std::alloc::Global;

/// Returns the nested journal. A second try has memory.
fn nested(alloc: Global) -> Result<String, Memory> {
    match journal_of(alloc, NESTED) {
        Ok(journal) => Ok(journal),
        Err(_) => journal_of(alloc, NESTED),
    }
}

fn audit_again(alloc: Global) -> Result<String, Memory> {
    let journal = nested(alloc)?;
    match told_whole(alloc, journal.as_bytes()) {
        Ok(verdict) => Ok(verdict),
        Err(_) => told_whole(alloc, journal.as_bytes()),
    }
}

#[test]
fn a_refused_growth_is_memory_at_an_audit(rt: HostRuntime) {
    assert_told(&rt, NESTED, audit_again(rt.alloc()).ok(), NESTED_VERDICT);
}

fn check_again(alloc: Global) -> Result<String, Memory> {
    let journal = nested(alloc)?;
    match told_in_memory(alloc, journal.as_bytes(), 0) {
        Ok(verdict) => Ok(verdict),
        Err(_) => told_in_memory(alloc, journal.as_bytes(), 0),
    }
}

#[test]
fn a_refused_growth_is_memory_at_a_check(rt: HostRuntime) {
    assert_told(&rt, NESTED, check_again(rt.alloc()).ok(), NESTED_VERDICT);
}

fn feed_again(alloc: Global) -> Result<String, AuditorFault> {
    let journal = nested(alloc)?;
    match told_in_pieces(alloc, journal.as_bytes(), 7) {
        Err(AuditorFault::Memory) => told_in_pieces(alloc, journal.as_bytes(), 7),
        verdict => verdict,
    }
}

#[test]
fn a_refused_growth_spends_an_auditor(rt: HostRuntime) {
    assert_told(&rt, NESTED, feed_again(rt.alloc()).ok(), NESTED_VERDICT);
}

/// Returns whether an auditor that was fed lists a legal history.
fn is_sound(auditor: Auditor) -> Result<bool, AuditorFault> {
    match auditor.list()? {
        Account::Sound(listing) => {
            drop(listing);
            Ok(true)
        }
        Account::Unsound { .. } => Ok(false),
    }
}

/// Returns whether an auditor lists the nested journal, or else is spent because memory was refused.
fn is_listed(alloc: Global) -> Result<bool, Memory> {
    let journal = nested(alloc)?;
    let mut auditor = Auditor::new(alloc);
    let fed = auditor.feed(journal.as_bytes());
    drop(journal);
    Ok(match is_sound(auditor) {
        Ok(is_sound) => is_sound && fed == Ok(()),
        Err(fault) => fault == AuditorFault::Spent && fed == Err(AuditorFault::Memory),
    })
}

#[test]
fn a_refused_growth_spends_a_listing(rt: HostRuntime) {
    assert!(rt; is_listed(rt.alloc()) == Ok(true));
}
