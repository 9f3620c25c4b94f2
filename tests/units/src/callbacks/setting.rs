//! Setting of callbacks: a journal, errands, and members at ports of this host.

use lra_core::{Coordinator, Errand, Instance, Limits, Refusal};
use lra_durable::{SyncFault, SyncGroup};
use lra_ids::{Address, address};
use lra_model::Uris;
use mio::Waker;
use std::alloc::{AllocError, Global};
use std::sync::atomic::{AtomicU64, Ordering};
use std::sync::{Arc, Wait};

/// Sync group of which one journal is durable up to `length`, and no other is.
#[derive(Drop)]
pub struct Ready {
    pub instance: Instance,
    pub length: AtomicU64,
}

impl Ready {
    /// Returns a group whose journal is durable up to a length.
    pub fn up_to(length: u64) -> Option<Ready> {
        Some(Ready {
            instance: Instance::new(7)?,
            length: AtomicU64::new(length),
        })
    }
}

impl SyncGroup for Ready {
    ghost keeps = { λ _ _. true };

    ghost failed = { false };

    fn kept<R: Wait>(
        &self,
        _rt: &R,
        instance: Instance,
        length: u64,
    ) -> Result<Option<u64>, SyncFault> {
        let kept = self.length.load(Ordering::SeqCst);
        let is_own = instance.number() == self.instance.number();
        if is_own && kept >= length {
            Ok(Some(kept))
        } else {
            Ok(None)
        }
    }

    fn keep<R: Wait>(
        &self,
        rt: &R,
        instance: Instance,
        length: u64,
    ) -> Result<Option<u64>, SyncFault> {
        self.kept(rt, instance, length)
    }

    fn has_failed<R: Wait>(&self, _rt: &R) -> bool {
        false
    }

    fn appended<R: Wait>(&self, _rt: &R) -> u64 {
        self.length.load(Ordering::SeqCst)
    }
}

/// Returns no wakers.
pub fn no_wakers(alloc: Global) -> Option<Arc<Vec<Waker>>> {
    Arc::new(alloc, Vec::new(alloc)).ok()
}

/// Returns the base of the URIs.
fn base(alloc: Global) -> Option<Address> {
    let base = address(alloc, "http://127.0.0.1:8080/").ok()?;
    if base.is_base() { Some(base) } else { None }
}

/// Returns a coordinator without clerks.
fn coordinator(alloc: Global) -> Option<Coordinator> {
    let instance = Instance::new(7)?;
    let base = base(alloc)?;
    Some(Coordinator::new(alloc, instance, base, Limits::usual()))
}

/// Writes the addresses of a member at a host and port. Its number tells it from others.
fn fill(alloc: Global, socket: &str, number: u64, uris: &mut Uris) -> Result<(), AllocError> {
    uris.complete = Some(format!(in alloc; "http://{socket}/c{number}")?);
    uris.compensate = Some(format!(in alloc; "http://{socket}/u{number}")?);
    Ok(())
}

fn member(alloc: Global, socket: &str, number: u64) -> Option<Uris> {
    let mut uris = Uris {
        compensate: None,
        complete: None,
        status: None,
        forget: None,
        after: None,
    };
    if fill(alloc, socket, number, &mut uris).is_err() {
        drop(uris);
        return None;
    }
    Some(uris)
}

/// Lets this many members at a host and port join.
fn join_all(alloc: Global, coordinator: &mut Coordinator, socket: &str, count: u64) -> Option<()> {
    for number in 0..count {
        let member = member(alloc, socket, number)?;
        let joined = coordinator.join(1, 0, 1, &member);
        drop(member);
        joined.ok()?;
    }
    Some(())
}

/// Errand that is held. Dropping it discards it.
pub struct Held(Option<Errand>);

impl Drop for Held {
    fn drop(self) {
        let Held(errand) = self;
        if let Some(errand) = errand {
            errand.discard();
        }
    }
}

impl Held {
    pub fn take(self) -> Option<Errand> {
        let Held(errand) = self;
        errand
    }
}

fn begin(coordinator: &mut Coordinator) -> Result<(), Refusal> {
    coordinator.enrol(0)?;
    coordinator.start(1, 0, None, 0)?;
    Ok(())
}

/// Closes the action, and collects the errands that are due then.
fn ask_all(coordinator: &mut Coordinator, errands: &mut Vec<Held>) -> Option<()> {
    coordinator.close(1, 0, 1).ok()?;
    for _ in 0..u64::MAX {
        match coordinator.next_ask(1, 1_000_000) {
            Ok(Some(errand)) => errands.push(Held(Some(errand))).ok()?,
            Ok(None) => return Some(()),
            Err(_) => return None,
        }
    }
    None
}

/// Collects the errands of an action with members at two hosts, each given with its number of members.
fn ask_both(
    alloc: Global,
    coordinator: &mut Coordinator,
    first: (&str, u64),
    second: (&str, u64),
    errands: &mut Vec<Held>,
) -> Option<()> {
    begin(coordinator).ok()?;
    join_all(alloc, coordinator, first.0, first.1)?;
    join_all(alloc, coordinator, second.0, second.1)?;
    ask_all(coordinator, errands)
}

/// Returns the errands of an action with members at two hosts, each given with its number of members.
pub fn errands(alloc: Global, first: (&str, u64), second: (&str, u64)) -> Option<Vec<Held>> {
    let mut coordinator = coordinator(alloc)?;
    let mut errands = Vec::new(alloc);
    let asked = ask_both(alloc, &mut coordinator, first, second, &mut errands);
    drop(coordinator);
    asked?;
    Some(errands)
}

/// End of an action.
#[derive(Clone, Copy, Debug, PartialEq, Eq)]
pub enum End {
    Close,
    Cancel,
}

/// Ends an action that has a member at a host and port, and returns the first errand.
fn ask_one(alloc: Global, coordinator: &mut Coordinator, socket: &str, end: End) -> Option<Held> {
    begin(coordinator).ok()?;
    join_all(alloc, coordinator, socket, 1)?;
    match end {
        End::Close => coordinator.close(1, 0, 1).ok()?,
        End::Cancel => coordinator.cancel(1, 0, 1).ok()?,
    };
    let errand = coordinator.next_ask(1, 1_000_000).ok()??;
    Some(Held(Some(errand)))
}

/// Returns the first errand of an action that has ended, whose member is at a host and port. Another call returns an
/// errand of the same member.
pub fn errand(alloc: Global, socket: &str, end: End) -> Option<Held> {
    let mut coordinator = coordinator(alloc)?;
    let asked = ask_one(alloc, &mut coordinator, socket, end);
    drop(coordinator);
    asked
}
