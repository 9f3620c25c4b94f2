//! A coordinator in memory, and helpers for it. A function that owns a coordinator lends it, and drops it at one exit.

use lra_core::{Coordinator, Errand, Instance, Limits};
use lra_ids::{Address, address};
use lra_model::{Outcome, suits};
use std::alloc::Global;

/// Returns the base of a coordinator's URIs.
pub fn base(alloc: Global) -> Option<Address> {
    let base = address(alloc, "http://127.0.0.1:8080/").ok()?;
    if base.is_base() { Some(base) } else { None }
}

/// Returns a coordinator without clerks.
pub fn coordinator(alloc: Global) -> Option<Coordinator> {
    let instance = Instance::new(7)?;
    let base = base(alloc)?;
    Some(Coordinator::new(alloc, instance, base, Limits::usual()))
}

/// Records an outcome of an errand. Returns false if the errand can't have that outcome or the coordinator refuses it.
pub fn record(
    coordinator: &mut Coordinator,
    moment: u64,
    errand: Errand,
    outcome: Outcome,
) -> bool {
    if !suits(errand.kind(), outcome) {
        errand.discard();
        return false;
    }
    match coordinator.record(1, moment, errand, outcome) {
        Ok(_) => true,
        Err((_, errand)) => {
            errand.discard();
            false
        }
    }
}
