//! A counter that counts the orders that it is given and performs none, and a journal set of two such counters.

use lra_commands::{Counter, CounterFault, Order, Session, Told};
use lra_ids::{Address, Base, Instance, base_of};
use lra_journal_sets::JournalSet;
use std::alloc::Global;

/// Instances of the older and of the newer member, which differ only in their upper bits.
pub(super) const OLDER: u64 = 7;

pub(super) const NEWER: u64 = 4103;

#[derive(Drop)]
pub(super) struct Counting {
    instance: Instance,
    base: Base,
    orders: u64,
}

/// Returns the base of both members.
fn base(alloc: Global) -> Option<Address> {
    match base_of(alloc, "h.test") {
        Ok(found) => found,
        Err(_) => None,
    }
}

fn counter_of(alloc: Global, instance: u64) -> Option<Counting> {
    let instance = Instance::new(instance)?;
    let base = Base::of(base(alloc)?);
    Some(Counting {
        instance,
        base,
        orders: 0,
    })
}

impl Counter for Counting {
    ghost sight = { λ c. record {
      setting = record { version = Two; instance = c.instance; base = c.base; limits = usual };
      number = 1;
      seen = [];
    } };

    ghost gives = { λ before moment order reply after. (reply ≡ Err fault.Worn) × (after ≡ before) };

    fn instance(&self) -> Instance {
        self.instance
    }

    fn base(&self) -> &Base {
        &self.base
    }

    fn give(&mut self, _moment: u64, _order: &Order<'_>) -> Result<Told, CounterFault> {
        self.orders = self.orders.wrapping_add(1);
        Err(CounterFault::Worn)
    }

    ghost keeps = { λ before after moment order reply h.
        let P : Result Told CounterFault → Type 0 = λ r. KeepsHistory before moment order r after in
        subst P (sym h.0) (record {
          same = record { setting = ap (λ w. w.setting) h.1; number = ap (λ w. w.number) h.1 };
          seen = ap (λ w. w.seen) h.1;
        }) };
}

impl Session for Counting {
    // It has no journal.
    ghost covers = { λ _ _. true };

    /// Returns how many orders it was given.
    fn position(&self) -> u64 {
        self.orders
    }
}

/// Returns how many orders the member of an instance was given.
pub(super) fn orders_of(journal_set: &JournalSet<Counting>, instance: u64) -> Option<u64> {
    match journal_set.member(Instance::new(instance)?) {
        Some(counter) => Some(counter.orders),
        None => None,
    }
}

/// Adds a newer member to a journal set, and returns whether it joined.
fn rotated(journal_set: &mut JournalSet<Counting>, newer: Counting) -> bool {
    journal_set.newest().number() < newer.instance.number() && journal_set.rotate(newer).is_ok()
}

/// Returns a journal set with the older member only.
pub(super) fn alone(alloc: Global) -> Option<JournalSet<Counting>> {
    let older = counter_of(alloc, OLDER)?;
    match JournalSet::new(alloc, older) {
        Ok(journal_set) => Some(journal_set),
        Err(_) => None,
    }
}

/// Returns the newer member, before it joins.
pub(super) fn newcomer(alloc: Global) -> Option<Counting> {
    counter_of(alloc, NEWER)
}

/// Returns a journal set of both members.
pub(super) fn journal_set(alloc: Global) -> Option<JournalSet<Counting>> {
    let older = counter_of(alloc, OLDER)?;
    let newer = counter_of(alloc, NEWER)?;
    let Ok(mut journal_set) = JournalSet::new(alloc, older) else {
        return None;
    };
    if rotated(&mut journal_set, newer) {
        Some(journal_set)
    } else {
        None
    }
}
