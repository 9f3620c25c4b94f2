//! A counter that refuses every order, and a clock that stands still.

use crate::streams::coordinator::base;
use lra_commands::{Counter, CounterFault, Order, Session, Told};
use lra_front::Clock;
use lra_ids::{Base, Instance};
use std::alloc::Global;

#[derive(Drop)]
pub(super) struct Worn {
    instance: Instance,
    base: Base,
}

/// Returns a counter that refuses every order.
pub(super) fn worn_counter(alloc: Global) -> Option<Worn> {
    let instance = Instance::new(7)?;
    let base = Base::of(base(alloc)?);
    Some(Worn { instance, base })
}

impl Counter for Worn {
    ghost sight = { λ c. record {
      setting = record { version = One; instance = c.instance; base = c.base; limits = usual };
      number = 1;
      seen = [];
    } };

    ghost gives = { λ before moment order reply after. (reply ≡ Err fault.Worn) × (after ≡ before) };

    fn instance(&self) -> Instance {
        self.instance
    }

    fn base(&self) -> &Base {
        &self.base
    }

    fn give(&mut self, _moment: u64, _order: &Order<'_>) -> Result<Told, CounterFault> {
        Err(CounterFault::Worn)
    }

    ghost keeps = { λ before after moment order reply h.
        let P : Result Told CounterFault → Type 0 = λ r. KeepsHistory before moment order r after in
        subst P (sym h.0) (record {
          same = record { setting = ap (λ w. w.setting) h.1; number = ap (λ w. w.number) h.1 };
          seen = ap (λ w. w.seen) h.1;
        }) };
}

impl Session for Worn {
    // It has no journal.
    ghost covers = { λ _ _. true };

    fn position(&self) -> u64 {
        0
    }
}

/// Clock that stands still.
#[derive(Drop)]
pub(super) struct Still {
    pub(super) moment: u64,
}

impl Clock for Still {
    ghost tells = { λ before moment after. moment ≡ before.moment };

    fn now(&mut self) -> u64 {
        self.moment
    }
}
