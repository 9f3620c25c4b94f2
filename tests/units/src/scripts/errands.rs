//! Errands that are held until their outcomes are recorded.

use lra_core::Errand;
use std::alloc::{AllocError, Global};
use std::io::{self, Write};

/// Most errands that a script holds.
const ASKS: usize = 16;

/// Errand that is held.
struct Held {
    ask: u64,
    errand: Option<Errand>,
}

impl Drop for Held {
    fn drop(self) {
        let Held { ask: _, errand } = self;
        if let Some(errand) = errand {
            errand.discard();
        }
    }
}

impl Held {
    fn new(errand: Errand) -> Held {
        Held {
            ask: errand.ask(),
            errand: Some(errand),
        }
    }

    /// Writes the ask, the member, the kind and the address.
    fn put(&self, text: &mut Vec<u8>) -> io::Result<()> {
        if let Some(errand) = &self.errand {
            let (ask, member) = (errand.ask(), errand.member());
            let (kind, address) = (errand.kind().name(), errand.address());
            writeln!(text, "ask {ask} {member} {kind} {address}")?;
        }
        Ok(())
    }

    /// Writes the parts of the errand that `put` doesn't.
    fn show(&self, text: &mut Vec<u8>) -> io::Result<()> {
        if let Some(errand) = &self.errand {
            let (action, direction) = (errand.action(), errand.direction().name());
            let (uri, parent) = (errand.action_uri(), errand.parent_uri());
            write!(text, "{action} {direction} {uri} {parent:?} ")?;
            let (recovery, ended) = (errand.recovery_uri(), errand.ended());
            writeln!(text, "{recovery} {ended:?}")?;
        }
        Ok(())
    }
}

/// All errands that are held.
#[derive(Drop)]
pub struct Errands {
    held: Vec<Held>,
}

impl Errands {
    pub fn new(alloc: Global) -> Errands {
        Errands {
            held: Vec::new(alloc),
        }
    }

    /// Reserves room for the errands of a script, so that holding them takes no memory.
    pub fn make_room(&mut self) -> Result<(), AllocError> {
        self.held.reserve(ASKS)
    }

    /// Holds an errand, and writes what it is.
    pub fn hold(&mut self, errand: Errand, text: &mut Vec<u8>) -> Option<()> {
        let held = Held::new(errand);
        let done = held.put(text);
        self.held.push(held).ok()?;
        done.ok()
    }

    /// Holds an errand that was handed back.
    pub fn hold_again(&mut self, errand: Errand) -> Option<()> {
        self.held.push(Held::new(errand)).ok()
    }

    /// Removes the errand of an ask, and returns it if it is held.
    pub fn take(&mut self, ask: u64) -> Option<Errand> {
        for held in &mut self.held {
            if held.ask == ask && held.errand.is_some() {
                return held.errand.take();
            }
        }
        None
    }

    /// Discards the errand of an ask.
    pub fn discard(&mut self, ask: u64) -> Option<()> {
        let errand = self.take(ask)?;
        errand.discard();
        Some(())
    }

    /// Writes the parts of an errand that weren't written when it was asked.
    pub fn show(&self, ask: u64, text: &mut Vec<u8>) -> Option<()> {
        for held in &self.held {
            if held.ask == ask {
                held.show(text).ok()?;
            }
        }
        Some(())
    }
}
