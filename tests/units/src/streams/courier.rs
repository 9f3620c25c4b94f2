//! Callbacks: their requests, the outcomes of replies, and streams that fail.
mod callback_exchange;
mod dialling;
mod errands;
mod limits;
mod memory;
mod replies;
mod streams;
mod tcp;
mod tokens;

use lra_courier::{Callback, ExtraFields};
use lra_model::{AskKind, Direction};

/// Returns a callback to forget at this address.
fn forget(address: &str) -> Callback<'_> {
    Callback {
        kind: AskKind::Forget,
        direction: Direction::Neither,
        address,
        action_uri: "http://c.test/a",
        parent_uri: None,
        recovery_uri: "http://c.test/r",
        ended: None,
        extra: ExtraFields::none(),
    }
}
