//! Callback exchanges that are refused a growth: run with one allocation failing in turn.
use super::callback_exchange::asked;
use lra_courier::{CallbackExchange, SendFault, Step};
use lra_model::Outcome;
use std::alloc::Global;

/// Responses for each way in which a body may end: after its length, with its last chunk, and with the stream.
const SIZED: &[u8] = b"HTTP/1.1 200 OK\r\nContent-Length: 9\r\n\r\nCompleted";

const CHUNKED: &[u8] =
    b"HTTP/1.1 200 OK\r\nTransfer-Encoding: chunked\r\n\r\n4\r\nComp\r\n5\r\nleted\r\n0\r\n\r\n";

const ENDED: &[u8] = b"HTTP/1.1 200 OK\r\n\r\nCompleted";

/// Begins a callback exchange, and tries again if memory was refused.
fn made(alloc: Global) -> Option<CallbackExchange> {
    match CallbackExchange::new(alloc, &asked()) {
        Ok(callback_exchange) => Some(callback_exchange),
        Err(SendFault::Memory) => CallbackExchange::new(alloc, &asked()).ok(),
        Err(_) => None,
    }
}

/// Returns how many bytes may be sent and accepted, and the outcome, if it is known.
fn shown(callback_exchange: &CallbackExchange) -> (usize, usize, Option<Outcome>) {
    (
        callback_exchange.out().len(),
        callback_exchange.room(),
        callback_exchange.outcome(),
    )
}

/// Takes the next step. If memory is refused it checks that the exchange is unchanged, and tries again.
fn next(callback_exchange: &mut CallbackExchange) -> Option<Step> {
    let before = shown(callback_exchange);
    if let Ok(step) = callback_exchange.next() {
        return Some(step);
    }
    if shown(callback_exchange) != before {
        return None;
    }
    callback_exchange.next().ok()
}

/// Gives bytes to an exchange. If memory is refused it checks that the exchange is unchanged, and tries again.
fn take(callback_exchange: &mut CallbackExchange, bytes: &[u8]) -> Option<bool> {
    let before = shown(callback_exchange);
    if let Ok(taken) = callback_exchange.take(bytes) {
        return Some(taken);
    }
    if shown(callback_exchange) != before {
        return None;
    }
    callback_exchange.take(bytes).ok()
}

/// Returns the outcome of an exchange whose response comes byte by byte, and then the end.
fn heard(callback_exchange: &mut CallbackExchange, bytes: &[u8]) -> Option<Outcome> {
    let count = callback_exchange.out().len();
    callback_exchange.advance_by(count);
    for place in 0..bytes.len() {
        next(callback_exchange)?;
        if !take(callback_exchange, &bytes[place..place + 1])? {
            return None;
        }
    }
    next(callback_exchange)?;
    callback_exchange.ended();
    next(callback_exchange)?;
    callback_exchange.outcome()
}

fn is_done(alloc: Global, bytes: &[u8]) -> bool {
    let Some(mut callback_exchange) = made(alloc) else {
        return false;
    };
    let outcome = heard(&mut callback_exchange, bytes);
    drop(callback_exchange);
    outcome == Some(Outcome::Done)
}

#[test]
fn a_refused_growth_leaves_a_callback_as_it_was(rt: HostRuntime) {
    for response in [SIZED, CHUNKED, ENDED] {
        assert!(rt; is_done(rt.alloc(), response));
    }
}
