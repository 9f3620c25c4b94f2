//! Answers of a coordinator, written as text.

use lra_commands::QueryResult;
use lra_core::{Refusal, Told};
use std::io::Write;

/// Writes the answer to a command, or its refusal.
pub fn put_answer(answer: Result<Told, Refusal>, text: &mut Vec<u8>) -> Option<()> {
    match answer {
        Ok(told) => writeln!(text, "{told:?}").ok(),
        Err(refusal) => writeln!(text, "refused {refusal:?}").ok(),
    }
}

/// Writes the first moment at which something is due.
pub fn put_next(next: Option<u64>, text: &mut Vec<u8>) -> Option<()> {
    match next {
        Some(moment) => writeln!(text, "at {moment}").ok(),
        None => writeln!(text, "never").ok(),
    }
}

/// Writes the answer to a query, or its refusal.
pub fn put_known(known: Result<QueryResult, Refusal>, text: &mut Vec<u8>) -> Option<()> {
    match known {
        Ok(known) => writeln!(text, "{known:?}").ok(),
        Err(refusal) => writeln!(text, "refused {refusal:?}").ok(),
    }
}
