//! Streams that come in pieces, answered by steps.
use super::counter::{Still, worn_counter};
use super::{STREAMS, end_word};
use crate::streams::rows::{parted, written_out};
use lra_commands::Session;
use lra_steps::serve_pieces;
use std::alloc::Global;

/// Cuts a text into pieces of this size.
fn cut(alloc: Global, text: &str, size: usize) -> Option<Vec<Vec<u8>>> {
    let mut pieces = Vec::new(alloc);
    for piece in text.as_bytes().chunks(size.max(1)) {
        let piece = Vec::from_slice(alloc, piece).ok()?;
        pieces.push(piece).ok()?;
    }
    Some(pieces)
}

/// Returns whether pieces have this reply and this end at a counter.
fn comes_to<C: Session>(
    alloc: Global,
    counter: &mut C,
    pieces: &[Vec<u8>],
    reply: &str,
    end: &str,
) -> bool {
    let mut sent = Vec::new(alloc);
    match serve_pieces(alloc, pieces, &mut sent, counter, &mut Still { moment: 5 }) {
        Ok(ended) => sent.as_slice() == reply.as_bytes() && end_word(ended) == end,
        Err(_) => false,
    }
}

/// Returns whether a text in pieces of this size has this reply and this end, at a counter that refuses every order.
fn is_answered(alloc: Global, text: &str, size: usize, reply: &str, end: &str) -> Option<bool> {
    let mut counter = worn_counter(alloc)?;
    let pieces = cut(alloc, text, size)?;
    let answered = comes_to(alloc, &mut counter, pieces.as_slice(), reply, end);
    drop(pieces);
    drop(counter);
    Some(answered)
}

/// Returns whether the stream of a row has the row's reply and end, in pieces of this size.
fn row_is_answered(alloc: Global, row: &str, size: usize) -> bool {
    let row = written_out(alloc, row);
    let (stream, rest) = parted(row.as_str(), "|");
    let (reply, end) = parted(rest, "|");
    let answered = is_answered(alloc, stream, size, reply, end);
    drop(row);
    answered == Some(true)
}

#[test]
fn pieces_are_answered_as_streams_are(rt: HostRuntime) {
    for row in STREAMS.lines() {
        assert!(rt; row_is_answered(rt.alloc(), row, 1), "{row}");
        assert!(rt; row_is_answered(rt.alloc(), row, 4096), "{row}");
    }
}
