//! Coordinators that go on from a journal's bytes, which are fed in pieces of any size.

use crate::scripts::coordinator::{base, is_so, small};
use crate::scripts::rows::OPENED;
use crate::scripts::same::assert_same;
use crate::scripts::words::parted;
use lra_core::{Command, CoordinatorOf, LengthOnly, Limits, Memory, OpenFault, Opening, Prepared};
use lra_ids::Base;
use std::alloc::Global;

/// Sizes of pieces, in bytes. In the last size a journal is one piece.
const SIZES: [usize; 3] = [1, 7, 65_536];

/// Journal that was cut off in a block: its last line, which has no end, isn't read.
const CUT: &str = "\
lra-journal 1 7
1 0 enrol
1 0 start 1 * 0
1 1 join 1 1 http://p.test/u * * * *
1 2 close 1 client
1 2 sk";

/// Text that an enrolment there appends.
const ADDED: &[u8] = b"2 9 enrol\n2 9 skip 1\n2 9 end 1 Closed\n";

/// Returns an opening that was fed these bytes in pieces of this size.
fn fed(alloc: Global, bytes: &[u8], size: usize) -> Result<Opening, Memory> {
    let mut opening = Opening::new(alloc);
    let mut rest = bytes;
    while !rest.is_empty() {
        let (piece, others) = rest.split_at(size.max(1).min(rest.len()));
        opening = opening.feed(piece)?;
        rest = others;
    }
    Ok(opening)
}

/// Opens a coordinator from a journal in pieces of this size, with this many entries at most.
fn open_once(
    alloc: Global,
    journal: &str,
    entries: u32,
    size: usize,
) -> Result<CoordinatorOf<LengthOnly>, OpenFault> {
    let Some(base) = base(alloc) else {
        return Err(OpenFault::Memory);
    };
    let opening = fed(alloc, journal.as_bytes(), size)?;
    let limits = Limits {
        entries: u64::from(entries),
        ..Limits::usual()
    };
    opening.finish(Base::of(base), limits)
}

/// Opens a coordinator from a journal in pieces of this size, and tries again if memory was refused.
fn open(
    alloc: Global,
    journal: &str,
    entries: u32,
    size: usize,
) -> Result<CoordinatorOf<LengthOnly>, OpenFault> {
    match open_once(alloc, journal, entries, size) {
        Err(OpenFault::Memory) => open_once(alloc, journal, entries, size),
        opened => opened,
    }
}

/// Returns whether the opening of a journal has the wanted fault.
fn is_refused(alloc: Global, journal: &str, entries: u32, wanted: &str, size: usize) -> bool {
    match open(alloc, journal, entries, size) {
        Ok(coordinator) => {
            drop(coordinator);
            false
        }
        Err(fault) => is_so(fault, wanted),
    }
}

/// Returns whether the journal of a row is refused as the row says, in pieces of this size.
fn row_is_refused(alloc: Global, row: &str, size: usize) -> bool {
    let (line, journal) = parted(row, "\n");
    let (entries, wanted) = parted(line, " ");
    is_refused(alloc, journal, u32::from(small(entries)), wanted, size)
}

#[test]
fn journals_are_opened_in_pieces(rt: HostRuntime) {
    for size in SIZES {
        for row in OPENED.split('|') {
            assert!(rt; row_is_refused(rt.alloc(), row, size), "{size} {row}");
        }
    }
}

/// Returns the text that an enrolment would append. It is empty if the enrolment is refused.
fn enrolment(alloc: Global, coordinator: &mut CoordinatorOf<LengthOnly>) -> Vec<u8> {
    let mut text = Vec::new(alloc);
    for _again in 0..2 {
        if let Ok(Prepared::Block(block)) = coordinator.prepare(0, 9, &Command::Enrol)
            && text.extend_from_slice(block.text()).is_ok()
        {
            return text;
        }
    }
    text
}

/// Returns the text that an enrolment would append to the journal that was cut off, fed in pieces of this size.
fn added(alloc: Global, size: usize) -> Vec<u8> {
    match open(alloc, CUT, 100, size) {
        Ok(mut coordinator) => {
            let text = enrolment(alloc, &mut coordinator);
            drop(coordinator);
            text
        }
        Err(_) => Vec::new(alloc),
    }
}

#[test]
fn what_was_cut_off_is_not_read(rt: HostRuntime) {
    for size in SIZES {
        let text = added(rt.alloc(), size);
        assert_same(&rt, text.as_slice(), ADDED);
        drop(text);
    }
}
