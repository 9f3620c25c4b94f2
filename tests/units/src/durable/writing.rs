//! Writes that are whole, or are cut off again, and when bytes may leave.

use crate::durable::platter::{Begun, begin};
use lra_durable::{JournalWriter, SyncFault, SyncGroup};
use std::alloc::Global;
use std::io::{ErrorKind, Write};
use std::sync::Wait;
use std::test::Fail;

/// Writes bytes, and returns the kind of the error, if there is one.
fn outcome<W: Write>(journal_writer: &mut W, bytes: &[u8]) -> Option<ErrorKind> {
    match journal_writer.write_all(bytes) {
        Ok(()) => None,
        Err(error) => Some(error.kind()),
    }
}

/// Returns whether a write that the disk accepts only in part is cut off, and the next one follows those that were
/// whole.
fn takes_back<R: Wait>(rt: &R, alloc: Global) -> Option<bool> {
    let Begun {
        platter,
        append_handle,
        progress,
        ..
    } = begin(rt, alloc, 6, false)?;
    let mut journal_writer = JournalWriter::new(
        rt,
        progress.clone().ok()?,
        append_handle,
        u64::MAX,
    );
    let whole = outcome(&mut journal_writer, b"abcd").is_none();
    let cut = outcome(&mut journal_writer, b"efgh") == Some(ErrorKind::WriteZero);
    let is_back = platter.has(4, 0);
    platter.make_room(9, false);
    let next = outcome(&mut journal_writer, b"ij").is_none() && platter.has(6, 0);
    Some(whole && cut && is_back && next && !progress.has_failed(rt))
}

#[test]
fn a_write_stands_whole_or_not_at_all(rt: HostRuntime) {
    assert!(rt; takes_back(&rt, rt.alloc()) == Some(true));
}

/// Returns whether a write that can't be cut off is the disk's failure: nothing is written from then on, and no thread
/// waits.
fn fails<R: Wait>(rt: &R, alloc: Global) -> Option<bool> {
    let Begun {
        platter,
        append_handle,
        progress,
        ..
    } = begin(rt, alloc, 6, false)?;
    let mut journal_writer = JournalWriter::new(
        rt,
        progress.clone().ok()?,
        append_handle,
        u64::MAX,
    );
    let whole = outcome(&mut journal_writer, b"abcd").is_none();
    platter.make_room(1, true);
    let cut = outcome(&mut journal_writer, b"efgh") == Some(ErrorKind::WriteZero);
    platter.make_room(9, false);
    let shut = outcome(&mut journal_writer, b"i") == Some(ErrorKind::Other);
    let sync_fault = progress.keep(rt, progress.taken(rt)) == Err(SyncFault);
    Some(whole && cut && shut && sync_fault && platter.syncs() == 1 && platter.has(5, 0))
}

#[test]
fn a_write_that_cannot_be_taken_back_is_the_end(rt: HostRuntime) {
    assert!(rt; fails(&rt, rt.alloc()) == Some(true));
}

/// Returns whether a write that is a byte too long for the room is refused whole, though the disk would accept it, and
/// one that just fits is appended.
fn keeps_within<R: Wait>(rt: &R, alloc: Global) -> Option<bool> {
    let Begun {
        platter,
        append_handle,
        progress,
        ..
    } = begin(rt, alloc, 100, false)?;
    let mut journal_writer = JournalWriter::new(rt, progress.clone().ok()?, append_handle, 5);
    let first = outcome(&mut journal_writer, b"abc").is_none();
    let past = outcome(&mut journal_writer, b"def") == Some(ErrorKind::FileTooLarge);
    let is_untouched = platter.has(3, 0);
    let last = outcome(&mut journal_writer, b"de").is_none();
    let full = outcome(&mut journal_writer, b"f") == Some(ErrorKind::FileTooLarge);
    Some(first && past && is_untouched && last && full && platter.has(5, 0))
}

#[test]
fn a_write_past_the_room_is_refused_whole(rt: HostRuntime) {
    assert!(rt; keeps_within(&rt, rt.alloc()) == Some(true));
}

/// Returns whether bytes may leave once the disk is durable up to their position, and not before.
fn leaves_late<R: Wait>(rt: &R, alloc: Global) -> Option<bool> {
    let Begun {
        platter,
        append_handle,
        progress,
        group,
        instance,
    } = begin(rt, alloc, 100, false)?;
    let mut journal_writer = JournalWriter::new(
        rt,
        progress.clone().ok()?,
        append_handle,
        u64::MAX,
    );
    let at_once = group.kept(rt, instance, 0) == Ok(Some(0));
    journal_writer.write_all(b"abcde").ok()?;
    let early = group.kept(rt, instance, 5) == Ok(None);
    let older = group.kept(rt, instance, 0) == Ok(Some(0));
    let kept = progress.keep(rt, 5) == Ok(Some(5)) && platter.has(5, 5);
    let late = group.kept(rt, instance, 5) == Ok(Some(5));
    Some(at_once && early && older && kept && late)
}

#[test]
fn bytes_leave_once_their_position_is_durable(rt: HostRuntime) {
    assert!(rt; leaves_late(&rt, rt.alloc()) == Some(true));
}

/// Returns whether nothing is durable, written or let out any more after a failed sync.
fn leaves_never<R: Wait>(rt: &R, alloc: Global) -> Option<bool> {
    let Begun {
        platter,
        append_handle,
        progress,
        group,
        instance,
    } = begin(rt, alloc, 100, false)?;
    let mut journal_writer = JournalWriter::new(
        rt,
        progress.clone().ok()?,
        append_handle,
        u64::MAX,
    );
    let written = outcome(&mut journal_writer, b"ab").is_none();
    platter.set(true, false);
    let failed = progress.keep(rt, 2) == Err(SyncFault);
    platter.set(false, false);
    let again = progress.keep(rt, 2) == Err(SyncFault) && progress.kept(rt, 2) == Err(SyncFault);
    let shut = outcome(&mut journal_writer, b"c") == Some(ErrorKind::Other);
    let held = group.kept(rt, instance, 2) == Err(SyncFault);
    Some(
        written
            && failed
            && again
            && shut
            && held
            && progress.has_failed(rt)
            && platter.syncs() == 2,
    )
}

#[test]
fn nothing_leaves_after_a_failed_sync(rt: HostRuntime) {
    assert!(rt; leaves_never(&rt, rt.alloc()) == Some(true));
}

#[test]
fn a_disk_that_fails_at_once_is_refused(rt: HostRuntime) -> Result<(), Fail> {
    assert!(rt; begin(&rt, rt.alloc(), 100, true).is_none());
    let text = format!(in rt.alloc(); "{SyncFault}")?;
    assert!(rt; text.as_str() == "the disk does not keep what it took");
    Ok(())
}
