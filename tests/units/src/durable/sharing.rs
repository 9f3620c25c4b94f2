//! Syncs that several threads wait for.

use crate::durable::platter::{AppendHandle, Begun, Platter, Spinning, begin, begin_beside};
use lra_durable::{JournalWriter, Journals, Progress, SyncFault, SyncGroup};
use lra_model::Instance;
use std::alloc::Global;
use std::io::Write;
use std::marker::Sync;
use std::sync::{Arc, Wait};
use std::thread::{Threads, join};

/// Number of durable bytes when each of three threads could go on, if it could, and the number of syncs.
type Told = (Option<u64>, Option<u64>, Option<u64>, u64);

/// Waits until the platter has this many bytes, and then until they are durable. Returns how many bytes are durable
/// then, if these are.
fn wait<R: Wait>(
    rt: &R,
    platter: &Platter,
    progress: &Progress<Spinning>,
    count: u64,
) -> Option<u64> {
    platter.wait_for_bytes(count);
    progress.keep(rt, progress.taken(rt)).ok().flatten()
}

/// Writes two bytes, and three more while the sync of the first two waits for that. Returns whether both writes
/// succeeded, and the three weren't durable before their sync.
fn write_both<R: Wait>(
    rt: &R,
    platter: &Platter,
    progress: &Arc<Progress<Spinning>>,
    append_handle: AppendHandle,
    is_broken: bool,
) -> bool {
    let Ok(told) = progress.clone() else {
        return false;
    };
    let mut journal_writer = JournalWriter::new(rt, told, append_handle, u64::MAX);
    let first = journal_writer.write_all(b"ab").is_ok();
    platter.wait_for_syncs(2);
    let second = journal_writer.write_all(b"cde").is_ok();
    let is_early = progress.kept(rt, progress.taken(rt)) != Ok(None);
    platter.set(is_broken, false);
    first && second && !is_early
}

/// Returns the results of three threads. One waits for two bytes, whose sync is held back. Two wait for five bytes,
/// three of which were written meanwhile.
fn share<R: Threads + Wait + Sync>(rt: &R, alloc: Global, is_broken: bool) -> Option<Told> {
    let Begun {
        platter,
        append_handle,
        progress,
        ..
    } = begin(rt, alloc, 100, false)?;
    platter.set(false, true);
    let (first, went_on) = join(
        rt,
        || wait(rt, &platter, &progress, 2),
        || write_both(rt, &platter, &progress, append_handle, is_broken),
    );
    let (second, third) = join(
        rt,
        || wait(rt, &platter, &progress, 5),
        || wait(rt, &platter, &progress, 5),
    );
    if went_on {
        Some((first, second, third, platter.syncs()))
    } else {
        None
    }
}

#[test]
fn those_who_wait_share_the_next_sync(rt: HostRuntime) {
    assert!(rt; share(&rt, rt.alloc(), false) == Some((Some(2), Some(5), Some(5), 3)));
}

#[test]
fn a_failed_sync_is_known_to_all_who_wait(rt: HostRuntime) {
    assert!(rt; share(&rt, rt.alloc(), true) == Some((None, None, None, 2)));
}

/// Group of two journals: one has two bytes, the other three.
#[derive(Drop)]
struct Two {
    group: Journals<Spinning>,
    first: Instance,
    second: Instance,
    platter: Arc<Platter>,
    other_platter: Arc<Platter>,
    other_progress: Arc<Progress<Spinning>>,
}

/// Returns a group of two journals that weren't synced, and the writer of the second one, which has that number.
fn begin_two<R: Wait>(
    rt: &R,
    alloc: Global,
    number: u64,
) -> Option<(Two, JournalWriter<&R, Spinning>)> {
    let Begun {
        platter,
        append_handle,
        progress,
        group,
        instance,
    } = begin(rt, alloc, 100, false)?;
    let second = Instance::new(number)?;
    let (other_platter, other_append_handle, other_progress) = begin_beside(
        rt, alloc, &group, second,
    )?;
    let mut one = JournalWriter::new(rt, progress, append_handle, u64::MAX);
    let mut other = JournalWriter::new(
        rt,
        other_progress.clone().ok()?,
        other_append_handle,
        u64::MAX,
    );
    one.write_all(b"ab").ok()?;
    other.write_all(b"cde").ok()?;
    let two = Two {
        group,
        first: instance,
        second,
        platter,
        other_platter,
        other_progress,
    };
    Some((two, other))
}

/// Syncs two journals in two threads at once. Each sync waits until the other has begun. Returns their durable lengths.
fn sync_both<R: Threads + Wait + Sync>(rt: &R, alloc: Global) -> Option<(u64, u64)> {
    let (two, _other) = begin_two(rt, alloc, 9)?;
    two.platter.set(false, true);
    two.other_platter.set(false, true);
    let two = &two;
    let (one_kept, other_kept) = join(
        rt,
        || two.group.keep(rt, two.first, 2).ok().flatten(),
        || {
            two.platter.wait_for_syncs(2);
            two.other_platter.set(false, false);
            let kept = two.group.keep(rt, two.second, 3).ok().flatten();
            two.platter.set(false, false);
            kept
        },
    );
    Some((one_kept?, other_kept?))
}

#[test]
fn journals_are_synced_side_by_side(rt: HostRuntime) {
    assert!(rt; sync_both(&rt, rt.alloc()) == Some((2, 3)));
}

/// Returns whether a group reports each journal right: one has two durable bytes, one has three that aren't durable,
/// and one was never there.
fn tells_each<R: Wait>(rt: &R, alloc: Global) -> Option<bool> {
    let (two, _other) = begin_two(rt, alloc, 3)?;
    let group = &two.group;
    let own = group.keep(rt, two.first, 2) == Ok(Some(2));
    let others = group.kept(rt, two.second, 3) == Ok(None)
        && group.kept(rt, two.second, 0) == Ok(Some(0));
    let absent = Instance::new(5)?;
    let none = group.keep(rt, absent, 0) == Ok(None) && group.kept(rt, absent, 0) == Ok(None);
    Some(own && others && none && group.appended(rt) == 2)
}

#[test]
fn each_journal_is_as_durable_as_it_is(rt: HostRuntime) {
    assert!(rt; tells_each(&rt, rt.alloc()) == Some(true));
}

/// Returns whether a journal that has ended counts as durable to its end, and no further.
fn ends_whole<R: Wait>(rt: &R, alloc: Global) -> Option<bool> {
    let Begun {
        platter,
        append_handle,
        progress,
        group,
        instance,
    } = begin(rt, alloc, 100, false)?;
    let mut journal_writer = JournalWriter::new(rt, progress, append_handle, u64::MAX);
    journal_writer.write_all(b"abc").ok()?;
    drop(journal_writer);
    let ended = group.end(rt, instance) == Ok(Some(3));
    let kept = group.kept(rt, instance, 3) == Ok(Some(3));
    let past = group.keep(rt, instance, 4) == Ok(None);
    Some(ended && kept && past && platter.has(3, 3))
}

#[test]
fn a_journal_that_ended_is_durable_to_its_end(rt: HostRuntime) {
    assert!(rt; ends_whole(&rt, rt.alloc()) == Some(true));
}

/// Returns whether a failed sync of one journal is reported to threads that wait for another, and to its writer.
fn fails_together<R: Wait>(rt: &R, alloc: Global) -> Option<bool> {
    let (two, mut other) = begin_two(rt, alloc, 9)?;
    let group = &two.group;
    two.platter.set(true, false);
    let failed = group.keep(rt, two.first, 2) == Err(SyncFault);
    let known = group.kept(rt, two.second, 0) == Err(SyncFault)
        && group.keep(rt, two.second, 3) == Err(SyncFault);
    let shut = other.write_all(b"f").is_err()
        && two.other_progress.has_failed(rt)
        && group.has_failed(rt);
    Some(failed && known && shut && two.other_platter.has(3, 0))
}

#[test]
fn journals_fail_together(rt: HostRuntime) {
    assert!(rt; fails_together(&rt, rt.alloc()) == Some(true));
}
