//! The lock, which guards a list of entries.

use crate::office::signals::{Signals, wait_for};
use lra_model::{Deed, Entry, Memory};
use lra_ticket::example::{AddFault, EntryLock, EntryPass, add};
use lra_ticket::{Held, TryFault, Worn};
use std::alloc::Global;
use std::sync::Wait;
use std::sync::atomic::Ordering;
use std::test::Fail;
use std::thread::{Threads, join};
use std::time::Clock;

fn entry(by: u32, moment: u64) -> Entry {
    Entry {
        by,
        moment,
        deed: Deed::Enrol,
    }
}

fn has_none_by(entries: &Vec<Entry>, number: u32) -> bool {
    for entry in entries {
        if entry.by == number {
            return false;
        }
    }
    true
}

// Adds an entry, if there is memory, and returns whether it did.
fn push(entries: &mut Vec<Entry>, entry: Entry) -> bool {
    match entries.push(entry) {
        Ok(()) => true,
        Err(refused) => {
            drop(refused);
            false
        }
    }
}

// Adds an entry under the holder's number, and gives the list back. If memory is refused the entry is missing in the
// test's counts.
fn write(
    lock: &EntryLock,
    held: Held<Vec<Entry>>,
    mut entries: Vec<Entry>,
    number: u32,
    moment: u64,
) -> EntryPass {
    let _ = push(&mut entries, entry(number, moment));
    lock.give(held, entries)
}

// Adds the first entry of a number, unless the number has one already.
fn enrol(
    lock: &EntryLock,
    held: Held<Vec<Entry>>,
    mut entries: Vec<Entry>,
    number: u32,
) -> Option<EntryPass> {
    let is_new = has_none_by(&entries, number);
    if is_new && push(&mut entries, entry(number, 0)) {
        return Some(lock.give(held, entries));
    }
    drop(lock.give(held, entries));
    None
}

// Adds a block under the lock, after a wait. If memory is refused it tries once more.
fn append<R: Wait>(
    rt: &R,
    lock: &EntryLock,
    pass: EntryPass,
    number: u32,
    moment: u64,
) -> Option<EntryPass> {
    match add(rt, lock, pass, entry(number, moment)) {
        Ok(pass) => Some(pass),
        Err((pass, AddFault::Memory)) => add(rt, lock, pass, entry(number, moment)).ok(),
        Err((pass, AddFault::Worn)) => {
            drop(pass);
            None
        }
    }
}

// Adds a block under the lock. It first tries to take the lock without a wait, and waits if that is busy.
fn append_soon<R: Wait>(
    rt: &R,
    lock: &EntryLock,
    pass: EntryPass,
    number: u32,
    moment: u64,
) -> Option<EntryPass> {
    match lock.try_take(pass) {
        Ok((held, entries)) => Some(write(lock, held, entries, number, moment)),
        Err((pass, TryFault::Busy)) => append(rt, lock, pass, number, moment),
        Err((pass, TryFault::Worn)) => {
            drop(pass);
            None
        }
    }
}

// Takes the lock for its first block.
fn first_block<R: Wait>(
    rt: &R,
    lock: &EntryLock,
    pass: EntryPass,
    number: u32,
) -> Option<EntryPass> {
    match lock.take(rt, pass) {
        Ok((held, entries)) => enrol(lock, held, entries, number),
        Err((pass, Worn)) => {
            drop(pass);
            None
        }
    }
}

// Takes the lock for its first block without a wait. Returns none if the lock is busy.
fn first_block_soon(lock: &EntryLock, pass: EntryPass, number: u32) -> Option<EntryPass> {
    match lock.try_take(pass) {
        Ok((held, entries)) => enrol(lock, held, entries, number),
        Err((pass, _)) => {
            drop(pass);
            None
        }
    }
}

// Enrols under a number, and adds this many blocks. Even numbers try before they wait.
fn clerk<R: Wait>(
    rt: &R,
    lock: &EntryLock,
    pass: EntryPass,
    number: u32,
    blocks: u64,
) -> Option<EntryPass> {
    let mut pass = first_block(rt, lock, pass, number)?;
    for block in 0..blocks {
        let moment = block + 1;
        pass = if number % 2 == 0 {
            append_soon(rt, lock, pass, number, moment)?
        } else {
            append(rt, lock, pass, number, moment)?
        };
    }
    Some(pass)
}

// Joins two passes into one, if there are both.
fn join_both(
    lock: &EntryLock,
    one: Option<EntryPass>,
    other: Option<EntryPass>,
) -> Option<EntryPass> {
    let Some(one) = one else {
        drop(other);
        return None;
    };
    let Some(other) = other else {
        drop(one);
        return None;
    };
    Some(lock.join(one, other))
}

// Runs two clerks in two threads, under this number and the next.
fn two<R: Threads + Wait + Sync>(
    rt: &R,
    lock: &EntryLock,
    pass: EntryPass,
    number: u32,
    blocks: u64,
) -> Option<EntryPass> {
    let (one, other) = lock.split(pass);
    let (one, other) = join(
        rt,
        move || -> Option<EntryPass> { clerk(rt, lock, one, number, blocks) },
        move || -> Option<EntryPass> { clerk(rt, lock, other, number + 1, blocks) },
    );
    join_both(lock, one, other)
}

// Runs four clerks in four threads, under this number and the next three.
fn four<R: Threads + Wait + Sync>(
    rt: &R,
    lock: &EntryLock,
    pass: EntryPass,
    number: u32,
    blocks: u64,
) -> Option<EntryPass> {
    let (one, other) = lock.split(pass);
    let (one, other) = join(
        rt,
        move || -> Option<EntryPass> { two(rt, lock, one, number, blocks) },
        move || -> Option<EntryPass> { two(rt, lock, other, number + 2, blocks) },
    );
    join_both(lock, one, other)
}

// Takes the lock, signals that, and gives it back on a signal. Returns whether the lock was taken and that signal came.
fn hold<R: Wait + Clock>(rt: &R, lock: &EntryLock, pass: EntryPass, signals: &Signals) -> bool {
    match lock.take(rt, pass) {
        Ok((held, entries)) => {
            signals.entered.store(true, Ordering::SeqCst);
            let is_told = wait_for(rt, &signals.answered);
            drop(give_unchanged(lock, held, entries));
            is_told
        }
        Err((pass, Worn)) => {
            drop(pass);
            false
        }
    }
}

// Tries once, after the signal that the lock is held. Returns whether the try was busy.
fn try_once<R: Clock>(rt: &R, lock: &EntryLock, pass: EntryPass, signals: &Signals) -> bool {
    let is_held = wait_for(rt, &signals.entered);
    let was_busy = is_busy(lock, pass);
    signals.answered.store(true, Ordering::SeqCst);
    is_held && was_busy
}

fn is_busy(lock: &EntryLock, pass: EntryPass) -> bool {
    match lock.try_take(pass) {
        Ok((held, entries)) => {
            drop(give_unchanged(lock, held, entries));
            false
        }
        Err((pass, fault)) => {
            drop(pass);
            fault == TryFault::Busy
        }
    }
}

fn give_unchanged(lock: &EntryLock, held: Held<Vec<Entry>>, entries: Vec<Entry>) -> EntryPass {
    lock.give(held, entries)
}

// Tries to take the lock, and returns the pass if no ticket is left.
fn try_worn(lock: &EntryLock, pass: EntryPass) -> Option<EntryPass> {
    match lock.try_take(pass) {
        Ok((held, entries)) => {
            drop(give_unchanged(lock, held, entries));
            None
        }
        Err((pass, TryFault::Worn)) => Some(pass),
        Err((pass, TryFault::Busy)) => {
            drop(pass);
            None
        }
    }
}

// Takes the lock in both ways, and returns the pass if no ticket is left for either.
fn find_worn<R: Wait>(rt: &R, lock: &EntryLock, pass: EntryPass) -> Option<EntryPass> {
    match lock.take(rt, pass) {
        Ok((held, entries)) => {
            drop(give_unchanged(lock, held, entries));
            None
        }
        Err((pass, Worn)) => try_worn(lock, pass),
    }
}

// Returns whether the second thread found the lock held by the first.
fn overlap<R: Threads + Wait + Clock + Sync>(
    rt: &R,
    lock: &EntryLock,
    pass: EntryPass,
    signals: &Signals,
) -> bool {
    let (one, other) = lock.split(pass);
    let (was_told, was_busy) = join(
        rt,
        move || -> bool { hold(rt, lock, one, signals) },
        move || -> bool { try_once(rt, lock, other, signals) },
    );
    was_told && was_busy
}

// Returns whether the entries of a number have the moments from 0 up to this many, in order.
fn counts_up(entries: &[Entry], number: u32, blocks: u64) -> bool {
    let mut next = 0u64;
    for entry in entries {
        if entry.by == number {
            if entry.moment != next {
                return false;
            }
            next = next.wrapping_add(1);
        }
    }
    next == blocks.wrapping_add(1)
}

// Returns whether there are `len` entries, and those of each of these numbers have the moments from 0 up to `blocks`,
// in order.
fn has(entries: &[Entry], len: usize, numbers: &[u32], blocks: u64) -> bool {
    let mut has = entries.len() == len;
    for number in numbers {
        has = counts_up(entries, *number, blocks) && has;
    }
    has
}

// Closes a lock that isn't held, and returns its entries.
fn closed(lock: EntryLock, pass: Option<EntryPass>) -> Option<Vec<Entry>> {
    let Some(pass) = pass else {
        drop(lock);
        return None;
    };
    match lock.close(pass) {
        Ok(entries) => Some(entries),
        Err(left) => {
            drop(left);
            None
        }
    }
}

// Returns whether the lock isn't held, and has such entries.
fn ends_with(
    lock: EntryLock,
    pass: Option<EntryPass>,
    len: usize,
    numbers: &[u32],
    blocks: u64,
) -> bool {
    match closed(lock, pass) {
        Some(entries) => {
            let has = has(entries.as_slice(), len, numbers, blocks);
            drop(entries);
            has
        }
        None => false,
    }
}

// Returns a list of one entry, under the number 2.
fn one_entry(alloc: Global) -> Result<Vec<Entry>, Memory> {
    let mut entries = Vec::new(alloc);
    if push(&mut entries, entry(2, 0)) {
        Ok(entries)
    } else {
        drop(entries);
        Err(Memory)
    }
}

#[test]
fn four_threads_lose_and_repeat_nothing(rt: HostRuntime) -> Result<(), Fail> {
    let (lock, pass) = EntryLock::new(rt.alloc(), Vec::new(rt.alloc()))?;
    let pass = four(&rt, &lock, pass, 1, 10_000);
    assert!(rt; ends_with(lock, pass, 40_004, &[1, 2, 3, 4], 10_000));
    Ok(())
}

#[test]
fn a_try_beside_a_holder_is_busy(rt: HostRuntime) -> Result<(), Fail> {
    let (lock, pass) = EntryLock::new(rt.alloc(), Vec::new(rt.alloc()))?;
    let was_busy = overlap(&rt, &lock, pass, &Signals::new());
    drop(lock);
    assert!(rt; was_busy);
    Ok(())
}

#[test]
fn the_ticket_before_the_last_is_drawn_once(rt: HostRuntime) -> Result<(), Fail> {
    let (lock, pass) = EntryLock::starting_at(rt.alloc(), Vec::new(rt.alloc()), u64::MAX - 1)?;
    let pass = match first_block(&rt, &lock, pass, 1) {
        Some(pass) => find_worn(&rt, &lock, pass),
        None => None,
    };
    assert!(rt; ends_with(lock, pass, 1, &[1], 0));
    Ok(())
}

#[test]
fn a_lock_without_a_ticket_gives_its_value_back(rt: HostRuntime) -> Result<(), Fail> {
    let (lock, pass) = EntryLock::starting_at(rt.alloc(), one_entry(rt.alloc())?, u64::MAX)?;
    let pass = find_worn(&rt, &lock, pass);
    assert!(rt; ends_with(lock, pass, 1, &[2], 0));
    Ok(())
}

// Splits a pass, enrols without a wait, meets and joins the passes, and adds a block.
fn split_meet_and_join<R: Wait>(rt: &R, lock: &EntryLock, pass: EntryPass) -> Option<EntryPass> {
    let (first, second) = lock.split(pass);
    let Some(first) = first_block_soon(lock, first, 7) else {
        drop(second);
        return None;
    };
    let (second, first) = lock.meet(second, first);
    append(rt, lock, lock.join(first, second), 7, 1)
}

#[test]
fn passes_are_split_met_and_joined(rt: HostRuntime) -> Result<(), Fail> {
    let (lock, pass) = EntryLock::new(rt.alloc(), Vec::new(rt.alloc()))?;
    let pass = split_meet_and_join(&rt, &lock, pass);
    assert!(rt; ends_with(lock, pass, 2, &[7], 1));
    Ok(())
}

#[test]
fn a_refused_close_hands_lock_and_pass_back(rt: HostRuntime) -> Result<(), Fail> {
    let (lock, first) = EntryLock::new(rt.alloc(), Vec::new(rt.alloc()))?;
    let (first, second) = lock.split(first);
    let Ok((held, entries)) = lock.take(&rt, first) else {
        panic!(rt; "the lock is free")
    };
    let Err((lock, second)) = lock.close(second) else {
        panic!(rt; "the lock is held")
    };
    let first = enrol(&lock, held, entries, 3);
    let pass = join_both(&lock, Some(second), first);
    assert!(rt; ends_with(lock, pass, 1, &[3], 0));
    Ok(())
}

// Returns the two tickets of a new lock that starts at 5, and whether it has the entries.
fn parts_of_new(alloc: Global, entries: Vec<Entry>) -> Result<(u64, u64, bool), Memory> {
    let (lock, pass) = EntryLock::starting_at(alloc, entries, 5)?;
    let parts = lock.into_parts(pass);
    let told = (parts.next, parts.serving, parts.value.is_some());
    drop(parts);
    Ok(told)
}

#[test]
fn a_lock_made_for_a_number_goes_on_under_it(rt: HostRuntime) -> Result<(), Fail> {
    let (lock, pass) = EntryLock::new_for(rt.alloc(), one_entry(rt.alloc())?, 2)?;
    let pass = append(&rt, &lock, pass, 2, 1);
    let entries = closed(lock, pass).ok_or("no one holds the lock")?;
    assert!(rt; has(entries.as_slice(), 2, &[2], 1));
    assert_eq!(rt; parts_of_new(rt.alloc(), entries)?, (5, 5, true));
    Ok(())
}

// Runs one of two clerks: the second if the first was refused memory. Returns its pass.
fn one_of_two<R: Wait>(rt: &R, lock: &EntryLock, pass: EntryPass) -> Option<EntryPass> {
    let (one, other) = lock.split(pass);
    match clerk(rt, lock, one, 1, 8) {
        Some(pass) => {
            drop(other);
            Some(pass)
        }
        None => clerk(rt, lock, other, 1, 8),
    }
}

// If a growth is refused each call reports that and leaves the lock as it was, so that a second call succeeds.
#[test]
fn a_refused_growth_changes_nothing(rt: HostRuntime) -> Result<(), Fail> {
    let (lock, pass) = match EntryLock::new(rt.alloc(), Vec::new(rt.alloc())) {
        Ok(made) => made,
        Err(_) => EntryLock::new(rt.alloc(), Vec::new(rt.alloc()))?,
    };
    let pass = one_of_two(&rt, &lock, pass);
    assert!(rt; ends_with(lock, pass, 9, &[1], 8));
    Ok(())
}

#[test]
fn faults_have_texts(rt: HostRuntime) -> Result<(), Fail> {
    let told = format!(in rt.alloc(); "{Worn}, {}, {}", TryFault::Busy, TryFault::Worn)?;
    assert_eq!(rt;
        told.as_str(),
        "the lock is worn, the lock is another's, the lock is worn"
    );
    Ok(())
}
