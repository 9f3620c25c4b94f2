//! Clerks of one office: what they see of one another, and the answers to one while another is served.

use crate::office::making::{enrolled, enrolled_two, made, shut};
use crate::office::signals::{Signals, wait_for};
use lra_core::Told;
use lra_journal::read_journal;
use lra_model::{ActionStatus, Entry};
use lra_office::{Clerk, LockedService, OfficeOf, OfficeRefusal, TryRefusal};
use lra_ticket::Pass;
use std::alloc::Global;
use std::io::{self, Write};
use std::marker::Send;
use std::sync::Wait;
use std::sync::atomic::Ordering;
use std::test::Fail;
use std::thread::{Threads, join};
use std::time::Clock;

/// Returns whether a clerk has the answers of one that is alone.
fn acts_alone<V: LockedService, R: Wait>(
    rt: &R,
    office: &OfficeOf<V>,
    clerk: &mut Clerk<V>,
) -> bool {
    let started = office.start(rt, clerk, 0, None, 0) == Ok(Told::Action(1));
    let closed = office.try_close(clerk, 5, 1) == Ok(Told::Now(ActionStatus::Closed));
    let status = Told::ActionIs(ActionStatus::Closed);
    let told = office.try_status(clerk, 1) == Ok(status);
    started && closed && told
}

/// Enrols the only clerk of an office. Returns it, and whether it has the answers of one that is alone.
fn alone<V: LockedService, R: Wait>(
    rt: &R,
    office: &OfficeOf<V>,
    pass: Pass<V>,
) -> Result<(Clerk<V>, bool), Fail> {
    let mut clerk = enrolled(rt, office, pass)?;
    let is_served = acts_alone(rt, office, &mut clerk);
    Ok((clerk, is_served))
}

/// Enrols the only clerk of a new office. Returns the journal, and whether the clerk has the answers of one that is
/// alone.
fn alone_at<R: Wait>(rt: &R, alloc: Global) -> Result<(Vec<u8>, bool), Fail> {
    let (office, pass) = made(alloc, Vec::new(alloc))?;
    let worked = alone(rt, &office, pass);
    shut(office, worked)
}

#[test]
fn who_is_alone_is_never_told_to_wait(rt: HostRuntime) -> Result<(), Fail> {
    let (journal, is_served) = alone_at(&rt, rt.alloc())?;
    let wanted =
        "lra-journal 2 7\n1 0 enrol\n1 0 start 1 * 0\n1 5 close 1 client\n1 5 end 1 Closed\n";
    let is_wanted = journal.as_slice() == wanted.as_bytes();
    drop(journal);
    assert!(rt; is_served && is_wanted);
    Ok(())
}

/// Returns the number of an action that was started.
fn started(told: Result<Told, OfficeRefusal>) -> Option<u64> {
    match told {
        Ok(Told::Action(action)) => Some(action),
        _ => None,
    }
}

/// Starts an action, and returns its number.
fn starts<V: LockedService, R: Wait>(
    rt: &R,
    office: &OfficeOf<V>,
    mut clerk: Clerk<V>,
) -> Option<(Clerk<V>, u64)> {
    match started(office.start(rt, &mut clerk, 1, None, 0)) {
        Some(action) => Some((clerk, action)),
        None => {
            drop(clerk);
            None
        }
    }
}

/// Enrols a clerk, which starts an action.
fn enrols_and_starts<V: LockedService, R: Wait>(
    rt: &R,
    office: &OfficeOf<V>,
    pass: Pass<V>,
) -> Option<(Clerk<V>, u64)> {
    match office.clerk(rt, pass, 1) {
        Ok(clerk) => starts(rt, office, clerk),
        Err(refused) => {
            drop(refused);
            None
        }
    }
}

/// Starts an action by a clerk, and another by a clerk that is enrolled in a second thread. Returns both clerks, and
/// the number of the second action.
fn two<V: LockedService + Send, R: Threads + Wait + Sync>(
    rt: &R,
    office: &OfficeOf<V>,
    clerk: Clerk<V>,
) -> Option<(Clerk<V>, Clerk<V>, u64)> {
    let (clerk, pass) = office.split(clerk);
    let (first, second) = join(
        rt,
        move || -> Option<(Clerk<V>, u64)> { starts(rt, office, clerk) },
        move || -> Option<(Clerk<V>, u64)> { enrols_and_starts(rt, office, pass) },
    );
    let Some((first, _)) = first else {
        drop(second);
        return None;
    };
    let Some((second, action)) = second else {
        drop(first);
        return None;
    };
    Some((first, second, action))
}

/// Counts the entries that bear a number.
fn count_by(entries: &[Entry], number: u32) -> u32 {
    let mut count = 0u32;
    for entry in entries {
        if entry.by == number {
            count = count.saturating_add(1);
        }
    }
    count
}

/// Counts the entries of a journal that bear the numbers 1, 2 and 3.
fn counts(alloc: Global, journal: &[u8]) -> Result<(u32, u32, u32), Fail> {
    let (_, _, entries) = read_journal(alloc, journal)?;
    let all = entries.as_slice();
    let counts = (count_by(all, 1), count_by(all, 2), count_by(all, 3));
    drop(entries);
    Ok(counts)
}

/// Returns a clerk of two that met, and whether one has seen what the other did in its thread.
fn sees_the_other<V: LockedService + Send, R: Threads + Wait + Sync>(
    rt: &R,
    office: &OfficeOf<V>,
    pass: Pass<V>,
) -> Result<(Clerk<V>, bool), Fail> {
    let Some((mut first, mut second, action)) = two(rt, office, enrolled(rt, office, pass)?) else {
        return Err("both can start one")?;
    };
    let status = office.status(rt, &mut first, action);
    office.meet(&mut first, &mut second);
    office.retire(&mut first, second);
    let is_active = status == Ok(Told::ActionIs(ActionStatus::Active));
    Ok((first, is_active))
}

/// Runs `sees_the_other` at a new office, and returns its writer too.
fn meet_at<W: Write + Drop + Send, R: Threads + Wait + Sync>(
    rt: &R,
    alloc: Global,
    writer: W,
) -> Result<(W, bool), Fail> {
    let (office, pass) = made(alloc, writer)?;
    let worked = sees_the_other(rt, &office, pass);
    shut(office, worked)
}

#[test]
fn a_clerk_sees_what_another_did_in_its_thread(rt: HostRuntime) -> Result<(), Fail> {
    let (journal, has_seen) = meet_at(&rt, rt.alloc(), Vec::new(rt.alloc()))?;
    assert!(rt; has_seen);
    assert_eq!(rt; counts(rt.alloc(), journal.as_slice())?, (2, 2, 0));
    Ok(())
}

/// Writer in memory. Once it is armed it waits until another thread has its answer.
#[derive(Drop)]
struct Slow<'a, R> {
    rt: &'a R,
    signals: &'a Signals,
    taken: Vec<u8>,
}

impl<R: Clock> Write for Slow<'_, R> {
    fn write(&mut self, buf: &[u8]) -> io::Result<usize> {
        if self.signals.armed.load(Ordering::SeqCst) {
            self.signals.entered.store(true, Ordering::SeqCst);
            wait_for(self.rt, &self.signals.answered);
        }
        self.taken.extend_from_slice(buf)?;
        Ok(buf.len())
    }

    fn flush(&mut self) -> io::Result<()> {
        Ok(())
    }
}

/// Returns whether an action is started while the writer waits.
fn starts_slowly<V: LockedService, R: Wait>(
    rt: &R,
    office: &OfficeOf<V>,
    mut clerk: Clerk<V>,
) -> bool {
    let told = office.start(rt, &mut clerk, 1, None, 0);
    drop(clerk);
    told == Ok(Told::Action(1))
}

/// Returns whether a request for a status is refused as busy while the writer waits.
fn is_told_busy<V: LockedService, R: Clock>(
    rt: &R,
    office: &OfficeOf<V>,
    mut clerk: Clerk<V>,
    signals: &Signals,
) -> bool {
    let has_entered = wait_for(rt, &signals.entered);
    let answer = office.try_status(&mut clerk, 1);
    drop(clerk);
    signals.answered.store(true, Ordering::SeqCst);
    has_entered && answer == Err(TryRefusal::Busy)
}

/// Returns whether one clerk was refused because another held the lock, and that other was served.
fn do_overlap<V: LockedService + Send, R: Threads + Wait + Clock + Sync>(
    rt: &R,
    office: &OfficeOf<V>,
    pass: Pass<V>,
    signals: &Signals,
) -> Result<bool, Fail> {
    let (first, second) = enrolled_two(rt, office, pass)?;
    signals.armed.store(true, Ordering::SeqCst);
    let (started, busy) = join(
        rt,
        move || -> bool { starts_slowly(rt, office, first) },
        move || -> bool { is_told_busy(rt, office, second, signals) },
    );
    Ok(started && busy)
}

/// Runs `do_overlap` at a new office, whose writer waits.
fn overlap_at<W: Write + Drop + Send, R: Threads + Wait + Clock + Sync>(
    rt: &R,
    alloc: Global,
    writer: W,
    signals: &Signals,
) -> Result<bool, Fail> {
    let (office, pass) = made(alloc, writer)?;
    let told = do_overlap(rt, &office, pass, signals);
    drop(office);
    told
}

#[test]
fn a_try_beside_one_who_is_served_is_busy(rt: HostRuntime) -> Result<(), Fail> {
    let signals = Signals::new();
    let writer = Slow {
        rt: &rt,
        signals: &signals,
        taken: Vec::new(rt.alloc()),
    };
    assert!(rt; overlap_at(&rt, rt.alloc(), writer, &signals)?);
    Ok(())
}
