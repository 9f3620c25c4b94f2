//! Sixteen threads at one office: each entry that one of them wrote is in the journal once, and in order.

use crate::office::making::{enrolled, made, participant, shut};
use lra_auditor::{Summary, Verdict, audit};
use lra_core::{Errand, Refusal, Told};
use lra_journal::read_journal;
use lra_model::{Deed, Entry, Outcome, Uris, suits};
use lra_office::{Clerk, LockedService, OfficeOf, OfficeRefusal};
use lra_ticket::Pass;
use std::alloc::{AllocError, Global};
use std::io::Write;
use std::marker::Send;
use std::sync::Wait;
use std::test::Fail;
use std::thread::{self, Threads};

const THREADS: u32 = 16;

/// The clerks up to this number ask members, and record the outcomes.
const ASKING: u32 = 2;

/// Commands of each thread.
const COMMANDS: u64 = 1_000;

/// Number of turns from one start of an action to the next.
const STARTING: u64 = 50;

/// Entry that a command writes first.
#[derive(Clone, Copy, PartialEq, Eq)]
enum Own {
    Start(u64),
    Join(u64),
    Close(u64),
    Cancel(u64),
    Ask(u64),
    Reply(u64),
}

/// Returns the entry of a command, if this is one, and not an end.
fn own_entry(entry: &Entry) -> Option<Own> {
    match &entry.deed {
        Deed::Start { action, .. } => Some(Own::Start(*action)),
        Deed::Join { member, .. } => Some(Own::Join(*member)),
        Deed::Close { action, .. } => Some(Own::Close(*action)),
        Deed::Cancel { action, .. } => Some(Own::Cancel(*action)),
        Deed::Ask { ask, .. } => Some(Own::Ask(*ask)),
        Deed::Reply { ask, .. } => Some(Own::Reply(*ask)),
        _ => None,
    }
}

/// Notes the entry that a command wrote, by its answer: the decision, if it was one. Returns none if a command can't
/// have that answer.
fn note(
    written: &mut Vec<Own>,
    decision: Option<Own>,
    answer: Result<Told, OfficeRefusal>,
) -> Option<()> {
    let own = match answer {
        Ok(Told::Action(action)) => Own::Start(action),
        Ok(Told::Member(member)) => Own::Join(member),
        Ok(Told::Now(_)) => decision?,
        Ok(Told::Recorded) => decision?,
        Ok(Told::Already(_)) => return Some(()),
        Ok(Told::ActionIs(_)) => return Some(()),
        Err(OfficeRefusal::Refused(Refusal::NotActive(_))) => return Some(()),
        _ => return None,
    };
    written.push(own).ok()
}

/// Returns the addresses of the member that joins at this turn of a clerk.
fn joining(alloc: Global, number: u32, turn: u64) -> Result<Uris, AllocError> {
    let host = format!(in alloc; "http://p{number}.test/{turn}")?;
    participant(alloc, &host, false)
}

/// Returns the outcome of an ask: every seventh fails.
fn outcome_of(ask: u64) -> Outcome {
    if ask % 7 == 0 {
        Outcome::Failed
    } else {
        Outcome::Done
    }
}

/// Worker thread at an office.
#[derive(Drop)]
struct Worker<'a, V: LockedService, R> {
    rt: &'a R,
    alloc: Global,
    office: &'a OfficeOf<V>,
    clerk: Clerk<V>,
    number: u32,
    written: Vec<Own>,
}

impl<V: LockedService, R: Wait> Worker<'_, V, R> {
    fn start(&mut self, moment: u64) -> Option<u64> {
        let told = self.office.start(self.rt, &mut self.clerk, moment, None, 0);
        let Ok(Told::Action(action)) = told else {
            return None;
        };
        note(&mut self.written, None, told)?;
        Some(action)
    }

    fn join(&mut self, moment: u64, action: u64) -> Option<()> {
        let uris = joining(self.alloc, self.number, moment).ok()?;
        let told = self
            .office
            .join(self.rt, &mut self.clerk, moment, action, &uris);
        drop(uris);
        note(&mut self.written, None, told)
    }

    fn close(&mut self, moment: u64, action: u64) -> Option<()> {
        let told = self.office.close(self.rt, &mut self.clerk, moment, action);
        note(&mut self.written, Some(Own::Close(action)), told)
    }

    fn cancel(&mut self, moment: u64, action: u64) -> Option<()> {
        let told = self.office.cancel(self.rt, &mut self.clerk, moment, action);
        note(&mut self.written, Some(Own::Cancel(action)), told)
    }

    fn status(&mut self, action: u64) -> Option<()> {
        let told = self.office.status(self.rt, &mut self.clerk, action);
        note(&mut self.written, None, told)
    }

    /// Gives a command on one of the last three actions, whichever thread started them. `latest` is the worker's own
    /// last one.
    fn act_on(&mut self, turn: u64, latest: u64) -> Option<()> {
        let action = latest.saturating_sub(turn % 3).max(1);
        match turn % 8 {
            5 => self.status(action),
            6 => self.close(turn, action),
            7 => self.cancel(turn, action),
            _ => self.join(turn, action),
        }
    }

    fn act(&mut self) -> Option<()> {
        let mut latest = 0;
        for turn in 0..COMMANDS {
            if turn % STARTING == 0 {
                latest = self.start(turn)?;
            } else {
                self.act_on(turn, latest)?;
            }
        }
        Some(())
    }

    /// Asks the next member that is due, and records the outcome. If none is due it asks for a status.
    fn ask(&mut self, moment: u64) -> Option<()> {
        match self.office.next_ask(self.rt, &mut self.clerk, moment) {
            Ok(Some(errand)) => self.answer(moment, errand),
            Ok(None) => self.tell(),
            Err(_) => None,
        }
    }

    /// Records that an ask is done, or has failed.
    fn answer(&mut self, moment: u64, errand: Errand) -> Option<()> {
        let ask = errand.ask();
        let outcome = outcome_of(ask);
        if !suits(errand.kind(), outcome) {
            errand.discard();
            return None;
        }
        match self
            .office
            .record(self.rt, &mut self.clerk, moment, errand, outcome)
        {
            Ok(told) => self.note_reply(ask, told),
            Err((_, errand)) => {
                errand.discard();
                None
            }
        }
    }

    /// Notes an ask and its reply.
    fn note_reply(&mut self, ask: u64, told: Told) -> Option<()> {
        self.written.push(Own::Ask(ask)).ok()?;
        note(&mut self.written, Some(Own::Reply(ask)), Ok(told))
    }

    /// Asks for the status of the first action, if there is one.
    fn tell(&mut self) -> Option<()> {
        match self.office.status(self.rt, &mut self.clerk, 1) {
            Ok(_) => Some(()),
            Err(fault) => {
                let no_action = OfficeRefusal::Refused(Refusal::NoSuchAction);
                (fault == no_action).then_some(())
            }
        }
    }

    fn ask_all(&mut self) -> Option<()> {
        for turn in 0..COMMANDS / 2 {
            self.ask(turn)?;
        }
        Some(())
    }

    /// Gives all its commands. Returns none once an answer isn't one that the command may have.
    fn work(&mut self) -> Option<()> {
        if self.number <= ASKING {
            self.ask_all()
        } else {
            self.act()
        }
    }

    /// Returns the entries that its commands wrote.
    fn into_written(self) -> Vec<Own> {
        let Worker { clerk, written, .. } = self;
        drop(clerk);
        written
    }
}

/// Returns the entries that the clerk with this number writes.
fn work_of<V: LockedService, R: Wait>(
    rt: &R,
    alloc: Global,
    office: &OfficeOf<V>,
    clerk: Clerk<V>,
    number: u32,
) -> Option<Vec<Own>> {
    let mut worker = Worker {
        rt,
        alloc,
        office,
        clerk,
        number,
        written: Vec::new(alloc),
    };
    let done = worker.work();
    let written = worker.into_written();
    done.map(|()| written)
}

/// Adds clerks with the numbers from 1 on, and returns a pass for one more.
fn clerks<V: LockedService, R: Wait>(
    rt: &R,
    office: &OfficeOf<V>,
    mut pass: Pass<V>,
    all: &mut Vec<(u32, Clerk<V>)>,
) -> Result<Pass<V>, Fail> {
    for place in 0..THREADS {
        let (clerk, other) = office.split(enrolled(rt, office, pass)?);
        pass = other;
        all.push((place + 1, clerk))?;
    }
    Ok(pass)
}

/// Entries that each thread wrote.
type Written = Result<Vec<Option<Vec<Own>>>, AllocError>;

/// Returns the entries that each clerk writes, in a thread of its own.
fn work_all<V: LockedService + Send, R: Threads + Wait + Sync>(
    rt: &R,
    alloc: Global,
    office: &OfficeOf<V>,
    jobs: Vec<(u32, Clerk<V>)>,
) -> Written {
    thread::map_vec(
        rt,
        jobs,
        &|job: (u32, Clerk<V>)| -> Option<Vec<Own>> { work_of(rt, alloc, office, job.1, job.0) },
    )
}

/// Returns the entries that each thread wrote at an office, and a clerk that is enrolled once all have ended.
fn work_at<V: LockedService + Send, R: Threads + Wait + Sync>(
    rt: &R,
    alloc: Global,
    office: &OfficeOf<V>,
    pass: Pass<V>,
) -> Result<(Clerk<V>, Written), Fail> {
    let mut jobs = Vec::new(alloc);
    let pass = clerks(rt, office, pass, &mut jobs)?;
    let written = work_all(rt, alloc, office, jobs);
    match enrolled(rt, office, pass) {
        Ok(clerk) => Ok((clerk, written)),
        Err(fault) => {
            drop(written);
            Err(fault)
        }
    }
}

/// Returns the writer once all threads have ended, and the entries that each of them wrote.
fn run<W: Write + Drop + Send, R: Threads + Wait + Sync>(
    rt: &R,
    alloc: Global,
    writer: W,
) -> Result<(W, Written), Fail> {
    let (office, pass) = made(alloc, writer)?;
    let worked = work_at(rt, alloc, &office, pass);
    shut(office, worked)
}

/// Returns whether the commands' entries of a number are these, in this order.
fn are_of(entries: &[Entry], number: u32, written: &[Own]) -> bool {
    let mut left = written;
    for entry in entries {
        if entry.by != number {
            continue;
        }
        let Some(found) = own_entry(entry) else {
            continue;
        };
        match left.split_first() {
            Some((first, rest)) if *first == found => left = rest,
            _ => return false,
        }
    }
    left.is_empty()
}

/// Returns the summary of a sound journal.
fn summary(alloc: Global, journal: &[u8]) -> Result<Summary, Fail> {
    match audit(alloc, journal)? {
        Verdict::Sound(summary) => Ok(summary),
        Verdict::Unsound { .. } => Err("the journal is unsound")?,
    }
}

/// Returns whether each thread's entries are there once and in order, under its clerk's number, and how many entries
/// these are in all.
fn stand_among(entries: &[Entry], written: &[Option<Vec<Own>>]) -> Result<(bool, u64), Fail> {
    let mut stand = true;
    let mut count = 0u64;
    let mut number = 0u32;
    for own in written {
        let own = own.as_ref().ok_or("a command wasn't done")?;
        number = number.saturating_add(1);
        stand = are_of(entries, number, own.as_slice()) && stand;
        count = count.saturating_add(own.len() as u64);
    }
    Ok((stand, count))
}

/// Runs `stand_among` on a journal's entries.
fn stand_in(
    alloc: Global,
    journal: &[u8],
    written: &[Option<Vec<Own>>],
) -> Result<(bool, u64), Fail> {
    let (_, _, entries) = read_journal(alloc, journal)?;
    let told = stand_among(entries.as_slice(), written);
    drop(entries);
    told
}

/// Returns whether each thread's entries are in the journal once and in order, how many these are, and the journal's
/// summary.
fn told_of(alloc: Global, journal: &[u8], written: &Written) -> Result<(bool, u64, Summary), Fail> {
    let Ok(written) = written else {
        return Err("there is memory for all")?;
    };
    let (stand, count) = stand_in(alloc, journal, written.as_slice())?;
    Ok((stand, count, summary(alloc, journal)?))
}

#[test]
fn sixteen_threads_have_one_history(rt: HostRuntime) -> Result<(), Fail> {
    let (journal, written) = run(&rt, rt.alloc(), Vec::new(rt.alloc()))?;
    let told = told_of(rt.alloc(), journal.as_slice(), &written);
    drop(written);
    let (stand, count, summary) = told?;
    assert!(rt; stand);
    let ended = summary.actions.saturating_sub(summary.unended);
    let enrolled = u64::from(THREADS) + 1;
    assert_eq!(rt;
        summary.entries,
        count.saturating_add(ended).saturating_add(enrolled)
    );
    assert!(rt; summary.actions == 280 && summary.closed > 0 && ended > summary.closed);
    Ok(())
}
