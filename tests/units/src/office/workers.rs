//! Workers at an office: one that is held back for ever, and two of which one waits for the other.

use crate::office::making::{enrolled, enrolled_two, made, participant, shut};
use lra_core::{Errand, Told};
use lra_courier::Courier;
use lra_front::Clock;
use lra_model::{Outcome, suits};
use lra_office::{Clerk, LockedService, OfficeOf};
use lra_ticket::Pass;
use lra_workers::{Gate, Go, WorkerEnd, run_worker};
use std::alloc::Global;
use std::fmt;
use std::io::Write;
use std::marker::Send;
use std::str::from_utf8;
use std::sync::Wait;
use std::sync::atomic::{AtomicBool, Ordering};
use std::test::Fail;
use std::thread::{Threads, join, sleep};
use std::time::{self, Duration};

/// Members that do at once what they are asked.
#[derive(Drop)]
struct Prompt;

impl Courier for Prompt {
    ghost gives = { λ ask kind outcome. IsTrue (outcome_suits kind outcome) };

    fn carry(&mut self, errand: &Errand) -> Outcome {
        if suits(errand.kind(), Outcome::Done) {
            Outcome::Done
        } else {
            Outcome::Silent
        }
    }

    ghost suits = { λ ask kind outcome h. h };
}

/// Clock that stands still.
#[derive(Drop)]
pub struct Still;

impl Clock for Still {
    ghost tells = { λ _ moment _. moment ≡ 9 };

    fn now(&mut self) -> u64 {
        9
    }
}

/// Gate that holds each errand back `holds` times, and ends its worker after the first answer. It counts how often it
/// was asked.
#[derive(Drop)]
struct Holding {
    holds: u32,
    asked: u32,
    has_answered: bool,
}

impl Gate for Holding {
    fn more(&mut self) -> bool {
        !self.has_answered
    }

    fn hold(&mut self, _ask: u64) -> Go {
        self.asked = self.asked.saturating_add(1);
        if self.asked > self.holds {
            Go::Carry
        } else {
            Go::NotYet
        }
    }

    fn answered(&mut self, _ask: u64) {
        self.has_answered = true;
    }
}

/// Gate that lets one errand go, and holds that of the first ask back until the second ask was answered.
#[derive(Drop)]
struct Patient<'a, R> {
    rt: &'a R,
    second: &'a AtomicBool,
    has_answered: bool,
}

impl<R: time::Clock> Gate for Patient<'_, R> {
    fn more(&mut self) -> bool {
        !self.has_answered
    }

    fn hold(&mut self, ask: u64) -> Go {
        if ask == 2 || self.second.load(Ordering::SeqCst) {
            return Go::Carry;
        }
        sleep(self.rt, Duration::from_millis(10));
        Go::NotYet
    }

    fn answered(&mut self, ask: u64) {
        self.has_answered = true;
        if ask == 2 {
            self.second.store(true, Ordering::SeqCst);
        }
    }
}

/// Lets the next member join the action.
fn joins<V: LockedService, R: Wait>(
    rt: &R,
    alloc: Global,
    office: &OfficeOf<V>,
    clerk: &mut Clerk<V>,
    member: u64,
) -> Result<bool, Fail> {
    let host = format!(in alloc; "http://p{member}.test")?;
    let uris = participant(alloc, &host, false)?;
    let told = office.join(rt, clerk, 2, 1, &uris);
    drop(uris);
    Ok(told == Ok(Told::Member(member)))
}

/// Starts an action with this many members, and closes it.
fn closes<V: LockedService, R: Wait>(
    rt: &R,
    alloc: Global,
    office: &OfficeOf<V>,
    clerk: &mut Clerk<V>,
    members: u64,
) -> Result<bool, Fail> {
    let mut done = office.start(rt, clerk, 1, None, 0) == Ok(Told::Action(1));
    for place in 0..members {
        done = joins(rt, alloc, office, clerk, place + 1)? && done;
    }
    let closed = office.close(rt, clerk, 3, 1).is_ok();
    Ok(closed && done)
}

/// Runs a worker whose gate holds its errand back `holds` times. Returns the worker's end, and how often the gate was
/// asked.
fn holds_back<V: LockedService, R: Wait>(
    rt: &R,
    office: &OfficeOf<V>,
    clerk: Clerk<V>,
    holds: u32,
) -> (Clerk<V>, (WorkerEnd, u32)) {
    let mut gate = Holding {
        holds,
        asked: 0,
        has_answered: false,
    };
    let (clerk, end) = run_worker(rt, office, clerk, &mut Prompt, &mut gate, &mut Still);
    (clerk, (end, gate.asked))
}

/// Closes an action with one member by the first clerk of an office, and then runs `holds_back`.
fn held_at<V: LockedService, R: Wait>(
    rt: &R,
    alloc: Global,
    office: &OfficeOf<V>,
    pass: Pass<V>,
    holds: u32,
) -> Result<(Clerk<V>, (WorkerEnd, u32)), Fail> {
    let mut clerk = enrolled(rt, office, pass)?;
    match closes(rt, alloc, office, &mut clerk, 1) {
        Ok(true) => Ok(holds_back(rt, office, clerk, holds)),
        Ok(false) => {
            drop(clerk);
            Err("an action can be closed")?
        }
        Err(fault) => {
            drop(clerk);
            Err(fault)
        }
    }
}

/// Runs `held_at` at a new office, and returns its journal too.
fn held<R: Wait>(rt: &R, alloc: Global, holds: u32) -> Result<(Vec<u8>, (WorkerEnd, u32)), Fail> {
    let (office, pass) = made(alloc, Vec::new(alloc))?;
    let worked = held_at(rt, alloc, &office, pass, holds);
    shut(office, worked)
}

/// Journal of an errand that is held back. The entries of an answer come after it.
const HELD: &str =
    "lra-journal 2 7\n1 0 enrol\n1 1 start 1 * 0\n1 2 join 1 1 http://p1.test/u http://p1.test/c * * *\n1 3 close 1 client\n1 9 ask 1 1 complete\n";

/// Writes the worker's end, how often its gate was asked, and what was added to the journal.
fn tell_held<R: Wait>(rt: &R, alloc: Global, holds: u32, text: &mut String) -> Result<(), Fail> {
    let (journal, (end, asked)) = held(rt, alloc, holds)?;
    let journal = from_utf8(&journal)?;
    let added = journal.strip_prefix(HELD).ok_or("an ask is written")?;
    fmt::Write::write_fmt(text, format_args!("{end:?} {asked}\n{added}"))?;
    Ok(())
}

/// Outcomes of errands that are held back almost to the limit, up to it, and for longer.
const TOLD: &str = "Ended 1000\n1 9 reply 1 done\n1 9 end 1 Closed\nHeld 1000\nHeld 1000\n";

#[test]
fn a_worker_that_is_held_back_ends_and_leaves_its_ask(rt: HostRuntime) -> Result<(), Fail> {
    let mut text = String::new(rt.alloc());
    tell_held(&rt, rt.alloc(), 999, &mut text)?;
    tell_held(&rt, rt.alloc(), 1_000, &mut text)?;
    tell_held(&rt, rt.alloc(), u32::MAX, &mut text)?;
    assert_eq!(rt; text.as_str(), TOLD);
    Ok(())
}

/// Runs a worker that answers one ask, and returns whether it ends well.
fn answers_one<V: LockedService, R: Wait + time::Clock>(
    rt: &R,
    office: &OfficeOf<V>,
    clerk: Clerk<V>,
    second: &AtomicBool,
) -> (Clerk<V>, bool) {
    let mut gate = Patient {
        rt,
        second,
        has_answered: false,
    };
    let (clerk, end) = run_worker(rt, office, clerk, &mut Prompt, &mut gate, &mut Still);
    (clerk, end == WorkerEnd::Ended)
}

/// Runs two workers, each in a thread of its own, and returns whether both end well.
fn two_answer<V: LockedService + Send, R: Threads + Wait + time::Clock + Sync>(
    rt: &R,
    office: &OfficeOf<V>,
    first: Clerk<V>,
    second: Clerk<V>,
    signal: &AtomicBool,
) -> (Clerk<V>, bool) {
    let (one, other) = join(
        rt,
        move || -> (Clerk<V>, bool) { answers_one(rt, office, first, signal) },
        move || -> (Clerk<V>, bool) { answers_one(rt, office, second, signal) },
    );
    let (clerk, has_ended) = one;
    let (other, other_has_ended) = other;
    drop(other);
    (clerk, has_ended && other_has_ended)
}

/// Runs two workers at an office where two asks are due.
fn overlap<V: LockedService + Send, R: Threads + Wait + time::Clock + Sync>(
    rt: &R,
    alloc: Global,
    office: &OfficeOf<V>,
    pass: Pass<V>,
) -> Result<(Clerk<V>, bool), Fail> {
    let (mut first, second) = enrolled_two(rt, office, pass)?;
    match closes(rt, alloc, office, &mut first, 2) {
        Ok(closed) => {
            let signal = AtomicBool::new(false);
            let (clerk, have_ended) = two_answer(rt, office, first, second, &signal);
            Ok((clerk, closed && have_ended))
        }
        Err(fault) => {
            drop(first);
            drop(second);
            Err(fault)
        }
    }
}

/// Runs `overlap` at a new office, and returns its writer too.
fn overlap_at<W: Write + Drop + Send, R: Threads + Wait + time::Clock + Sync>(
    rt: &R,
    alloc: Global,
    writer: W,
) -> Result<(W, bool), Fail> {
    let (office, pass) = made(alloc, writer)?;
    let worked = overlap(rt, alloc, &office, pass);
    shut(office, worked)
}

#[test]
fn a_worker_that_waits_for_another_is_answered(rt: HostRuntime) -> Result<(), Fail> {
    let (journal, done) = overlap_at(&rt, rt.alloc(), Vec::new(rt.alloc()))?;
    assert!(rt; done);
    let text = from_utf8(&journal)?;
    let late = text.find(" reply 1 done\n").ok_or("the first is answered")?;
    let early = text
        .find(" reply 2 done\n")
        .ok_or("the second is answered")?;
    assert!(rt; early < late && text.contains(" end 1 Closed\n"));
    Ok(())
}
