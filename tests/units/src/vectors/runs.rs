//! Runs of the program, each over inputs in memory.

mod again;
mod fakes;
mod salvage;

use crate::vectors::texts::{assert_told, parted};
use fakes::{Full, Halting, Halts};
use lra_audits::{RunFault, error_line};
use lra_reports::{Invocation, Sources, run};
use lra_runs::play_file;
use std::alloc::Global;
use std::io::Write;
use std::str::from_utf8;

/// Returns the report that the words ask for, or none if they ask for another command.
fn report(words: &str) -> Option<Invocation<'_>> {
    let (verb, file) = parted(words, " ");
    if verb == "audit" {
        return Some(Invocation::Audit { file });
    }
    if verb == "show" {
        return Some(Invocation::Show { file });
    }
    (verb == "upgrade").then_some(Invocation::Upgrade { file })
}

/// Runs the report that the words ask for, or plays a script.
fn carry_out<S: Sources, W: Write>(
    alloc: Global,
    sources: &S,
    words: &str,
    writer: &mut W,
) -> Result<u8, RunFault> {
    match report(words) {
        Some(invocation) => run(alloc, sources, invocation, writer),
        None => play_file(alloc, sources, parted(words, " ").1, writer),
    }
}

/// Returns the printed text, followed by the outcome.
fn shown(alloc: Global, printed: &[u8], outcome: Result<u8, RunFault>) -> Option<String> {
    let printed = from_utf8(printed).ok()?;
    format!(in alloc; "{printed}{outcome:?}").ok()
}

/// Runs the command that the words ask for, and returns the printed text, followed by the outcome.
fn told<S: Sources>(alloc: Global, sources: &S, words: &str) -> Option<String> {
    let mut printed = Vec::new(alloc);
    let outcome = carry_out(alloc, sources, words, &mut printed);
    let told = shown(alloc, printed.as_slice(), outcome);
    drop(printed);
    told
}

const JOURNAL: &str = "lra-journal 1 7\n1 0 enrol\n1 0 start 1 * 0\n1 5 start 2 1 0\n";

/// Text that is printed, followed by the outcome.
const AUDITED: &str = "sound entries 3 actions 2 unended 2 closed 0 cancelled 0 failed 0\nOk(0)";

const LISTED: &str = "action 1 * Active\naction 2 1 Active\nOk(0)";

const CLOSED: &str =
    "lra-journal 1 7\n1 0 enrol\n1 0 start 1 * 0\n1 5 close 1 client\n1 5 end 1 Closed\n";

const CLOSED_UPGRADED: &str =
    "lra-journal 2 7\n1 0 enrol\n1 0 start 1 * 0\n1 5 close 1 client\n1 5 end 1 Closed\nOk(0)";

/// Journal with an impossible end of an action.
const MISTAKEN: &str =
    "lra-journal 1 7\n1 0 enrol\n1 0 start 1 * 0\n1 5 close 1 client\n1 5 end 1 FailedToClose\n";

/// Script that closes an action with a member, and records the outcome of its ask twice.
const SCRIPT: &str =
    "0 0 enrol\n1 0 start * 9\n1 1 join 1 http://p.test/u http://p.test/c * * *\n1 5 close 1\n1 6 ask\n1 7 reply 1 done\n1 8 reply 1 done\n";

const PLAYED: &str =
    "+ lra-journal 2 7\nclerk 1\n+ 1 0 enrol\naction 1\n+ 1 0 start 1 * 9\nmember 1\n+ 1 1 join 1 1 http://p.test/u http://p.test/c * * *\nnow Closing\n+ 1 5 close 1 client\nask 1 1 complete http://p.test/c\n+ 1 6 ask 1 1 complete\nrecorded\n+ 1 7 reply 1 done\n+ 1 7 end 1 Closed\nrefused NotAsked\nOk(1)";

/// A command on a file, the file's text, the text that is printed, followed by the outcome, and the status.
#[derive(Clone, Copy)]
struct Case {
    words: &'static str,
    text: &'static str,
    want: &'static str,
    status: u8,
}

/// Number of cases.
const CASES: u8 = 5;

fn case_of(words: &'static str, text: &'static str, want: &'static str, status: u8) -> Case {
    Case {
        words,
        text,
        want,
        status,
    }
}

fn case_at(place: u8) -> Case {
    match place {
        0 => case_of("audit it", JOURNAL, AUDITED, 0),
        1 => case_of("show it", JOURNAL, LISTED, 0),
        2 => case_of("upgrade it", CLOSED, CLOSED_UPGRADED, 0),
        3 => case_of("upgrade it", MISTAKEN, "unsound line 5 ending\nOk(1)", 1),
        _ => case_of("play it", SCRIPT, PLAYED, 1),
    }
}

/// Runs a case whose file is read haltingly, and returns the printed text, followed by the outcome.
fn told_haltingly(alloc: Global, case: Case, fails: bool) -> Option<String> {
    let source = Halts {
        text: case.text,
        fails,
    };
    told(alloc, &source, case.words)
}

#[test]
fn an_input_may_halt(rt: HostRuntime) {
    for place in 0..CASES {
        let case = case_at(place);
        assert_told(
            &rt,
            case.words,
            told_haltingly(rt.alloc(), case, false),
            case.want,
        );
    }
}

#[test]
fn an_input_may_fail(rt: HostRuntime) {
    for place in 0..CASES {
        let case = case_at(place);
        assert_told(
            &rt,
            case.words,
            told_haltingly(rt.alloc(), case, true),
            "Err(Read)",
        );
    }
}

/// Returns the outcome of a case whose output has this room.
fn outcome(alloc: Global, case: Case, room: usize) -> Result<u8, RunFault> {
    let source = Halts {
        text: case.text,
        fails: false,
    };
    carry_out(alloc, &source, case.words, &mut Full { room })
}

/// Returns whether a case's output is written whole, and doesn't fit in less room.
fn is_written_whole(alloc: Global, case: Case) -> bool {
    let (printed, _) = parted(case.want, "Ok(");
    let len = printed.len();
    outcome(alloc, case, 0) == Err(RunFault::Write)
        && outcome(alloc, case, len.saturating_sub(1)) == Err(RunFault::Write)
        && outcome(alloc, case, len) == Ok(case.status)
}

#[test]
fn an_output_may_fail(rt: HostRuntime) {
    for place in 0..CASES {
        assert!(rt;
            is_written_whole(rt.alloc(), case_at(place)),
            "of case {place}"
        );
    }
}

/// Returns a writer that needs no growth. If it is refused memory the second try has it.
fn grown(alloc: Global) -> Option<Vec<u8>> {
    match Vec::with_capacity(alloc, 1024) {
        Ok(out) => Some(out),
        Err(_) => Vec::with_capacity(alloc, 1024).ok(),
    }
}

/// Returns whether a case printed the wanted text, or a front of it if memory was refused.
fn is_begun(case: Case, outcome: Result<u8, RunFault>, out: &[u8]) -> bool {
    let (printed, _) = parted(case.want, "Ok(");
    if outcome == Err(RunFault::Memory) {
        return printed.as_bytes().starts_with(out);
    }
    outcome == Ok(case.status) && out == printed.as_bytes()
}

/// Runs a case, and returns whether it printed the wanted text, or a front of it if memory was refused.
fn is_met(alloc: Global, case: Case) -> bool {
    let Some(mut out) = grown(alloc) else {
        return false;
    };
    let source = Halts {
        text: case.text,
        fails: false,
    };
    let outcome = carry_out(alloc, &source, case.words, &mut out);
    let is_begun = is_begun(case, outcome, out.as_slice());
    drop(out);
    is_begun
}

/// Runs with one allocation failing in turn: the printed text is the wanted one, or a front of it.
#[test]
fn a_growth_may_be_refused(rt: HostRuntime) {
    for place in 0..CASES {
        assert!(rt; is_met(rt.alloc(), case_at(place)), "of case {place}");
    }
}

#[test]
fn a_second_reading_that_fails_is_told_in_a_line(rt: HostRuntime) {
    let line = error_line(rt.alloc(), RunFault::Changed, "a file");
    assert_told(
        &rt,
        "a second reading",
        line.ok(),
        "lra: cannot read a file again\n",
    );
}
