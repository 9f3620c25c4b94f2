//! Verdicts in pieces of every size, after a fault, and on entries in memory. Worked journals are tested on the built
//! program (`vectors/audit`, `vectors/show`).

mod memory;

use crate::vectors::texts::assert_told;
use lra_auditor::{Auditor, AuditorFault, Memory, Summary, Verdict, audit, check};
use lra_journal::{Version, read_journal};
use lra_model::Entry;
use std::alloc::{AllocError, Global};
use std::process::Abort;

/// Journal of a nested action that closes, and is compensated when its parent is cancelled.
const NESTED: &str =
    "lra-journal 1 7;1 0 enrol;1 0 start 1 * 0;1 1 start 2 1 0;1 2 join 1 2 http://n.test/u http://n.test/c * http://n.test/f http://n.test/a;1 3 close 2 client;1 4 ask 1 1 complete;1 5 reply 1 done;1 5 end 2 Closed;1 6 cancel 1 client;1 6 cancel 2 parent;1 7 ask 2 1 compensate;1 8 reply 2 done;1 8 end 2 Cancelled;1 8 end 1 Cancelled;1 9 ask 3 1 after;1 10 reply 3 silent;1 110 ask 4 1 after;1 111 reply 4 done;";

/// Verdict on the nested journal.
const NESTED_VERDICT: &str = "18 entries, 2 actions, 0 unended, 0 closed, 2 cancelled, 0 failed";

/// Writes the summary of a legal history, in two halves.
fn put_told(text: &mut String, summary: &Summary) -> Result<(), Memory> {
    let (entries, actions, unended) = (summary.entries, summary.actions, summary.unended);
    write!(
        text,
        "{entries} entries, {actions} actions, {unended} unended"
    )?;
    let (closed, cancelled) = (summary.closed, summary.cancelled);
    let failed = summary.failed.as_slice().len();
    write!(
        text,
        ", {closed} closed, {cancelled} cancelled, {failed} failed"
    )
}

/// Returns the text of a legal history's summary.
fn told_of(alloc: Global, summary: &Summary) -> Result<String, Memory> {
    let mut text = String::new(alloc);
    put_told(&mut text, summary)?;
    Ok(text)
}

/// Returns the text of a verdict.
fn told(alloc: Global, verdict: Verdict) -> Result<String, Memory> {
    match verdict {
        Verdict::Sound(summary) => {
            let told = told_of(alloc, &summary);
            drop(summary);
            told
        }
        Verdict::Unsound { line, rule } => {
            let rule = rule.name();
            format!(in alloc; "line {line} {rule}")
        }
    }
}

/// Audits bytes, and returns the text of the verdict.
fn told_whole(alloc: Global, bytes: &[u8]) -> Result<String, Memory> {
    match audit(alloc, bytes) {
        Ok(verdict) => told(alloc, verdict),
        Err(fault) => Err(fault),
    }
}

/// Feeds bytes in pieces of this size, or of one byte if it is 0. If memory runs out the auditor is spent from then on.
/// If it isn't spent, the function returns another fault.
fn feed_pieces(auditor: &mut Auditor, bytes: &[u8], size: usize) -> Result<(), AuditorFault> {
    let mut rest = bytes;
    while !rest.is_empty() {
        let (piece, others) = rest.split_at(size.max(1).min(rest.len()));
        if let Err(fault) = auditor.feed(piece) {
            let is_spent = auditor.feed(others) == Err(AuditorFault::Spent);
            return Err(if is_spent { fault } else { AuditorFault::Spent });
        }
        rest = others;
    }
    Ok(())
}

/// Finishes an auditor that was fed, and returns the text of its verdict.
fn told_at_end(alloc: Global, auditor: Auditor) -> Result<String, AuditorFault> {
    let verdict = auditor.finish()?;
    Ok(told(alloc, verdict)?)
}

/// Returns the verdict's text if the feeding succeeded, or else its fault. The auditor has to be spent after a fault.
fn ended(
    fed: Result<(), AuditorFault>,
    told: Result<String, AuditorFault>,
) -> Result<String, AuditorFault> {
    let Err(fault) = fed else {
        return told;
    };
    let is_spent = matches!(&told, Err(AuditorFault::Spent));
    drop(told);
    Err(if is_spent { fault } else { AuditorFault::Spent })
}

/// Feeds bytes in pieces of this size, and returns the text of the verdict.
fn told_in_pieces(alloc: Global, bytes: &[u8], size: usize) -> Result<String, AuditorFault> {
    let mut auditor = Auditor::new(alloc);
    let fed = feed_pieces(&mut auditor, bytes, size);
    ended(fed, told_at_end(alloc, auditor))
}

/// Asserts that bytes in pieces of this size have the wanted verdict.
fn assert_judged_by<R: Abort + AllocGlobal>(rt: &R, bytes: &[u8], size: usize, want: &str) {
    let told = told_in_pieces(rt.alloc(), bytes, size);
    assert_told(rt, "pieces", told.ok(), want);
}

/// Returns a journal, from lines that end in semicolons.
fn journal_of(alloc: Global, lines: &str) -> Result<String, Memory> {
    lines.replace(alloc, ';', "\n")
}

/// Asserts that a journal in pieces of every size has the wanted verdict.
fn assert_judged_by_every<R: Abort + AllocGlobal>(rt: &R, journal: &str, want: &str) {
    for size in 1..=journal.len() {
        assert_judged_by(rt, journal.as_bytes(), size, want);
    }
}

/// Audits journals that break off in a line. The second one has a fault before that.
#[test]
fn pieces_of_every_size(rt: HostRuntime) {
    assert_judged_by_every(
        &rt,
        "lra-journal 1 7\n1 0 enrol\n1 0 start 1 * 0\n1 5 close 1 client\n1 5 end 1 Closed",
        "line 5 grammar",
    );
    assert_judged_by_every(
        &rt,
        "lra-journal 1 7\n1 0 enrol\n1 0 start 1 * 0\n1 5 end 1 Closed\n1 5",
        "line 4 unsettled",
    );
}

/// Feeds a faulty line, and others after it.
fn feed_fault(auditor: &mut Auditor) -> Result<(), AuditorFault> {
    auditor.feed(b"lra-journal 1 7\n1 0 start 1 * 0\n1 0")?;
    auditor.feed(b" enrol\n1 0 start 01 * 0\n")?;
    auditor.feed(b"\xFF")
}

#[test]
fn pieces_after_a_fault(rt: HostRuntime) {
    let mut auditor = Auditor::new(rt.alloc());
    let fed = feed_fault(&mut auditor);
    let verdict = ended(fed, told_at_end(rt.alloc(), auditor));
    assert_told(&rt, "pieces after a fault", verdict.ok(), "line 2 clerk");
}

/// Checks the entries from a place on, and returns the text of the verdict.
fn told_from(
    alloc: Global,
    version: Version,
    entries: &[Entry],
    place: usize,
) -> Result<String, Memory> {
    match check(alloc, version, entries.get(place..).unwrap_or(&[])) {
        Ok(verdict) => told(alloc, verdict),
        Err(fault) => Err(fault),
    }
}

/// Checks a journal's entries from a place on, and returns the text of the verdict.
fn told_in_memory(alloc: Global, bytes: &[u8], place: usize) -> Result<String, Memory> {
    match read_journal(alloc, bytes) {
        Ok((version, _, entries)) => {
            let told = told_from(alloc, version, &entries, place);
            drop(entries);
            told
        }
        Err(_) => Err(AllocError),
    }
}

/// Checks the entries of a journal whose lines end in semicolons, from a place on, and returns the text of the verdict.
fn told_of_lines(alloc: Global, lines: &str, place: usize) -> Result<String, Memory> {
    let journal = journal_of(alloc, lines)?;
    told_in_memory(alloc, journal.as_bytes(), place)
}

#[test]
fn entries_in_memory(rt: HostRuntime) {
    let whole = told_of_lines(rt.alloc(), NESTED, 0);
    assert_told(&rt, NESTED, whole.ok(), NESTED_VERDICT);
    let torn = told_of_lines(rt.alloc(), NESTED, 1);
    assert_told(&rt, "all but the first entry", torn.ok(), "line 2 clerk");
}
