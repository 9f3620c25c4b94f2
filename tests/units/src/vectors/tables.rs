//! Worked histories in tables, entry by entry: the status of each row, and the plan of each entry.

mod cascades;
mod memory;

use crate::vectors::texts::{assert_told, parted};
use lra_auditor::{Verdict, check};
use lra_journal::{JournalFault, read_journal};
use lra_model::{Entry, Memory, Version};
use lra_tables::{Plan, Tables};
use std::alloc::Global;
use std::process::Abort;

/// Histories, each after its header. After each entry come the statuses of all actions and all members. `+` marks an
/// entry that follows by itself from the one before.
const WORKED: &str = "\
lra-journal 1 7
1 0 enrol -> /
1 0 start 1 * 0 -> Active /
1 5 close 1 client -> Closing /
+ 1 5 end 1 Closed -> Closed /
|lra-journal 1 7
1 0 enrol -> /
1 10 start 1 * 0 -> Active /
1 11 join 1 1 http://n.test/u http://n.test/c http://n.test/s * * -> Active / Active
1 12 join 2 1 http://n.test/u http://n.test/c * * * -> Active / Active Active
1 20 close 1 client -> Closing / Active Active
1 21 ask 1 1 complete -> Closing / Completing Active
1 22 ask 2 2 complete -> Closing / Completing Completing
1 23 reply 2 done -> Closing / Completing Completed
1 24 reply 1 accepted -> Closing / Completing Completed
1 30 report 1 done -> Closing / Completed Completed
+ 1 30 end 1 Closed -> Closed / Completed Completed
|lra-journal 1 7
1 0 enrol -> /
1 10 start 1 * 0 -> Active /
1 11 join 1 1 http://n.test/u http://n.test/c http://n.test/s * * -> Active / Active
1 12 join 2 1 http://n.test/u http://n.test/c * * * -> Active / Active Active
1 20 close 1 client -> Closing / Active Active
1 21 ask 1 1 complete -> Closing / Completing Active
1 22 ask 2 2 complete -> Closing / Completing Completing
1 23 reply 2 done -> Closing / Completing Completed
1 24 reply 1 accepted -> Closing / Completing Completed
1 124 ask 3 1 status -> Closing / Completing Completed
1 130 report 1 done -> Closing / Completed Completed
+ 1 130 end 1 Closed -> Closed / Completed Completed
1 132 reply 3 failed -> Closed / Completed Completed
|lra-journal 1 7
1 0 enrol -> /
1 0 start 1 * 0 -> Active /
1 1 join 1 1 http://n.test/u http://n.test/c * * * -> Active / Active
1 2 leave 1 -> Active / Left
1 4 close 1 client -> Closing / Left
+ 1 4 end 1 Closed -> Closed / Left
|lra-journal 1 7
1 0 enrol -> /
1 0 start 1 * 0 -> Active /
1 1 start 2 1 0 -> Active Active /
1 2 join 1 2 http://n.test/u http://n.test/c * http://n.test/f http://n.test/a -> Active Active / Active
1 3 close 2 client -> Active Closing / Active
1 4 ask 1 1 complete -> Active Closing / Completing
1 5 reply 1 done -> Active Closing / Completed
+ 1 5 end 2 Closed -> Active Closed / Completed
1 6 cancel 1 client -> Cancelling Closed / Completed
+ 1 6 cancel 2 parent -> Cancelling Cancelling / Completed
1 7 ask 2 1 compensate -> Cancelling Cancelling / Compensating
1 8 reply 2 done -> Cancelling Cancelling / Compensated
+ 1 8 end 2 Cancelled -> Cancelling Cancelled / Compensated
+ 1 8 end 1 Cancelled -> Cancelled Cancelled / Compensated
1 9 ask 3 1 after -> Cancelled Cancelled / Compensated
1 10 reply 3 silent -> Cancelled Cancelled / Compensated
1 110 ask 4 1 after -> Cancelled Cancelled / Compensated
1 111 reply 4 done -> Cancelled Cancelled / Compensated
|lra-journal 1 7
1 0 enrol -> /
1 0 start 1 * 0 -> Active /
1 1 start 2 1 0 -> Active Active /
1 2 join 1 2 http://n.test/u http://n.test/c * http://n.test/f http://n.test/a -> Active Active / Active
1 3 close 2 client -> Active Closing / Active
1 4 ask 1 1 complete -> Active Closing / Completing
1 5 cancel 1 client -> Cancelling Closing / Completing
1 6 reply 1 done -> Cancelling Closing / Completed
+ 1 6 end 2 Closed -> Cancelling Closed / Completed
+ 1 6 cancel 2 parent -> Cancelling Cancelling / Completed
|lra-journal 1 7
1 0 enrol -> /
1 0 start 1 * 0 -> Active /
1 1 start 2 1 0 -> Active Active /
1 2 join 1 2 http://n.test/u http://n.test/c * http://n.test/f http://n.test/a -> Active Active / Active
1 3 close 2 client -> Active Closing / Active
1 4 ask 1 1 complete -> Active Closing / Completing
1 5 reply 1 failed -> Active Closing / FailedToComplete
+ 1 5 end 2 FailedToClose -> Active FailedToClose / FailedToComplete
1 6 close 1 client -> Closing FailedToClose / FailedToComplete
+ 1 6 end 1 FailedToClose -> FailedToClose FailedToClose / FailedToComplete
1 7 ask 2 1 forget -> FailedToClose FailedToClose / FailedToComplete
1 8 reply 2 done -> FailedToClose FailedToClose / FailedToComplete
1 9 ask 3 1 after -> FailedToClose FailedToClose / FailedToComplete
|lra-journal 1 7
1 0 enrol -> /
1 0 start 1 * 0 -> Active /
1 1 start 2 1 0 -> Active Active /
1 2 join 1 2 http://n.test/u http://n.test/c * http://n.test/f http://n.test/a -> Active Active / Active
1 3 cancel 2 client -> Active Cancelling / Active
1 4 ask 1 1 compensate -> Active Cancelling / Compensating
1 5 reply 1 done -> Active Cancelling / Compensated
+ 1 5 end 2 Cancelled -> Active Cancelled / Compensated
1 6 close 1 client -> Closing Cancelled / Compensated
+ 1 6 end 1 Closed -> Closed Cancelled / Compensated
|lra-journal 1 7
1 1000 enrol -> /
1 1000 start 1 * 100 -> Active /
1 1100 cancel 1 limit -> Cancelling /
+ 1 1100 end 1 Cancelled -> Cancelled /
1 1100 start 2 * 18446744073709550515 -> Cancelled Active /
|lra-journal 1 7
1 0 enrol -> /
1 0 start 1 * 0 -> Active /
1 1 join 1 1 http://n.test/u * * * * -> Active / Active
1 2 close 1 client -> Closing / Active
+ 1 2 skip 1 -> Closing / Completed
+ 1 2 end 1 Closed -> Closed / Completed
|lra-journal 1 7
1 0 enrol -> /
1 0 start 1 * 0 -> Active /
1 1 join 1 1 http://n.test/u http://n.test/c * * * -> Active / Active
1 2 close 1 client -> Closing / Active
1 3 ask 1 1 complete -> Closing / Completing
1 4 restart -> Closing / Completing
1 6 ask 2 1 complete -> Closing / Completing
|lra-journal 2 7
1 0 enrol -> /
1 0 start 1 * 100 -> Active /
1 90 renew 1 100 -> Active /
1 190 cancel 1 limit -> Cancelling /
+ 1 190 end 1 Cancelled -> Cancelled /
|lra-journal 2 7
1 0 enrol -> /
1 0 start 1 * 0 -> Active /
1 1 start 2 1 0 -> Active Active /
1 2 join 1 2 http://n.test/u http://n.test/c * http://n.test/f http://n.test/a -> Active Active / Active
1 3 close 2 client -> Active Closing / Active
1 4 ask 1 1 complete -> Active Closing / Completing
1 5 reply 1 done -> Active Closing / Completed
+ 1 5 end 2 Closed -> Active Closed / Completed
1 6 cancel 2 client -> Active Cancelling / Completed
1 7 ask 2 1 compensate -> Active Cancelling / Compensating
1 8 reply 2 done -> Active Cancelling / Compensated
+ 1 8 end 2 Cancelled -> Active Cancelled / Compensated
1 9 close 1 client -> Closing Cancelled / Compensated
+ 1 9 end 1 Closed -> Closed Cancelled / Compensated
|lra-journal 2 7
1 0 enrol -> /
1 0 start 1 * 0 -> Active /
1 0 start 2 1 0 -> Active Active /
1 0 close 1 client -> Closing Active /
+ 1 0 close 2 parent -> Closing Closing /
+ 1 0 end 2 Closed -> Closing Closed /
+ 1 0 end 1 Closed -> Closed Closed /";

/// Writes the statuses of all actions, and of all members.
fn push_statuses(text: &mut String, tables: &Tables) -> Result<(), Memory> {
    for place in 0..tables.count_actions() {
        if let Some(row) = tables.action(place + 1) {
            text.push_str(row.status.name())?;
            text.push(' ')?;
        }
    }
    text.push('/')?;
    for place in 0..tables.count_members() {
        if let Some(row) = tables.member(place + 1) {
            text.push(' ')?;
            text.push_str(row.status.name())?;
        }
    }
    Ok(())
}

/// Writes the journal of a worked history.
fn push_journal(journal: &mut String, history: &str) -> Result<(), Memory> {
    for line in history.lines() {
        let (entry, _) = parted(line, " -> ");
        journal.push_str(entry.strip_prefix("+ ").unwrap_or(entry))?;
        journal.push('\n')?;
    }
    Ok(())
}

/// Returns the plan of an entry that is allowed now.
fn plan_of(tables: &mut Tables, entry: &Entry) -> Result<Plan, Memory> {
    match entry.copy() {
        Ok(entry) => tables.plan(entry),
        Err(fault) => Err(fault),
    }
}

/// Returns entries as text.
fn shown(alloc: Global, entries: &[Entry]) -> Result<String, Memory> {
    format!(in alloc; "{entries:?}")
}

/// Returns the entries planned for an entry that is allowed now, as text.
fn planned(alloc: Global, tables: &mut Tables, entry: &Entry) -> Result<String, Memory> {
    let plan = plan_of(tables, entry)?;
    let planned = shown(alloc, plan.entries());
    drop(plan);
    planned
}

/// Counts the lines at the front that follow by themselves from the line before.
fn count_following(lines: &[&str]) -> usize {
    let mut count = 0usize;
    for line in lines {
        if !line.starts_with("+ ") {
            return count;
        }
        count = count.saturating_add(1);
    }
    count
}

/// Asserts that the plan of the entry at a place is that entry and the entries that follow it by themselves in the
/// history.
fn assert_plan<R: Abort>(
    rt: &R,
    alloc: Global,
    planned: String,
    entries: &[Entry],
    lines: &[&str],
    place: usize,
) {
    let next = place.saturating_add(1);
    let following = count_following(lines.get(next..).unwrap_or(&[]));
    let end = next.saturating_add(following);
    let wanted = shown(alloc, entries.get(place..end).unwrap_or(&[]));
    assert_told(rt, "a plan", wanted.ok(), planned.as_str());
}

/// Asserts that the line at a place ends with the tables' statuses.
fn assert_statuses<R: Abort>(
    rt: &R,
    alloc: Global,
    tables: &Tables,
    lines: &[&str],
    place: usize,
) -> Result<(), Memory> {
    let mut found = String::new(alloc);
    push_statuses(&mut found, tables)?;
    let line = lines.get(place).copied().unwrap_or("");
    assert!(rt; line.ends_with(found.as_str()), "{found} after {line}");
    Ok(())
}

/// Applies a history to empty tables entry by entry. Checks each plan before, and the rows after.
fn assert_rows<R: Abort>(
    rt: &R,
    alloc: Global,
    tables: &mut Tables,
    entries: &[Entry],
    lines: &[&str],
) -> Result<(), Memory> {
    for entry in entries {
        let place = tables.count_entries() as usize;
        let planned = planned(alloc, tables, entry)?;
        assert_plan(rt, alloc, planned, entries, lines, place);
        tables.apply(entry)?;
        assert_statuses(rt, alloc, tables, lines, place)?;
    }
    Ok(())
}

/// Returns whether entries are a legal history.
fn is_sound(alloc: Global, version: Version, entries: &[Entry]) -> Result<bool, Memory> {
    match check(alloc, version, entries)? {
        Verdict::Sound(summary) => {
            drop(summary);
            Ok(true)
        }
        Verdict::Unsound { .. } => Ok(false),
    }
}

/// Checks the plans and statuses of a legal history.
fn assert_lines<R: Abort>(
    rt: &R,
    alloc: Global,
    entries: &[Entry],
    lines: &[&str],
) -> Result<(), Memory> {
    assert_eq!(rt; lines.len(), entries.len());
    let mut tables = Tables::empty(alloc);
    let looked = assert_rows(rt, alloc, &mut tables, entries, lines);
    drop(tables);
    looked
}

/// Checks that a history's entries are legal, and checks their plans and statuses.
fn assert_entries<R: Abort>(
    rt: &R,
    alloc: Global,
    version: Version,
    entries: &[Entry],
    history: &str,
) -> Result<(), Memory> {
    let is_sound = is_sound(alloc, version, entries)?;
    assert!(rt; is_sound, "{history}");
    let lines: Vec<&str> = history.lines().skip(1).collect(alloc)?;
    assert_lines(rt, alloc, entries, lines.as_slice())
}

/// Checks a worked history.
fn assert_history<R: Abort>(rt: &R, alloc: Global, history: &str) -> Result<(), JournalFault> {
    let mut journal = String::new(alloc);
    push_journal(&mut journal, history)?;
    let (version, _, entries) = read_journal(alloc, journal.as_bytes())?;
    let looked = assert_entries(rt, alloc, version, entries.as_slice(), history);
    drop(entries);
    Ok(looked?)
}

#[test]
fn worked_histories(rt: HostRuntime) -> Result<(), JournalFault> {
    for history in WORKED.split('|') {
        assert_history(&rt, rt.alloc(), history)?;
    }
    Ok(())
}
