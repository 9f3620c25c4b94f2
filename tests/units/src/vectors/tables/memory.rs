//! Tables that are refused a growth: run with one allocation failing in turn (`rt try --test --fail-alloc N`). A call
//! that is made again has memory.

use super::{is_sound, plan_of};
use lra_journal::read_journal;
use lra_model::{Entry, Memory, Version};
use lra_tables::Tables;
use std::alloc::{AllocError, Global};
use std::process::Abort;

/// Every deed: members of an action and of one nested in it, one that leaves, one that is completed without an ask, and
/// one that is only notified of the end.
const JOURNAL: &str = "\
lra-journal 2 7
1 0 enrol
1 0 start 1 * 100
1 1 start 2 1 0
1 2 join 1 2 http://n.test/u http://n.test/c * http://n.test/f http://n.test/a
1 2 join 2 1 http://n.test/u * http://n.test/s * *
1 2 join 3 1 * * * * http://n.test/a
1 2 join 4 2 http://n.test/u * * * *
1 2 leave 4
1 2 renew 1 300
1 3 close 2 client
1 4 ask 1 1 complete
1 5 reply 1 silent
1 105 ask 2 1 complete
1 105 restart
1 106 ask 3 1 complete
1 107 report 1 done
1 107 end 2 Closed
1 108 close 1 client
1 108 skip 2
1 108 end 1 Closed
1 108 reply 3 done
1 109 ask 4 1 after
1 110 reply 4 done
2 111 enrol
2 111 start 3 * 0
2 111 cancel 3 client
2 111 end 3 Cancelled
";

/// Returns the version and the entries of the journal.
fn entries_of(alloc: Global) -> Result<(Version, Vec<Entry>), Memory> {
    match read_journal(alloc, JOURNAL.as_bytes()) {
        Ok((version, _, entries)) => Ok((version, entries)),
        Err(_) => Err(AllocError),
    }
}

/// Returns the version and the entries of the journal. If memory is refused the second try has it.
fn entries_again(alloc: Global) -> Result<(Version, Vec<Entry>), Memory> {
    match entries_of(alloc) {
        Ok(read) => Ok(read),
        Err(_) => entries_of(alloc),
    }
}

/// Returns whether an action's rows are the same.
fn is_same_action(left: &Tables, right: &Tables, number: u64) -> bool {
    match (left.action(number), right.action(number)) {
        (Some(one), Some(other)) => {
            (one.parent, one.limit, one.since, one.depth, one.status)
                == (
                    other.parent,
                    other.limit,
                    other.since,
                    other.depth,
                    other.status,
                )
                && left.children(number) == right.children(number)
                && left.members(number) == right.members(number)
        }
        (None, None) => true,
        _ => false,
    }
}

/// Returns whether a member's rows are the same.
fn is_same_member(left: &Tables, right: &Tables, number: u64) -> bool {
    match (left.member(number), right.member(number)) {
        (Some(one), Some(other)) => {
            (one.action, one.status, one.completion, one.compensation)
                == (
                    other.action,
                    other.status,
                    other.completion,
                    other.compensation,
                )
                && (one.outstanding, one.want, one.k, one.last)
                    == (other.outstanding, other.want, other.k, other.last)
        }
        (None, None) => true,
        _ => false,
    }
}

/// Returns whether the counts are the same.
fn are_same_counts(left: &Tables, right: &Tables) -> bool {
    (
        left.count_entries(),
        left.count_clerks(),
        left.count_actions(),
        left.count_members(),
        left.count_asks(),
        left.last_moment(),
    ) == (
        right.count_entries(),
        right.count_clerks(),
        right.count_actions(),
        right.count_members(),
        right.count_asks(),
        right.last_moment(),
    )
}

/// Returns whether two tables have the same rows.
fn are_same(left: &Tables, right: &Tables) -> bool {
    for number in 0..4 {
        if !is_same_action(left, right, number) || !is_same_member(left, right, number + 1) {
            return false;
        }
    }
    are_same_counts(left, right)
}

/// Asserts that two tables have the same rows.
fn assert_same<R: Abort>(rt: &R, left: &Tables, right: &Tables) {
    assert!(rt; are_same(left, right));
}

/// Applies an entry to tables. If memory is refused it checks that the rows are those of the others still, and tries
/// again: the second try has memory.
fn apply<R: Abort>(
    rt: &R,
    tables: &mut Tables,
    others: &Tables,
    entry: &Entry,
) -> Result<(), Memory> {
    if tables.apply(entry).is_err() {
        assert_same(rt, tables, others);
        tables.apply(entry)?;
    }
    Ok(())
}

/// Applies an entry to the tables that others are compared with. If memory is refused the second try has it.
fn follow(tables: &mut Tables, entry: &Entry) -> Result<(), Memory> {
    if tables.apply(entry).is_err() {
        tables.apply(entry)?;
    }
    Ok(())
}

/// Returns whether there is memory to plan an entry. Drops the plan.
fn is_planned(tables: &mut Tables, entry: &Entry) -> bool {
    match plan_of(tables, entry) {
        Ok(plan) => {
            drop(plan);
            true
        }
        Err(_) => false,
    }
}

/// Plans an entry, and checks that the rows are unchanged. If memory is refused the second try has it.
fn plan<R: Abort>(rt: &R, tables: &mut Tables, others: &Tables, entry: &Entry) {
    let is_first = is_planned(tables, entry);
    assert_same(rt, tables, others);
    if !is_first {
        let is_second = is_planned(tables, entry);
        assert!(rt; is_second);
        assert_same(rt, tables, others);
    }
}

/// Plans and applies each entry of a history to empty tables, and compares these with others.
fn fill<R: Abort>(
    rt: &R,
    tables: &mut Tables,
    others: &mut Tables,
    entries: &[Entry],
) -> Result<(), Memory> {
    for entry in entries {
        plan(rt, tables, others, entry);
        apply(rt, tables, others, entry)?;
        follow(others, entry)?;
        assert_same(rt, tables, others);
    }
    Ok(())
}

/// Plans and applies each entry of a history.
fn fill_empty<R: Abort>(rt: &R, alloc: Global, entries: &[Entry]) -> Result<(), Memory> {
    let mut tables = Tables::empty(alloc);
    let mut others = Tables::empty(alloc);
    let filled = fill(rt, &mut tables, &mut others, entries);
    drop(tables);
    drop(others);
    filled
}

/// Returns whether the entries are a legal history. If memory is refused the second try has it.
fn is_sound_again(alloc: Global, version: Version, entries: &[Entry]) -> Result<bool, Memory> {
    match is_sound(alloc, version, entries) {
        Ok(sound) => Ok(sound),
        Err(_) => is_sound(alloc, version, entries),
    }
}

fn fill_sound<R: Abort>(
    rt: &R,
    alloc: Global,
    version: Version,
    entries: &[Entry],
) -> Result<(), Memory> {
    assert_eq!(rt; entries.len(), 27);
    let is_sound = is_sound_again(alloc, version, entries)?;
    assert!(rt; is_sound);
    fill_empty(rt, alloc, entries)
}

#[test]
fn a_refused_growth_leaves_the_rows_as_they_were(rt: HostRuntime) -> Result<(), Memory> {
    let (version, entries) = entries_again(rt.alloc())?;
    let filled = fill_sound(&rt, rt.alloc(), version, entries.as_slice());
    drop(entries);
    filled
}
