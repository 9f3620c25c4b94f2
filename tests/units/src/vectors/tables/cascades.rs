//! A chain of nested actions that is cancelled at its top. Each action is cancelled with its parent, the outermost
//! first. The innermost ends first.

use super::assert_history;
use lra_journal::JournalFault;
use lra_model::Memory;

/// Number of actions of the chain.
const DEPTH: u64 = 64;

/// Writes a status `count` times.
fn push_status(text: &mut String, count: u64, status: &str) -> Result<(), Memory> {
    for _ in 0..count {
        text.push_str(status)?;
    }
    Ok(())
}

/// Ends a line with the statuses of its actions: `count` are cancelling, and `others` have another status.
fn push_statuses(text: &mut String, count: u64, others: u64, other: &str) -> Result<(), Memory> {
    text.push_str(" -> ")?;
    push_status(text, count, "Cancelling ")?;
    push_status(text, others, other)?;
    text.push_str("/\n")
}

/// Writes the starts of the chain.
fn push_starts(text: &mut String) -> Result<(), Memory> {
    text.push_str("lra-journal 1 7\n1 0 enrol -> /\n1 0 start 1 * 0 -> Active /\n")?;
    for parent in 1..DEPTH {
        let action = parent + 1;
        write!(text, "1 0 start {action} {parent} 0")?;
        push_statuses(text, 0, action, "Active ")?;
    }
    Ok(())
}

/// Writes the cancel of its top, and those of all below.
fn push_cancels(text: &mut String) -> Result<(), Memory> {
    text.push_str("1 1 cancel 1 client")?;
    push_statuses(text, 1, DEPTH - 1, "Active ")?;
    for parent in 1..DEPTH {
        let action = parent + 1;
        write!(text, "+ 1 1 cancel {action} parent")?;
        push_statuses(text, action, DEPTH - action, "Active ")?;
    }
    for ended in 0..DEPTH {
        let action = DEPTH - ended;
        write!(text, "+ 1 1 end {action} Cancelled")?;
        push_statuses(text, action - 1, ended + 1, "Cancelled ")?;
    }
    Ok(())
}

#[test]
fn a_chain_is_cancelled_from_its_top(rt: HostRuntime) -> Result<(), JournalFault> {
    let mut text = String::new(rt.alloc());
    push_starts(&mut text)?;
    push_cancels(&mut text)?;
    assert_history(&rt, rt.alloc(), text.as_str())
}
