//! Scripts of commands given to a coordinator, and journals that a coordinator is opened from.
//!
//! Each script is also run with one allocation failing in turn. A command that is refused memory changes nothing, and
//! has the script's answer when it is given again.

mod desk;

use crate::scripts::rows::{LIMITED, OPENED, SCRIPTS, TORN};
use crate::scripts::same::assert_came;
use crate::scripts::words::{Words, parted};
use desk::played;
use lra_core::{
    Address, Command, Committed, Coordinator, Errand, Instance, Limits, OpenFault, Prepared, Told,
    Version,
};
use lra_ids::{UriFault, address};
use lra_journal::read_journal;
use lra_model::ActionStatus;
use std::alloc::Global;
use std::io::{self, Write};
use std::str::from_utf8;

const BASE: &str = "http://127.0.0.1:8080/";

/// Returns the base of the URIs. If memory is refused the second try has it.
pub fn base(alloc: Global) -> Option<Address> {
    let base = match address(alloc, BASE) {
        Err(UriFault::Memory) => address(alloc, BASE),
        base => base,
    };
    base.ok().filter(|base| base.is_base())
}

fn coordinator(alloc: Global, limits: Limits) -> Option<Coordinator> {
    let instance = Instance::new(7)?;
    let base = base(alloc)?;
    Some(Coordinator::new(alloc, instance, base, limits))
}

/// Plays a script at a coordinator and returns the text. It is empty if there is no coordinator, or it isn't of that
/// version.
fn come(alloc: Global, place: Option<Coordinator>, version: Version, script: &str) -> Vec<u8> {
    let Some(mut coordinator) = place else {
        return Vec::new(alloc);
    };
    let mut text = played(alloc, &mut coordinator, script);
    if coordinator.version() != version {
        text.clear();
    }
    drop(coordinator);
    text
}

/// Plays a script at a coordinator with the usual limits, and returns the text.
fn come_usually(alloc: Global, script: &str) -> Vec<u8> {
    let place = coordinator(alloc, Limits::usual());
    come(alloc, place, Version::Two, script)
}

#[test]
fn scripts_come_to_what_they_say(rt: HostRuntime) {
    for script in SCRIPTS.split('|') {
        assert_came(&rt, come_usually(rt.alloc(), script), script);
    }
}

/// Parses a small number. Returns 0 for any other text.
pub fn small(text: &str) -> u16 {
    text.parse().unwrap_or(0)
}

/// Parses the limits of a line: clerks, actions, members, entries and depth.
fn limits(line: &str) -> Limits {
    let (clerks, line) = parted(line, " ");
    let (actions, line) = parted(line, " ");
    let (members, line) = parted(line, " ");
    let (entries, depth) = parted(line, " ");
    Limits {
        clerks: u32::from(small(clerks)),
        actions: u64::from(small(actions)),
        members: u64::from(small(members)),
        entries: u64::from(small(entries)),
        depth: u64::from(small(depth)),
        ..Limits::usual()
    }
}

/// Plays a script at a coordinator with the limits of a line, and returns the text.
fn come_within(alloc: Global, line: &str, script: &str) -> Vec<u8> {
    let place = coordinator(alloc, limits(line));
    come(alloc, place, Version::Two, script)
}

#[test]
fn limits_are_kept(rt: HostRuntime) {
    for row in LIMITED.split('|') {
        let (line, script) = parted(row, "\n");
        assert_came(&rt, come_within(rt.alloc(), line, script), script);
    }
}

/// Writes the starts of 63 actions, each nested in the one before.
fn put_starts(script: &mut Vec<u8>) -> io::Result<()> {
    for parent in 1..64u64 {
        let action = parent + 1;
        writeln!(
            script,
            "1 0 start {parent} 0 -> Action({action})\n+ 1 0 start {action} {parent} 0"
        )?;
    }
    Ok(())
}

/// Writes the lines that a cancel of the outermost action appends.
fn put_ends(script: &mut Vec<u8>) -> io::Result<()> {
    for action in 2..65 {
        writeln!(script, "+ 1 1 cancel {action} parent")?;
    }
    for above in 0..64u64 {
        let action = 64 - above;
        writeln!(script, "+ 1 1 end {action} Cancelled")?;
    }
    Ok(())
}

/// Writes a script that starts 64 actions, each nested in the one before, and cancels the outermost.
fn put_nest(script: &mut Vec<u8>) -> io::Result<()> {
    script.extend_from_slice(NEST_BEGINS)?;
    put_starts(script)?;
    script.extend_from_slice(NEST_IS_CANCELLED)?;
    put_ends(script)?;
    script.extend_from_slice(NEST_ENDS)?;
    Ok(())
}

const NEST_BEGINS: &[u8] =
    b"0 0 enrol -> Clerk(1)\n+ 1 0 enrol\n1 0 start * 0 -> Action(1)\n+ 1 0 start 1 * 0\n";

const NEST_IS_CANCELLED: &[u8] =
    b"1 0 start 64 0 -> refused TooDeep\n1 1 cancel 1 -> Now(Cancelled)\n+ 1 1 cancel 1 client\n";

const NEST_ENDS: &[u8] =
    b"audit 2 -> sound 193 entries 64 actions 0 unended 0 closed 64 cancelled\n";

/// Returns the script of a nest. It is empty if memory is refused.
fn nest(alloc: Global) -> Vec<u8> {
    let mut script = Vec::new(alloc);
    if put_nest(&mut script).is_err() {
        script.clear();
    }
    script
}

#[test]
fn a_nest_is_cancelled_at_once(rt: HostRuntime) {
    let script = nest(rt.alloc());
    let text = from_utf8(script.as_slice()).unwrap_or("no text");
    assert_came(&rt, come_usually(rt.alloc(), text), text);
    drop(script);
}

/// Opens a coordinator from a journal, with this many entries at most.
fn open_once(alloc: Global, journal: &str, entries: u32) -> Result<Coordinator, OpenFault> {
    let Some(base) = base(alloc) else {
        return Err(OpenFault::Memory);
    };
    let Ok((version, instance, read)) = read_journal(alloc, journal.as_bytes()) else {
        return Err(OpenFault::Memory);
    };
    let limits = Limits {
        entries: u64::from(entries),
        ..Limits::usual()
    };
    Coordinator::from_journal(alloc, version, instance, base, limits, read)
}

/// Opens a coordinator from a journal, and tries again if memory was refused.
fn open(alloc: Global, journal: &str, entries: u32) -> Result<Coordinator, OpenFault> {
    match open_once(alloc, journal, entries) {
        Err(OpenFault::Memory) => open_once(alloc, journal, entries),
        opened => opened,
    }
}

/// Returns whether a fault is the wanted one: a line and a rule, or "Full".
pub fn is_so(fault: OpenFault, wanted: &str) -> bool {
    match fault {
        OpenFault::Unsound { line, rule } => {
            let (number, code) = parted(wanted, " ");
            (Words { left: number }).number() == Some(line) && rule.name() == code
        }
        fault => fault == OpenFault::Full && wanted == "Full",
    }
}

/// Returns whether the opening of a journal has the wanted fault.
fn is_refused(alloc: Global, journal: &str, entries: u32, wanted: &str) -> bool {
    match open(alloc, journal, entries) {
        Ok(coordinator) => {
            drop(coordinator);
            false
        }
        Err(fault) => is_so(fault, wanted),
    }
}

/// Returns whether the journal of a row is refused as the row says.
fn row_is_refused(alloc: Global, row: &str) -> bool {
    let (line, journal) = parted(row, "\n");
    let (entries, wanted) = parted(line, " ");
    is_refused(alloc, journal, u32::from(small(entries)), wanted)
}

#[test]
fn journals_are_opened(rt: HostRuntime) {
    for row in OPENED.split('|') {
        assert!(rt; row_is_refused(rt.alloc(), row), "{row}");
    }
}

/// Plays a script at a coordinator that goes on from a journal of version 1, and returns the text.
fn come_later(alloc: Global, journal: &str, script: &str) -> Vec<u8> {
    let place = open(alloc, journal, 100).ok();
    come(alloc, place, Version::One, script)
}

#[test]
fn what_a_torn_block_lacks_is_added(rt: HostRuntime) {
    let [journal, script] = TORN;
    assert_came(&rt, come_later(rt.alloc(), journal, script), script);
}

/// Discards the errand of a command, if there is one.
fn spend(errand: Option<Errand>) {
    if let Some(errand) = errand {
        errand.discard();
    }
}

/// Prepares the close of action 1, and commits it if `commits` is set. Returns a word for the prepared block, if there
/// is one.
fn close(coordinator: &mut Coordinator, commits: bool) -> &'static str {
    match coordinator.prepare(1, 5, &Command::Close { action: 1 }) {
        Err(_) => "refused",
        Ok(Prepared::Told(_)) => "nothing",
        Ok(Prepared::Block(block)) => {
            let is_right = block.text() == b"1 5 close 1 client\n1 5 end 1 Closed\n".as_slice();
            if commits {
                let Committed { told: _, errand } = coordinator.commit(block);
                spend(errand);
            } else {
                drop(block);
            }
            if is_right { "block" } else { "another block" }
        }
    }
}

/// Returns whether action 1 has this status.
fn has_status(coordinator: &Coordinator, status: ActionStatus) -> bool {
    coordinator.status(1, 1) == Ok(Told::ActionIs(status))
}

/// Starts an action, prepares its close, and then commits it. Returns whether it was started, whether each close
/// prepared the wanted block, whether the action is closed then, and whether a further close writes nothing.
fn close_once(coordinator: &mut Coordinator) -> [bool; 5] {
    let is_started = coordinator.enrol(0).is_ok() && coordinator.start(1, 0, None, 0).is_ok();
    let is_prepared = has_status(coordinator, ActionStatus::Active)
        && close(coordinator, false) == "block";
    let is_committed = has_status(coordinator, ActionStatus::Active)
        && close(coordinator, true) == "block";
    let is_closed = has_status(coordinator, ActionStatus::Closed);
    let is_over = close(coordinator, true) == "nothing";
    [is_started, is_prepared, is_committed, is_closed, is_over]
}

/// Runs `close_once` at a new coordinator.
fn close_anew(alloc: Global) -> [bool; 5] {
    let Some(mut coordinator) = coordinator(alloc, Limits::usual()) else {
        return [false; 5];
    };
    let done = close_once(&mut coordinator);
    drop(coordinator);
    done
}

#[test]
fn what_is_prepared_is_written_by_commit_alone(rt: HostRuntime) {
    assert!(rt; close_anew(rt.alloc()) == [true; 5]);
}
