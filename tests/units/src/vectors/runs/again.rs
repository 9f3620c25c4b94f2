//! Journals that are read twice.

use super::fakes::{Full, Halts};
use super::shown;
use crate::vectors::texts::{Telling, assert_rows, parted};
use lra_audits::RunFault;
use lra_reports::{Sources, upgrade_twice};
use std::alloc::Global;

/// Upgrades a journal whose second reading gives `again`, and returns the printed text, followed by the outcome.
fn told_of(alloc: Global, first: &[u8], again: &[u8]) -> Option<String> {
    let mut printed = Vec::new(alloc);
    let outcome = upgrade_twice(alloc, first, again, &mut printed);
    let told = shown(alloc, printed.as_slice(), outcome);
    drop(printed);
    told
}

#[derive(Clone, Copy)]
struct Again;

impl Telling for Again {
    fn tell(&self, alloc: Global, text: &str) -> Option<String> {
        let texts = text.replace(alloc, ';', "\n").ok()?;
        let (first, again) = parted(texts.as_str(), "|");
        let told = told_of(alloc, first.as_bytes(), again.as_bytes());
        drop(texts);
        let lines = told?;
        let told = lines.replace(alloc, '\n', ";");
        drop(lines);
        told.ok()
    }
}

/// Texts of the first and second reading, with lines that end in semicolons, and the result of the upgrade.
const AGAIN: &str = "\
lra-journal 1 7;1 0 enrol;|lra-journal 1 7;1 0 enrol; -> lra-journal 2 7;1 0 enrol;Ok(0)
lra-journal 1 7;|lra-journal 1 7; -> lra-journal 2 7;Ok(0)
lra-journal 1 7;|lra-journal 1 7;1 0 enrol; -> lra-journal 2 7;1 0 enrol;Ok(0)
lra-journal 1 7;1 0 enrol;|lra-journal 2 8; -> lra-journal 2 8;Ok(0)
lra-journal 1 7;1 0 enrol;| -> Err(Changed)
lra-journal 1 7;1 0 enrol;|lra-journal 1 7 -> Err(Changed)
lra-journal 1 7;1 0 enrol;|lra-journal 1 7;1 0 enr -> lra-journal 2 7;1 0 enrErr(Changed)
lra-journal 1 7;1 0 enrol;|lra-journal 1 7;2 0 enrol; -> lra-journal 2 7;2 0 enrol;Err(Changed)
lra-journal 1 7;2 0 enrol;|lra-journal 1 7;1 0 enrol; -> unsound line 2 clerk;Ok(1)
|lra-journal 1 7; -> unsound line 1 header;Ok(1)
";

#[test]
fn what_is_read_again_is_upgraded(rt: HostRuntime) {
    assert_rows(&rt, &Again, AGAIN);
}

/// Returns the outcome of an upgrade with this room, whose second reading halts, and fails at its end if `fails` is
/// set.
fn outcome(alloc: Global, fails: bool, room: usize) -> Result<u8, RunFault> {
    let text = "lra-journal 1 7\n1 0 enrol\n";
    let again = Halts { text, fails };
    upgrade_twice(alloc, text.as_bytes(), again.input(), &mut Full { room })
}

#[test]
fn a_second_reading_may_fail(rt: HostRuntime) {
    let alloc = rt.alloc();
    assert!(rt; outcome(alloc, false, 26) == Ok(0));
    assert!(rt; outcome(alloc, false, 25) == Err(RunFault::Write));
    assert!(rt; outcome(alloc, true, 26) == Err(RunFault::Changed));
}
