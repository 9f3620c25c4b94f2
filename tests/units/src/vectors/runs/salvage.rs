//! Salvages whose input or output fails. The other salvages are tested on the built program (`tools/vectors`).

use super::fakes::{Full, Halts};
use lra_audits::RunFault;
use lra_reports::salvage_file;
use std::alloc::Global;

/// Returns the fault of a salvage, if it has one. Its file is read haltingly and has 26 sound bytes, and its output has
/// this room.
fn fault(alloc: Global, fails: bool, room: usize) -> Option<RunFault> {
    let source = Halts {
        text: "lra-journal 1 7\n1 0 enrol\n1 0 sta",
        fails,
    };
    salvage_file(alloc, &source, "it", &mut Full { room }).err()
}

#[test]
fn an_input_or_an_output_of_a_salvage_may_fail(rt: HostRuntime) {
    let alloc = rt.alloc();
    assert!(rt; fault(alloc, true, 26) == Some(RunFault::Read));
    assert!(rt; fault(alloc, false, 25) == Some(RunFault::Write));
    assert!(rt; fault(alloc, false, 26) == None);
}
