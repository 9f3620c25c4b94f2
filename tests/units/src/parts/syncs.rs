//! Tests of the record of syncs.

use lra_storage::{Syncs, Timed, begin, end};
use std::alloc::Global;
use std::sync::Arc;

/// Number of writes that each sync makes durable.
const KEPT: [u64; 6] = [0, 1, 0, 2, 5, 1_001];

/// Records syncs. Returns how many of them made up to 1, 2, 5, 1,000 and more writes durable, and the number of these
/// writes.
fn taken_down<R: Timed>(rt: &R, alloc: Global) -> Option<[u64; 6]> {
    let syncs = Arc::new(alloc, Syncs::new(alloc, rt.stopwatch()).ok()?).ok();
    for writes in &KEPT {
        end(&syncs, begin(&syncs), Some(*writes));
    }
    let writes = syncs.as_ref()?.writes();
    Some([
        writes.count(0),
        writes.count(1),
        writes.count(2),
        writes.count(9),
        writes.count(10),
        writes.sum(),
    ])
}

#[test]
fn each_sync_that_keeps_something_is_taken_down(rt: HostRuntime) {
    assert!(rt; taken_down(&rt, rt.alloc()) == Some([1, 1, 1, 0, 1, 1_009]));
}
