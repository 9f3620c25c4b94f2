//! Tests over the system's files: with the same bytes at each read, with others at each read, with none, and without an
//! end.

use lra_files::SmallFault;
use lra_storage::{Fenced, stands};
use std::alloc::Global;
use std::sync::Arc;

/// Makes a file a fence, and returns whether it still has its bytes, or why it can't be a fence.
fn told<R: Fenced>(rt: &R, alloc: Global, path: &str) -> Result<bool, SmallFault> {
    let fence = rt.fence(path)?;
    match Arc::new(alloc, fence) {
        Ok(fence) => Ok(stands(&Some(fence))),
        Err(_) => Err(SmallFault::Memory),
    }
}

#[test]
fn a_fence_stands_as_long_as_its_bytes_stay(rt: HostRuntime) {
    let alloc = rt.alloc();
    assert!(rt; told(&rt, alloc, "/proc/version") == Ok(true));
    assert!(rt; told(&rt, alloc, "/dev/null") == Ok(true));
    assert!(rt; told(&rt, alloc, "/proc/sys/kernel/random/uuid") == Ok(false));
    assert!(rt; told(&rt, alloc, "/dev/zero") == Err(SmallFault::TooLong));
    assert!(rt; told(&rt, alloc, "/nowhere") == Err(SmallFault::File));
    assert!(rt; told(&rt, alloc, "/") == Err(SmallFault::File));
    assert!(rt; stands(&None));
}
