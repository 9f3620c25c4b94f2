//! Assertions that compare texts with the wanted ones.

use std::process::Abort;
use std::str::from_utf8;

/// Asserts that two texts are the same.
pub fn assert_same(rt: &impl Abort, came: &[u8], wanted: &[u8]) {
    let came = from_utf8(came).unwrap_or("no text");
    let wanted = from_utf8(wanted).unwrap_or("no text is wanted");
    assert_eq!(rt; came, wanted);
}

/// Asserts that the text of a played script is the script.
pub fn assert_came(rt: &impl Abort, came: Vec<u8>, script: &str) {
    assert_same(rt, came.as_slice(), script.as_bytes());
    drop(came);
}
