//! Assertions that compare results with the wanted texts, and tables of both.

use std::alloc::Global;
use std::process::Abort;

/// Splits a row at the first `sign`. Without one it returns the whole row and an empty text.
pub fn parted<'a>(row: &'a str, sign: &str) -> (&'a str, &'a str) {
    row.split_once(sign).unwrap_or((row, ""))
}

/// Asserts that a result is the wanted text. If memory is refused there is no result.
pub fn assert_told<R: Abort>(rt: &R, of: &str, told: Option<String>, want: &str) {
    let text = told.as_deref().unwrap_or("nothing");
    assert!(rt;
        told.as_deref() == Some(want),
        "{text} is told of {of}, not {want}"
    );
    drop(told);
}

/// Function from texts to results.
pub trait Telling {
    /// Returns the result for a text, or none if memory is refused.
    fn tell(&self, alloc: Global, text: &str) -> Option<String>;
}

/// Asserts the results of rows. Each line is a text and the wanted result, with ` -> ` between.
pub fn assert_rows<T: Telling, R: Abort + AllocGlobal>(rt: &R, telling: &T, rows: &str) {
    for row in rows.lines() {
        let (text, want) = parted(row, " -> ");
        assert_told(rt, text, telling.tell(rt.alloc(), text), want);
    }
}
