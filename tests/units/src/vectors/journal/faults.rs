//! The first misspelled line.

use super::*;

// Returns "whole" if a journal is read, or the text of the fault.
fn verdict(alloc: Global, bytes: &[u8]) -> Result<String, Memory> {
    match read_journal(alloc, bytes) {
        Ok((_, _, entries)) => {
            drop(entries);
            format!(in alloc; "whole")
        }
        Err(fault) => format!(in alloc; "{fault}"),
    }
}

// Line feeds are written as `;`.
const JOURNALS: &str = "\
; -> line 1 is misspelled
 -> line 1 is misspelled
lra-journal 1 7 -> line 1 is misspelled
lra-journal 3 7; -> line 1 is misspelled
1 0 enrol; -> line 1 is misspelled
lra-journal 1 7;1 0 enrol;1 0 start 1 * 0;1 5 close 1 client;1 5 end 1 Closed -> line 5 is misspelled
lra-journal 1 7;1 -> line 2 is misspelled
lra-journal 1 7;1 0 enrol;1 0 start 01 * 0; -> line 3 is misspelled
lra-journal 1 7;1 0 enrol;;1 0 start 1 * 0; -> line 3 is misspelled
lra-journal 1 7;; -> line 2 is misspelled
lra-journal 1 7;1 0 enrol;lra-journal 1 7; -> line 3 is misspelled
lra-journal 1 7;1 0 enrol;1 0 skip;1 0 leave 02; -> line 3 is misspelled
lra-journal 1 7;1 0 enrol;1 0 start 1 * 100;1 90 renew 1 100; -> line 4 is misspelled
lra-journal 2 7;1 0 enrol;1 0 start 1 * 100;1 90 renew 1 100; -> whole
lra-journal 1 7; -> whole
lra-journal 2 0; -> whole
lra-journal 1 7;1 0 start 1 * 0; -> whole
lra-journal 1 7;9 5 close 1 limit;8 4 end 0 Active; -> whole
";

#[derive(Clone, Copy)]
struct Verdicts;

impl Telling for Verdicts {
    fn tell(&self, alloc: Global, text: &str) -> Option<String> {
        let journal = text.replace(alloc, ';', "\n").ok()?;
        let verdict = verdict(alloc, journal.as_bytes());
        drop(journal);
        verdict.ok()
    }
}

#[test]
fn first_misspelled_lines(rt: HostRuntime) {
    assert_rows(&rt, &Verdicts, JOURNALS);
}
