//! The state of an office whose writer fails, and offices that are reopened from its journal.

use crate::office::faulty::Faulty;
use crate::office::making::{base, ended, participant};
use lra_auditor::{Verdict, audit};
use lra_core::{Errand, Instance, Limits, Refusal, Told};
use lra_journal::whole;
use lra_model::{ActionStatus, Ending, Outcome, Rule, Uris, suits};
use lra_office::{Clerk, Desk, Office, OfficeRefusal, ReopenFault, StartFault};
use lra_ticket::Pass;
use std::alloc::Global;
use std::io::ErrorKind;
use std::sync::Wait;
use std::test::Fail;

/// Journal of the commands below: a header, and a line for each command. The last command has two.
const JOURNAL: &str =
    "lra-journal 2 7\n1 0 enrol\n1 10 start 1 * 0\n1 11 join 1 1 http://p.test/u http://p.test/c http://p.test/s * *\n1 12 join 2 1 http://q.test/u http://q.test/c * * *\n1 20 close 1 client\n1 21 ask 1 1 complete\n1 22 ask 2 2 complete\n1 23 reply 2 done\n1 24 reply 1 accepted\n1 30 report 1 done\n1 30 end 1 Closed\n";

/// Returns a writer with this room, one of whose calls fails.
fn writer_with(alloc: Global, room: usize, bad_call: u32) -> Faulty {
    Faulty {
        taken: Vec::new(alloc),
        room,
        piece: usize::MAX,
        bad_call,
        fault: Some(ErrorKind::Other),
        calls: 0,
    }
}

/// Answers to each command after the enrolment, and to a request for the status at the end, each as a letter.
///
/// `t` if the command was done, `S` if it was refused because the writer has failed, `x` if it was refused otherwise,
/// and `-` if there was nothing to do. The status is `a` for Active, `g` for Closing and `d` for Closed.
#[derive(Clone, Copy)]
struct Answers {
    letters: [u8; 10],
    count: usize,
}

impl Answers {
    /// Returns whether these are the expected answers if this many commands were done.
    fn are_of(&self, told: usize) -> bool {
        match ANSWERS.lines().nth(told) {
            Some(letters) => letters.as_bytes() == self.letters.as_slice(),
            None => false,
        }
    }

    fn new() -> Answers {
        Answers {
            letters: [b'-'; 10],
            count: 0,
        }
    }

    fn note(&mut self, letter: u8) {
        if let Some(place) = self.letters.get_mut(self.count) {
            *place = letter;
            self.count = self.count.saturating_add(1);
        }
    }

    fn note_told(&mut self, answer: Result<Told, OfficeRefusal>) {
        match answer {
            Ok(Told::ActionIs(status)) => self.note(status_letter(status)),
            Ok(_) => self.note(b't'),
            Err(fault) => self.note(refusal_letter(fault)),
        }
    }
}

fn status_letter(status: ActionStatus) -> u8 {
    match status {
        ActionStatus::Active => b'a',
        ActionStatus::Closing => b'g',
        ActionStatus::Closed => b'd',
        _ => b'?',
    }
}

fn refusal_letter(fault: OfficeRefusal) -> u8 {
    if fault == OfficeRefusal::Refused(Refusal::Stopped) {
        b'S'
    } else {
        b'x'
    }
}

/// Expected answers, by how many of all ten commands were done, the enrolment among them. The command whose text
/// doesn't fit is refused as stopped, and so is each later one that would write. A command that is refused anyhow, or
/// writes nothing, has its usual answer. The first line is for no command.
const ANSWERS: &str = "\
----------
Sxxx----xx
tSSS----xa
ttSS----xa
tttS----xa
ttttSS--xg
tttttS-SSg
ttttttSSSg
tttttttSSg
ttttttttSg
tttttttttd";

/// Asks for the next errand that is due.
fn ask<R: Wait>(
    rt: &R,
    office: &Office<Faulty>,
    clerk: &mut Clerk<Desk<Faulty>>,
    moment: u64,
    answers: &mut Answers,
) -> Option<Errand> {
    match office.next_ask(rt, clerk, moment) {
        Ok(errand) => {
            answers.note(if errand.is_some() { b't' } else { b'-' });
            errand
        }
        Err(fault) => {
            answers.note(refusal_letter(fault));
            None
        }
    }
}

/// Records the outcome of an ask, if there was one.
fn record<R: Wait>(
    rt: &R,
    office: &Office<Faulty>,
    clerk: &mut Clerk<Desk<Faulty>>,
    moment: u64,
    errand: Option<Errand>,
    outcome: Outcome,
    answers: &mut Answers,
) {
    let Some(errand) = errand else {
        answers.note(b'-');
        return;
    };
    if !suits(errand.kind(), outcome) {
        errand.discard();
        return;
    }
    match office.record(rt, clerk, moment, errand, outcome) {
        Ok(_) => answers.note(b't'),
        Err((fault, errand)) => {
            errand.discard();
            answers.note(refusal_letter(fault));
        }
    }
}

/// Starts the action, lets both members join, and closes it.
fn give_orders<R: Wait>(
    rt: &R,
    office: &Office<Faulty>,
    clerk: &mut Clerk<Desk<Faulty>>,
    first: &Uris,
    second: &Uris,
    answers: &mut Answers,
) {
    answers.note_told(office.start(rt, clerk, 10, None, 0));
    answers.note_told(office.join(rt, clerk, 11, 1, first));
    answers.note_told(office.join(rt, clerk, 12, 1, second));
    answers.note_told(office.close(rt, clerk, 20, 1));
}

/// Asks both members, and records the outcomes.
fn ask_both<R: Wait>(
    rt: &R,
    office: &Office<Faulty>,
    clerk: &mut Clerk<Desk<Faulty>>,
    answers: &mut Answers,
) {
    let one = ask(rt, office, clerk, 21, answers);
    let two = ask(rt, office, clerk, 22, answers);
    record(rt, office, clerk, 23, two, Outcome::Done, answers);
    record(rt, office, clerk, 24, one, Outcome::Accepted, answers);
}

/// Gives the commands of the journal after the first, and then asks for a status.
fn give_all<R: Wait>(
    rt: &R,
    office: &Office<Faulty>,
    clerk: &mut Clerk<Desk<Faulty>>,
    first: &Uris,
    second: &Uris,
) -> Answers {
    let mut answers = Answers::new();
    give_orders(rt, office, clerk, first, second, &mut answers);
    ask_both(rt, office, clerk, &mut answers);
    answers.note_told(office.report(rt, clerk, 30, 1, Ending::Completed));
    answers.note_told(office.status(rt, clerk, 1));
    answers
}

/// Writer of an office, and the answers there. There are none if the clerk's enrolment was stopped.
type Ran = Option<(Faulty, Answers)>;

/// Gives the commands by a clerk, and shuts the office.
fn run_by<R: Wait>(
    rt: &R,
    office: Office<Faulty>,
    mut clerk: Clerk<Desk<Faulty>>,
    first: &Uris,
    second: &Uris,
) -> Result<Ran, Fail> {
    let answers = give_all(rt, &office, &mut clerk, first, second);
    Ok(Some(ended(office, clerk, answers)?))
}

/// Enrols the clerk, and gives the commands by it.
fn run_at<R: Wait>(
    rt: &R,
    office: Office<Faulty>,
    pass: Pass<Desk<Faulty>>,
    first: &Uris,
    second: &Uris,
) -> Result<Ran, Fail> {
    match office.clerk(rt, pass, 0) {
        Ok(clerk) => run_by(rt, office, clerk, first, second),
        Err((pass, fault)) => {
            drop(pass);
            drop(office);
            if fault == OfficeRefusal::Refused(Refusal::Stopped) {
                Ok(None)
            } else {
                Err("a clerk is enrolled, or stopped")?
            }
        }
    }
}

/// Makes the office, and gives the commands there.
fn run<R: Wait>(
    rt: &R,
    alloc: Global,
    first: &Uris,
    second: &Uris,
    writer: Faulty,
) -> Result<Ran, Fail> {
    let instance = Instance::new(7).ok_or("no instance")?;
    match Office::create(alloc, instance, base(alloc)?, Limits::usual(), writer) {
        Ok((office, pass)) => run_at(rt, office, pass, first, second),
        Err((StartFault::Stopped, Some(writer))) => Ok(Some((writer, Answers::new()))),
        Err(refused) => {
            drop(refused);
            Err("no memory")?
        }
    }
}

/// Counts the lines that end in these bytes.
fn count_lines(bytes: &[u8]) -> u32 {
    let mut lines = 0u32;
    for byte in bytes {
        if *byte == b'\n' {
            lines = lines.saturating_add(1);
        }
    }
    lines
}

/// Returns how many commands have all their lines among the first `lines`: the first line is the header, and the last
/// command has two.
fn fitting(lines: u32) -> usize {
    if lines == 12 {
        return 10;
    }
    lines.saturating_sub(1).min(9) as usize
}

/// Returns whether a writer with this room has exactly these bytes, and the answers are those of the commands that fit.
fn stops_in_time<R: Wait>(
    rt: &R,
    alloc: Global,
    first: &Uris,
    second: &Uris,
    room: usize,
) -> Result<bool, Fail> {
    let (front, _) = JOURNAL.as_bytes().split_at(room.min(JOURNAL.len()));
    let lines = count_lines(front);
    match run(rt, alloc, first, second, writer_with(alloc, room, 0))? {
        Some((writer, answers)) => {
            let is_front = writer.taken.as_slice() == front;
            drop(writer);
            Ok(is_front && answers.are_of(fitting(lines)))
        }
        None => Ok(lines == 1),
    }
}

/// Returns whether a writer isn't called again after its bad call, and has what was written before.
fn is_left_alone<R: Wait>(
    rt: &R,
    alloc: Global,
    first: &Uris,
    second: &Uris,
    bad_call: u32,
) -> Result<bool, Fail> {
    let writer = writer_with(alloc, JOURNAL.len(), bad_call);
    match run(rt, alloc, first, second, writer)? {
        Some((writer, answers)) => {
            let calls = writer.calls;
            let lines = count_lines(writer.taken.as_slice());
            let is_front = JOURNAL.as_bytes().starts_with(writer.taken.as_slice());
            drop(writer);
            let is_last = calls == bad_call && lines.saturating_add(1) == bad_call;
            Ok(is_front && is_last && answers.are_of(fitting(lines)))
        }
        None => Ok(bad_call == 2),
    }
}

/// Starts an action at an office that goes on from a journal, shuts the office, and returns what it has written.
fn started_at<R: Wait>(
    rt: &R,
    office: Office<Faulty>,
    mut clerk: Clerk<Desk<Faulty>>,
    moment: u64,
) -> Result<Vec<u8>, Fail> {
    let is_started = office.start(rt, &mut clerk, moment, None, 0).is_ok();
    let (writer, is_started) = ended(office, clerk, is_started)?;
    if is_started {
        Ok(writer.taken)
    } else {
        drop(writer);
        Err("an action can be started")?
    }
}

/// Reopens a journal's bytes and starts an action. Returns the fault, or the bytes that were written.
fn go_on<R: Wait>(
    rt: &R,
    alloc: Global,
    bytes: &[u8],
    moment: u64,
) -> Result<Result<Vec<u8>, ReopenFault>, Fail> {
    let journal = Vec::from_slice(alloc, bytes)?;
    let writer = writer_with(alloc, usize::MAX, 0);
    match Office::reopen(
        alloc,
        journal,
        base(alloc)?,
        Limits::usual(),
        writer,
        moment,
    ) {
        Ok((office, clerk)) => Ok(Ok(started_at(rt, office, clerk, moment)?)),
        Err((fault, writer)) => {
            drop(writer);
            Ok(Err(fault))
        }
    }
}

/// Returns whether a journal's lines, followed by what was written, are a sound journal.
fn is_sound(alloc: Global, lines: &[u8], written: &[u8]) -> Result<bool, Fail> {
    let mut journal = Vec::from_slice(alloc, lines)?;
    journal.extend_from_slice(written)?;
    Ok(matches!(audit(alloc, journal.as_slice())?, Verdict::Sound(_)))
}

/// Returns whether this many bytes of the journal are reopened exactly if they contain its header, and what is written
/// then makes a sound journal.
fn reopens<R: Wait>(rt: &R, alloc: Global, room: usize) -> Result<bool, Fail> {
    let (front, _) = JOURNAL.as_bytes().split_at(room.min(JOURNAL.len()));
    match go_on(rt, alloc, front, 31)? {
        Ok(written) => {
            let (lines, _) = front.split_at(whole(front));
            Ok(room >= 16 && is_sound(alloc, lines, written.as_slice())?)
        }
        Err(fault) => {
            let line = 1;
            let rule = Rule::Header;
            Ok(room < 16 && fault == ReopenFault::Unsound { line, rule })
        }
    }
}

/// Returns the first room at which reopening has an unexpected result.
fn first_unsound<R: Wait>(rt: &R, alloc: Global) -> Result<Option<usize>, Fail> {
    for room in 0..JOURNAL.len() + 1 {
        if !reopens(rt, alloc, room)? {
            return Ok(Some(room));
        }
    }
    Ok(None)
}

/// Returns whether a journal is sound, and an office that is reopened from it writes these lines.
fn goes_on_by<R: Wait>(
    rt: &R,
    alloc: Global,
    journal: &str,
    moment: u64,
    lines: &str,
) -> Result<bool, Fail> {
    match go_on(rt, alloc, journal.as_bytes(), moment)? {
        Ok(written) => {
            let is_wanted = written.as_slice() == lines.as_bytes();
            drop(written);
            Ok(is_wanted)
        }
        Err(_) => Ok(false),
    }
}

/// Journal whose last block lacks its end, and has a torn line.
const TORN: &str =
    "lra-journal 1 7\n1 0 enrol\n1 0 start 1 * 0\n1 1 join 1 1 http://p.test/u * * * *\n1 2 close 1 client\n1 2 sk";

/// Returns whether the torn journal is refused before the writer is called if only seven entries fit.
fn is_full(alloc: Global) -> Result<bool, Fail> {
    let journal = Vec::from_slice(alloc, TORN.as_bytes())?;
    let limits = Limits {
        entries: 7,
        ..Limits::usual()
    };
    let writer = writer_with(alloc, usize::MAX, 0);
    match Office::reopen(alloc, journal, base(alloc)?, limits, writer, 9) {
        Err((ReopenFault::Full, Some(writer))) => Ok(writer.calls == 0),
        other => {
            drop(other);
            Ok(false)
        }
    }
}

/// Returns the first room, or the first bad call, at which the commands have an unexpected result.
fn first_astray<R: Wait>(
    rt: &R,
    alloc: Global,
    first: &Uris,
    second: &Uris,
) -> Result<Option<usize>, Fail> {
    for room in 0..JOURNAL.len() + 1 {
        if !stops_in_time(rt, alloc, first, second, room)? {
            return Ok(Some(room));
        }
    }
    for bad_call in 1..12u32 {
        if !is_left_alone(rt, alloc, first, second, bad_call)? {
            return Ok(Some(bad_call as usize));
        }
    }
    Ok(None)
}

#[test]
fn a_writer_that_fails_is_called_no_more(rt: HostRuntime) -> Result<(), Fail> {
    let first = participant(rt.alloc(), "http://p.test", true)?;
    let second = participant(rt.alloc(), "http://q.test", false)?;
    let astray = first_astray(&rt, rt.alloc(), &first, &second)?;
    assert!(rt; astray.is_none());
    Ok(())
}

/// Returns whether reopening adds the end that a torn journal lacks, and the end that a journal without its last line
/// lacks.
fn lacking_ends_are_added<R: Wait>(rt: &R, alloc: Global) -> Result<bool, Fail> {
    let torn = "2 9 enrol\n2 9 skip 1\n2 9 end 1 Closed\n2 9 restart\n2 9 start 2 * 0\n";
    let is_mended = goes_on_by(rt, alloc, TORN, 9, torn)?;
    let unended = JOURNAL
        .strip_suffix("1 30 end 1 Closed\n")
        .ok_or("it has an end")?;
    let lines = "2 40 enrol\n2 40 end 1 Closed\n2 40 restart\n2 40 start 2 * 0\n";
    Ok(goes_on_by(rt, alloc, unended, 40, lines)? && is_mended)
}

#[test]
fn a_journal_is_reopened_from_whatever_whole_lines_are_left(rt: HostRuntime) -> Result<(), Fail> {
    let unsound = first_unsound(&rt, rt.alloc())?;
    assert!(rt; unsound.is_none(), "of {unsound:?}");
    assert!(rt; lacking_ends_are_added(&rt, rt.alloc())?);
    assert!(rt; is_full(rt.alloc())?);
    Ok(())
}
