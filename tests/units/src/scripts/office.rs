//! The scripts of a coordinator, given to an office by a clerk.
//!
//! Each script is also run with one allocation failing in turn. A command that is refused memory changes nothing, and
//! has the script's answer when it is given again.

use crate::scripts::answers::{put_answer, put_known, put_next};
use crate::scripts::coordinator::base;
use crate::scripts::errands::Errands;
use crate::scripts::rows::{REOPENED, SCRIPTS};
use crate::scripts::same::assert_same;
use crate::scripts::words::{Words, asks, parted, uris};
use lra_commands::{Order, Query};
use lra_core::{Errand, Instance, Limits, Refusal, Told};
use lra_model::{Outcome, suits};
use lra_office::{Clerk, Desk, LockedService, Office, OfficeOf, OfficeRefusal, ReopenFault};
use lra_ticket::Pass;
use std::alloc::{AllocError, Global};
use std::io::{self, Write};
use std::process::Abort;
use std::sync::{Mutex, Wait};

/// Most bytes of a script's text.
const ROOM: usize = 8_192;

const NO_MEMORY: OfficeRefusal = OfficeRefusal::Refused(Refusal::Memory);

/// State that refused memory mustn't change: the length of the journal, which only grows, and the statuses of the first
/// actions and members.
type Seen = (usize, [Option<Told>; 4]);

/// Writer in memory whose bytes can be read while an office has it.
#[derive(Drop)]
struct Shared<'a, R> {
    rt: &'a R,
    taken: &'a Mutex<Vec<u8>>,
}

impl<R: Wait> Write for Shared<'_, R> {
    fn write(&mut self, buf: &[u8]) -> io::Result<usize> {
        self.taken.lock(self.rt).extend_from_slice(buf)?;
        Ok(buf.len())
    }

    fn flush(&mut self) -> io::Result<()> {
        Ok(())
    }
}

/// Clerk that gives the commands of a script to its office.
#[derive(Drop)]
struct Player<'a, V: LockedService, R> {
    rt: &'a R,
    alloc: Global,
    office: OfficeOf<V>,
    clerk: Clerk<V>,
    /// Text that the office's writer has accepted.
    journal: &'a Mutex<Vec<u8>>,
    held: Errands,
    /// Commands, each with its answer.
    text: &'a mut Vec<u8>,
}

impl<V: LockedService, R: Wait> Player<'_, V, R> {
    /// Reserves room for the text of a script, so that writing it takes no memory.
    fn make_room(&mut self) -> Result<(), AllocError> {
        self.held.make_room()?;
        self.text.reserve(ROOM)
    }

    /// Gives the commands of a script. It stops at a line that is no command, and at one that changed something when it
    /// was refused memory.
    fn play(&mut self, script: &str) -> Option<()> {
        if self.make_room().is_err() {
            self.make_room().ok()?;
        }
        for line in script.lines() {
            if is_given(line) {
                self.give_line(line)?;
            }
        }
        Some(())
    }

    /// Gives the command of a line, and writes its answer.
    fn give_line(&mut self, line: &str) -> Option<()> {
        let (command, _) = line.split_once(" -> ")?;
        write!(self.text, "{command} -> ").ok()?;
        self.give(command)
    }

    fn give(&mut self, line: &str) -> Option<()> {
        let mut words = Words { left: line };
        let first = words.next();
        if first == "discard" {
            return self.discard(words.number()?);
        }
        if asks(first) {
            return self.query(words.query(first)?);
        }
        if first == "next" {
            return self.next_moment();
        }
        let moment = words.number()?;
        self.give_at(moment, words)
    }

    /// Gives the clerk's command.
    fn give_at(&mut self, moment: u64, mut words: Words<'_>) -> Option<()> {
        let verb = words.next();
        if verb == "ask" {
            return self.ask(moment);
        }
        if verb == "reply" {
            return self.reply(moment, words);
        }
        if verb == "join" {
            let action = words.number()?;
            return self.join(moment, action, words.left);
        }
        self.order(moment, &words.order(verb)?)
    }

    fn reply(&mut self, moment: u64, mut words: Words<'_>) -> Option<()> {
        let ask = words.number()?;
        let outcome = Outcome::from_name(words.next().as_bytes())?;
        self.record(moment, ask, outcome)
    }

    /// Returns the state that refused memory mustn't change.
    fn seen(&mut self) -> Seen {
        let statuses = [
            self.office.status(self.rt, &mut self.clerk, 1).ok(),
            self.office.status(self.rt, &mut self.clerk, 2).ok(),
            self.office.member_status(self.rt, &mut self.clerk, 1).ok(),
            self.office.member_status(self.rt, &mut self.clerk, 2).ok(),
        ];
        (self.journal.lock(self.rt).len(), statuses)
    }

    /// Returns whether refused memory has changed nothing.
    fn is_as(&mut self, seen: Seen) -> bool {
        self.seen() == seen
    }

    /// Lets a member join.
    fn join(&mut self, moment: u64, action: u64, addresses: &str) -> Option<()> {
        let uris = uris(self.alloc, addresses)?;
        let order = Order::Join {
            action,
            uris: &uris,
        };
        let done = self.order(moment, &order);
        drop(uris);
        done
    }

    /// Gives an order, twice if memory was refused.
    fn order(&mut self, moment: u64, order: &Order<'_>) -> Option<()> {
        let seen = self.seen();
        let mut answer = named(self.rt, &self.office, &mut self.clerk, moment, order);
        if answer == Err(NO_MEMORY) {
            if !self.is_as(seen) {
                return None;
            }
            answer = named(self.rt, &self.office, &mut self.clerk, moment, order);
        }
        put(answer, self.text)
    }

    /// Makes a query, and writes its answer.
    fn query(&mut self, query: Query) -> Option<()> {
        match self.office.query(self.rt, &mut self.clerk, query) {
            Ok(known) => put_known(Ok(known), self.text),
            Err(refusal) => put(Err(refusal), self.text),
        }
    }

    /// Asks when something is due first, and writes the answer.
    fn next_moment(&mut self) -> Option<()> {
        match self.office.next_moment(self.rt, &mut self.clerk) {
            Ok(next) => put_next(next, self.text),
            Err(refusal) => put(Err(refusal), self.text),
        }
    }

    /// Asks for the next errand, twice if memory was refused.
    fn asked(&mut self, moment: u64) -> Result<Option<Errand>, OfficeRefusal> {
        let seen = self.seen();
        match self.office.next_ask(self.rt, &mut self.clerk, moment) {
            Err(NO_MEMORY) if self.is_as(seen) => {
                self.office.next_ask(self.rt, &mut self.clerk, moment)
            }
            asked => asked,
        }
    }

    /// Asks for the next errand, and holds it.
    fn ask(&mut self, moment: u64) -> Option<()> {
        match self.asked(moment) {
            Err(refusal) => put(Err(refusal), self.text),
            Ok(None) => put(Ok(Told::Idle), self.text),
            Ok(Some(errand)) => self.held.hold(errand, self.text),
        }
    }

    fn discard(&mut self, ask: u64) -> Option<()> {
        self.held.discard(ask)?;
        writeln!(self.text, "discarded").ok()
    }

    /// Records the outcome of an ask, twice if memory was refused. An errand that is handed back stays held.
    fn record(&mut self, moment: u64, ask: u64, outcome: Outcome) -> Option<()> {
        let seen = self.seen();
        let mut answer = self.record_once(moment, ask, outcome)?;
        if answer == Err(NO_MEMORY) {
            if !self.is_as(seen) {
                return None;
            }
            answer = self.record_once(moment, ask, outcome)?;
        }
        put(answer, self.text)
    }

    fn record_once(
        &mut self,
        moment: u64,
        ask: u64,
        outcome: Outcome,
    ) -> Option<Result<Told, OfficeRefusal>> {
        let errand = self.held.take(ask)?;
        if !suits(errand.kind(), outcome) {
            errand.discard();
            return None;
        }
        match self
            .office
            .record(self.rt, &mut self.clerk, moment, errand, outcome)
        {
            Ok(told) => Some(Ok(told)),
            Err((refusal, errand)) => {
                self.held.hold_again(errand)?;
                Some(Err(refusal))
            }
        }
    }
}

/// Writes an answer. Returns none if the lock is worn.
fn put(answer: Result<Told, OfficeRefusal>, text: &mut Vec<u8>) -> Option<()> {
    match answer {
        Ok(told) => put_answer(Ok(told), text),
        Err(OfficeRefusal::Refused(refusal)) => put_answer(Err(refusal), text),
        Err(OfficeRefusal::Worn) => None,
    }
}

/// Gives an order by the method of its name.
fn named<V: LockedService, R: Wait>(
    rt: &R,
    office: &OfficeOf<V>,
    clerk: &mut Clerk<V>,
    moment: u64,
    order: &Order<'_>,
) -> Result<Told, OfficeRefusal> {
    match *order {
        Order::Start { parent, limit } => office.start(rt, clerk, moment, parent, limit),
        Order::Join { action, uris } => office.join(rt, clerk, moment, action, uris),
        Order::Leave { action, member } => office.leave(rt, clerk, moment, action, member),
        Order::Close { action } => office.close(rt, clerk, moment, action),
        Order::Cancel { action } => office.cancel(rt, clerk, moment, action),
        Order::Tick => office.tick(rt, clerk, moment),
        Order::Report { member, ending } => office.report(rt, clerk, moment, member, ending),
        Order::Restart => office.restart(rt, clerk, moment),
        Order::Renew { action, limit } => office.renew(rt, clerk, moment, action, limit),
        Order::Status { action } => office.status(rt, clerk, action),
        Order::MemberStatus { member } => office.member_status(rt, clerk, member),
    }
}

/// Returns whether a line of a script is a command that the clerk gives, or discards an errand, or is a query.
fn is_given(line: &str) -> bool {
    line.starts_with("1 ")
        || line.starts_with("discard ")
        || line.starts_with("next ")
        || asks(parted(line, " ").0)
}

/// Writes the expected texts of a script: the commands that are given, with their answers; and the journal, which is a
/// header and the lines that they append.
fn put_wanted(
    script: &str,
    answers: &mut Vec<u8>,
    journal: &mut Vec<u8>,
) -> Result<(), AllocError> {
    journal.extend_from_slice(b"lra-journal 2 7\n")?;
    for line in script.lines() {
        if is_given(line) {
            answers.extend_from_slice(line.as_bytes())?;
            answers.push(b'\n')?;
        }
        if let Some(appended) = line.strip_prefix("+ ") {
            journal.extend_from_slice(appended.as_bytes())?;
            journal.push(b'\n')?;
        }
    }
    Ok(())
}

/// Returns an empty text with room for a script's text, so that writing it takes no memory.
fn room(alloc: Global) -> Vec<u8> {
    let mut room = Vec::new(alloc);
    if room.reserve(ROOM).is_err() {
        let _ = room.reserve(ROOM);
    }
    room
}

/// Enrols the first clerk of an office, twice if memory was refused.
fn enrolled<V: LockedService, R: Wait>(
    rt: &R,
    office: &OfficeOf<V>,
    pass: Pass<V>,
    moment: u64,
) -> Option<Clerk<V>> {
    match office.clerk(rt, pass, moment) {
        Ok(clerk) => Some(clerk),
        Err((pass, NO_MEMORY)) => office.clerk(rt, pass, moment).ok(),
        Err(_) => None,
    }
}

/// Plays a script by a clerk, and returns its office and the clerk.
fn given<V: LockedService, R: Wait>(
    mut player: Player<'_, V, R>,
    script: &str,
) -> (OfficeOf<V>, Clerk<V>) {
    let _ = player.play(script);
    let Player {
        rt: _,
        alloc: _,
        office,
        clerk,
        journal: _,
        held,
        text: _,
    } = player;
    drop(held);
    (office, clerk)
}

/// Shuts an office by its clerk, and drops what is left of it.
fn shut<W: Write + Drop>(office: Office<W>, clerk: Clerk<Desk<W>>) {
    match office.shut(clerk) {
        Ok((coordinator, scribe)) => {
            drop(coordinator);
            drop(scribe);
        }
        Err((office, clerk)) => {
            drop(office);
            drop(clerk);
        }
    }
}

/// Returns the moment of a script's first line, which enrols its clerk.
fn enrolment(script: &str) -> Option<u64> {
    let mut words = Words { left: script };
    words.next();
    words.number()
}

/// Plays a script at an office, whose first clerk enrols at this moment. Appends the commands and their answers to a
/// text.
fn play_at<W: Write + Drop, R: Wait>(
    rt: &R,
    alloc: Global,
    office: Office<W>,
    pass: Pass<Desk<W>>,
    moment: u64,
    script: &str,
    journal: &Mutex<Vec<u8>>,
    text: &mut Vec<u8>,
) {
    match enrolled(rt, &office, pass, moment) {
        Some(clerk) => {
            let player = Player {
                rt,
                alloc,
                office,
                clerk,
                journal,
                held: Errands::new(alloc),
                text,
            };
            let (office, clerk) = given(player, script);
            shut(office, clerk);
        }
        None => drop(office),
    }
}

/// Plays a script at a new office. Returns none if no office could be made.
fn play_once<R: Wait>(
    rt: &R,
    alloc: Global,
    script: &str,
    journal: &Mutex<Vec<u8>>,
    text: &mut Vec<u8>,
) -> Option<()> {
    let moment = enrolment(script)?;
    let instance = Instance::new(7)?;
    let base = base(alloc)?;
    let writer = Shared { rt, taken: journal };
    match Office::create(alloc, instance, base, Limits::usual(), writer) {
        Ok((office, pass)) => {
            play_at(rt, alloc, office, pass, moment, script, journal, text);
            Some(())
        }
        Err((_, writer)) => {
            drop(writer);
            None
        }
    }
}

/// Plays a script at a new office, and returns the bytes that its writer has accepted. It tries again if no office
/// could be made.
fn play<R: Wait>(rt: &R, alloc: Global, script: &str, text: &mut Vec<u8>) -> Vec<u8> {
    let journal = Mutex::new(room(alloc));
    if play_once(rt, alloc, script, &journal, text).is_none() {
        journal.lock(rt).clear();
        play_once(rt, alloc, script, &journal, text);
    }
    journal.into_inner()
}

/// Asserts that a script has the answers and the lines that it says.
fn assert_script<R: Abort + Wait>(rt: &R, alloc: Global, script: &str) {
    let mut text = room(alloc);
    let taken = play(rt, alloc, script, &mut text);
    let (mut answers, mut lines) = (room(alloc), room(alloc));
    let is_put = put_wanted(script, &mut answers, &mut lines).is_ok();
    assert!(rt; is_put);
    assert_same(rt, text.as_slice(), answers.as_slice());
    assert_same(rt, taken.as_slice(), lines.as_slice());
}

#[test]
fn scripts_come_to_what_they_say(rt: HostRuntime) {
    for script in SCRIPTS.split('|') {
        assert_script(&rt, rt.alloc(), script);
    }
}

/// Journal that an office goes on from at a moment, and the text that is written then.
#[derive(Clone, Copy)]
struct Reopening<'a> {
    moment: u64,
    journal: &'a str,
    written: &'a str,
}

/// Returns a word for a renewal's refusal.
fn refusal_word(renewed: Result<Told, OfficeRefusal>) -> &'static str {
    match renewed {
        Ok(_) => "not refused",
        Err(OfficeRefusal::Refused(refusal)) => refusal.name(),
        Err(OfficeRefusal::Worn) => "worn",
    }
}

/// Reopens an office and returns a word for the refusal of a renewal there, or none if memory was refused.
fn goes_on<R: Wait>(
    rt: &R,
    alloc: Global,
    row: Reopening<'_>,
    taken: &Mutex<Vec<u8>>,
) -> Option<&'static str> {
    let journal = Vec::from_slice(alloc, row.journal.as_bytes()).ok()?;
    let Some(base) = base(alloc) else {
        drop(journal);
        return None;
    };
    let writer = Shared { rt, taken };
    match Office::reopen(alloc, journal, base, Limits::usual(), writer, row.moment) {
        Ok((office, mut clerk)) => {
            let renewed = office.renew(rt, &mut clerk, row.moment, 1, 5);
            shut(office, clerk);
            Some(refusal_word(renewed))
        }
        Err((fault, writer)) => {
            let is_starved = fault == ReopenFault::Memory && writer.is_none();
            drop(writer);
            if is_starved {
                None
            } else {
                Some("not reopened")
            }
        }
    }
}

/// Removes the bytes that were written before memory was refused. Returns whether these were none, or all.
fn take_back<R: Wait>(rt: &R, taken: &Mutex<Vec<u8>>, written: &str) -> bool {
    let mut before = taken.lock(rt);
    let is_part = !before.is_empty() && before.as_slice() != written.as_bytes();
    before.clear();
    drop(before);
    !is_part
}

/// Returns a word for the refusal of a renewal at a reopened office, and tries again if memory was refused. The first
/// try may have written nothing, or all.
fn goes_on_twice<R: Wait>(
    rt: &R,
    alloc: Global,
    row: Reopening<'_>,
    taken: &Mutex<Vec<u8>>,
) -> &'static str {
    if let Some(word) = goes_on(rt, alloc, row, taken) {
        return word;
    }
    if !take_back(rt, taken, row.written) {
        return "a part was written";
    }
    goes_on(rt, alloc, row, taken).unwrap_or("memory is refused twice")
}

/// Asserts that a journal that is reopened has the refusal and the text of its row.
fn assert_reopened<R: Abort + Wait>(rt: &R, alloc: Global, row: Reopening<'_>, wanted: &str) {
    let taken = Mutex::new(room(alloc));
    let word = goes_on_twice(rt, alloc, row, &taken);
    let taken = taken.into_inner();
    assert!(rt; word == wanted, "{word}");
    assert_same(rt, taken.as_slice(), row.written.as_bytes());
}

/// Parses a row: a reopening, and the word for the expected refusal of the renewal.
fn reopened_by(row: &str) -> Option<(Reopening<'_>, &str)> {
    let (line, row) = parted(row, "\n");
    let (moment, wanted) = parted(line, " ");
    let (journal, written) = parted(row, ">");
    let moment = (Words { left: moment }).number()?;
    let row = Reopening {
        moment,
        journal,
        written,
    };
    Some((row, wanted))
}

#[test]
fn a_journal_is_gone_on_from_in_its_version(rt: HostRuntime) {
    for row in REOPENED.split('|') {
        let reopening = reopened_by(row);
        assert!(rt; reopening.is_some());
        if let Some((row, wanted)) = reopening {
            assert_reopened(&rt, rt.alloc(), row, wanted);
        }
    }
}
