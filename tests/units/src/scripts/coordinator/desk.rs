//! A coordinator that is given a script of commands, line by line. The answer and lines of each are written as text.

use crate::scripts::answers::{put_answer, put_known, put_next};
use crate::scripts::errands::Errands;
use crate::scripts::spelling::spell_entries;
use crate::scripts::words::{Words, asks, uris};
use lra_auditor::{Summary, Verdict, check};
use lra_commands::{Order, Query};
use lra_core::{Command, Coordinator, Errand, Prepared, Refusal, Told, Version};
use lra_model::{Entry, Memory, Outcome, suits};
use std::alloc::{AllocError, Global};
use std::io::{self, Write};
use std::str::from_utf8;

/// Most bytes of a script's text.
const ROOM: usize = 32_768;

/// State that refused memory mustn't change, beside the entries: the statuses of the first actions and members.
type Kept = [Option<Told>; 4];

/// Coordinator, the errands that it handed out, and the text of its commands.
#[derive(Drop)]
struct Desk<'a> {
    alloc: Global,
    coordinator: &'a mut Coordinator,
    held: Errands,
    /// Text of the commands of a script, with their answers and lines.
    text: Vec<u8>,
    /// Lines that a command would append.
    lines: Vec<u8>,
    /// Lines of all entries so far.
    journal: Vec<u8>,
    /// Buffer in which the coordinator's entries are spelled, to compare them.
    spelled: Vec<u8>,
    /// Set once refused memory has changed something.
    has_changed: bool,
}

/// Gives a coordinator each command of a script. A script's lines are `COMMAND -> ANSWER`, or `+ ` and a line of the
/// journal. Returns the text of the commands: the script itself if all is as it says. The text ends at a line that is
/// no command.
pub fn played(alloc: Global, coordinator: &mut Coordinator, script: &str) -> Vec<u8> {
    let mut desk = Desk {
        alloc,
        coordinator,
        held: Errands::new(alloc),
        text: Vec::new(alloc),
        lines: Vec::new(alloc),
        journal: Vec::new(alloc),
        spelled: Vec::new(alloc),
        has_changed: false,
    };
    desk.play(script);
    desk.into_text()
}

impl Desk<'_> {
    /// Returns the text of the commands.
    fn into_text(self) -> Vec<u8> {
        let Desk { text, .. } = self;
        text
    }

    /// Reserves room for the texts of a script, so that writing them takes no memory.
    fn make_room(&mut self) -> Result<(), AllocError> {
        self.held.make_room()?;
        self.text.reserve(ROOM)?;
        self.lines.reserve(ROOM)?;
        self.journal.reserve(ROOM)?;
        self.spelled.reserve(ROOM)
    }

    /// Gives each command. One that is refused memory is given again. Adds a complaint if the entries at the end aren't
    /// those whose lines were written, or if refused memory changed something.
    fn play(&mut self, script: &str) {
        if self.make_room().is_err() && self.make_room().is_err() {
            return;
        }
        let is_spelled = spell_entries(self.coordinator, &mut self.journal).is_ok();
        if !is_spelled || self.give_all(script).is_none() {
            return;
        }
        if self.has_changed || !self.has_journal() {
            let _ = writeln!(
                self.text,
                "an entry or a status isn't as it was, or as it is to be"
            );
        }
    }

    fn give_all(&mut self, script: &str) -> Option<()> {
        for line in script.lines() {
            if !line.starts_with("+ ") {
                self.give_line(line)?;
            }
        }
        Some(())
    }

    /// Gives the command of a line, and writes its answer and lines.
    fn give_line(&mut self, line: &str) -> Option<()> {
        let (command, _) = line.split_once(" -> ")?;
        write!(self.text, "{command} -> ").ok()?;
        self.give(command)
    }

    fn give(&mut self, command: &str) -> Option<()> {
        let mut words = Words { left: command };
        let first = words.next();
        if first == "audit" {
            return self.audit(words.next());
        }
        if first == "errand" {
            return self.held.show(words.number()?, &mut self.text);
        }
        if first == "discard" {
            return self.discard(words.number()?);
        }
        if asks(first) {
            return self.query(words.query(first)?);
        }
        if first == "next" {
            return put_next(self.coordinator.next_moment(), &mut self.text);
        }
        self.give_by(first.parse().ok()?, words)
    }

    /// Gives the command of a clerk, or of 0 for no clerk.
    fn give_by(&mut self, by: u32, mut words: Words<'_>) -> Option<()> {
        let moment = words.number()?;
        let verb = words.next();
        if verb == "enrol" {
            return self.enrol(moment);
        }
        if verb == "ask" {
            return self.ask(by, moment);
        }
        if verb == "reply" {
            return self.reply(by, moment, words);
        }
        if verb == "join" {
            let action = words.number()?;
            return self.join(by, moment, action, words.left);
        }
        self.order(by, moment, &words.order(verb)?)
    }

    fn reply(&mut self, by: u32, moment: u64, mut words: Words<'_>) -> Option<()> {
        let ask = words.number()?;
        let outcome = Outcome::from_name(words.next().as_bytes())?;
        self.record(by, moment, ask, outcome)
    }

    /// Returns the state that refused memory mustn't change, beside the entries.
    fn kept(&self) -> Kept {
        [
            self.coordinator.status(1, 1).ok(),
            self.coordinator.status(1, 2).ok(),
            self.coordinator.member_status(1, 1).ok(),
            self.coordinator.member_status(1, 2).ok(),
        ]
    }

    /// Returns whether the entries are those whose lines were written.
    fn has_journal(&mut self) -> bool {
        self.spelled.clear();
        spell_entries(self.coordinator, &mut self.spelled).is_ok()
            && self.spelled.as_slice() == self.journal.as_slice()
    }

    /// Notes whether refused memory has changed something.
    fn look_back(&mut self, kept: Kept) {
        self.has_changed = self.has_changed || self.kept() != kept || !self.has_journal();
    }

    /// Writes an answer, and the lines that its command has appended.
    fn put_answer(&mut self, answer: Result<Told, Refusal>) -> Option<()> {
        put_answer(answer, &mut self.text)?;
        self.put_lines()
    }

    /// Writes the lines that a command has appended.
    fn put_lines(&mut self) -> Option<()> {
        put_lines(self.lines.as_slice(), &mut self.text)?;
        self.journal.extend_from_slice(self.lines.as_slice()).ok()?;
        self.lines.clear();
        Some(())
    }

    /// Keeps the lines that a command would append. It asks twice if memory was refused.
    fn look(&mut self, by: u32, moment: u64, command: &Command<'_>) {
        self.lines.clear();
        let kept = self.kept();
        if self.is_starved(by, moment, command) {
            self.look_back(kept);
            self.is_starved(by, moment, command);
        }
    }

    /// Keeps the lines that a command would append, and drops its block. Returns whether memory was refused.
    fn is_starved(&mut self, by: u32, moment: u64, command: &Command<'_>) -> bool {
        match self.coordinator.prepare(by, moment, command) {
            Ok(Prepared::Block(block)) => {
                if self.lines.extend_from_slice(block.text()).is_err() {
                    self.lines.clear();
                }
                drop(block);
                false
            }
            Ok(Prepared::Told(_)) => false,
            Err(refusal) => refusal == Refusal::Memory,
        }
    }

    fn enrol(&mut self, moment: u64) -> Option<()> {
        self.look(0, moment, &Command::Enrol);
        let kept = self.kept();
        let mut answer = self.coordinator.enrol(moment);
        if answer == Err(Refusal::Memory) {
            self.look_back(kept);
            answer = self.coordinator.enrol(moment);
        }
        self.put_answer(answer)
    }

    /// Lets a member join. Its addresses are read again if memory was refused.
    fn join(&mut self, by: u32, moment: u64, action: u64, addresses: &str) -> Option<()> {
        let uris = uris(self.alloc, addresses)?;
        let order = Order::Join {
            action,
            uris: &uris,
        };
        let done = self.order(by, moment, &order);
        drop(uris);
        done
    }

    /// Gives an order, twice if memory was refused.
    fn order(&mut self, by: u32, moment: u64, order: &Order<'_>) -> Option<()> {
        self.look(by, moment, &order.command());
        let kept = self.kept();
        let mut answer = named(self.coordinator, by, moment, order);
        if answer == Err(Refusal::Memory) {
            self.look_back(kept);
            answer = named(self.coordinator, by, moment, order);
        }
        self.put_answer(answer)
    }

    /// Makes a query, and writes its answer.
    fn query(&mut self, query: Query) -> Option<()> {
        put_known(self.coordinator.query(query), &mut self.text)
    }

    /// Asks for the next errand, twice if memory was refused.
    fn asked(&mut self, by: u32, moment: u64) -> Result<Option<Errand>, Refusal> {
        let kept = self.kept();
        match self.coordinator.next_ask(by, moment) {
            Err(Refusal::Memory) => {
                self.look_back(kept);
                self.coordinator.next_ask(by, moment)
            }
            asked => asked,
        }
    }

    /// Asks for the next errand, holds it, and writes what it is.
    fn ask(&mut self, by: u32, moment: u64) -> Option<()> {
        self.look(by, moment, &Command::NextAsk);
        match self.asked(by, moment) {
            Err(refusal) => self.put_answer(Err(refusal)),
            Ok(None) => self.put_answer(Ok(Told::Idle)),
            Ok(Some(errand)) => {
                self.held.hold(errand, &mut self.text)?;
                self.put_lines()
            }
        }
    }

    fn discard(&mut self, ask: u64) -> Option<()> {
        self.held.discard(ask)?;
        writeln!(self.text, "discarded").ok()
    }

    /// Records the outcome of an errand, twice if memory was refused.
    fn recorded(
        &mut self,
        by: u32,
        moment: u64,
        errand: Errand,
        outcome: Outcome,
    ) -> Result<Told, (Refusal, Errand)> {
        let kept = self.kept();
        match recorded(self.coordinator, by, moment, errand, outcome) {
            Err((Refusal::Memory, errand)) => {
                self.look_back(kept);
                recorded(self.coordinator, by, moment, errand, outcome)
            }
            answer => answer,
        }
    }

    /// Records the outcome of an ask, and writes the answer. An errand that is handed back stays held.
    fn record(&mut self, by: u32, moment: u64, ask: u64, outcome: Outcome) -> Option<()> {
        let errand = self.held.take(ask)?;
        self.look_at_record(by, moment, &errand, outcome);
        match self.recorded(by, moment, errand, outcome) {
            Ok(told) => self.put_answer(Ok(told)),
            Err((refusal, errand)) => {
                self.held.hold_again(errand)?;
                self.put_answer(Err(refusal))
            }
        }
    }

    /// Keeps the lines that a record would append.
    fn look_at_record(&mut self, by: u32, moment: u64, errand: &Errand, outcome: Outcome) {
        if suits(errand.kind(), outcome) {
            self.look(by, moment, &Command::Record { errand, outcome });
        }
    }

    /// Audits the history as that of a journal of this version, and writes the verdict.
    fn audit(&mut self, version: &str) -> Option<()> {
        let version = Version::from_name(version.as_bytes())?;
        let verdict = checked(self.alloc, version, self.coordinator.entries());
        let done = put_checked(&verdict, &mut self.text);
        drop(verdict);
        done
    }
}

/// Writes lines of the journal, each after `+ `.
fn put_lines(lines: &[u8], text: &mut Vec<u8>) -> Option<()> {
    for line in from_utf8(lines).ok()?.lines() {
        text.extend_from_slice(b"+ ").ok()?;
        text.extend_from_slice(line.as_bytes()).ok()?;
        text.push(b'\n').ok()?;
    }
    Some(())
}

/// Audits entries, twice if memory was refused, and returns the verdict.
fn checked(alloc: Global, version: Version, entries: &[Entry]) -> Result<Verdict, Memory> {
    match check(alloc, version, entries) {
        Err(_) => check(alloc, version, entries),
        checked => checked,
    }
}

fn put_checked(checked: &Result<Verdict, Memory>, text: &mut Vec<u8>) -> Option<()> {
    match checked {
        Ok(Verdict::Unsound { line, rule }) => {
            let rule = rule.name();
            writeln!(text, "unsound line {line} {rule}").ok()
        }
        Ok(Verdict::Sound(summary)) => put_summary(summary, text).ok(),
        Err(_) => None,
    }
}

fn put_summary(summary: &Summary, text: &mut Vec<u8>) -> io::Result<()> {
    let (entries, actions) = (summary.entries, summary.actions);
    let (unended, closed) = (summary.unended, summary.closed);
    let cancelled = summary.cancelled;
    write!(
        text,
        "sound {entries} entries {actions} actions {unended} unended"
    )?;
    write!(text, " {closed} closed {cancelled} cancelled")?;
    put_failed(summary, text)
}

fn put_failed(summary: &Summary, text: &mut Vec<u8>) -> io::Result<()> {
    for end in summary.failed.as_slice() {
        let (action, status, member) = (end.action, end.status.name(), end.member);
        write!(text, " failed {action} {status} {member}")?;
    }
    writeln!(text)
}

/// Records the outcome of an ask, if the outcome suits.
fn recorded(
    coordinator: &mut Coordinator,
    by: u32,
    moment: u64,
    errand: Errand,
    outcome: Outcome,
) -> Result<Told, (Refusal, Errand)> {
    if !suits(errand.kind(), outcome) {
        return Err((Refusal::NotAsked, errand));
    }
    coordinator.record(by, moment, errand, outcome)
}

/// Gives an order by the method of its name.
fn named(
    coordinator: &mut Coordinator,
    by: u32,
    moment: u64,
    order: &Order<'_>,
) -> Result<Told, Refusal> {
    match *order {
        Order::Start { parent, limit } => coordinator.start(by, moment, parent, limit),
        Order::Join { action, uris } => coordinator.join(by, moment, action, uris),
        Order::Leave { action, member } => coordinator.leave(by, moment, action, member),
        Order::Close { action } => coordinator.close(by, moment, action),
        Order::Cancel { action } => coordinator.cancel(by, moment, action),
        Order::Tick => coordinator.tick(by, moment),
        Order::Report { member, ending } => coordinator.report(by, moment, member, ending),
        Order::Restart => coordinator.restart(by, moment),
        Order::Renew { action, limit } => coordinator.renew(by, moment, action, limit),
        Order::Status { action } => coordinator.status(by, action),
        Order::MemberStatus { member } => coordinator.member_status(by, member),
    }
}
