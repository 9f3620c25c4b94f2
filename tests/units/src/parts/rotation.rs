//! Tests of one rotation, from a full journal on.

use lra_rotation::{
    FoundJournals, NewWork, Observation, Rotation, RotationAction, RotationDriver,
    RotationSettings, StepResult, step,
};
use std::alloc::Global;

/// Driver whose disk works, or doesn't.
#[derive(Drop)]
struct Disk {
    works: bool,
}

impl RotationDriver for Disk {
    fn perform(&mut self, _action: RotationAction) -> bool {
        self.works
    }
}

/// Returns the rotation of a folder of one journal, 5.
fn opened(alloc: Global, drains: bool) -> Option<Rotation> {
    let mut journals = Vec::new(alloc);
    journals.push(5).ok()?;
    let found = FoundJournals {
        newest: 5,
        first: 0,
        journals,
        prepared: Vec::new(alloc),
        ended: Vec::new(alloc),
    };
    let settings = RotationSettings {
        site: 0,
        remember: 10,
        rolls: true,
        drains,
    };
    Rotation::open(alloc, settings, found, &[]).ok()
}

/// Returns observations of two journals: the first is full, and done or not, and waits or not; the second is new.
fn observed(is_settled: bool, is_waiting: bool) -> [Observation; 2] {
    let first = Observation {
        instance: 5,
        is_full: true,
        is_near_end: false,
        is_settled,
        is_free: true,
        is_waiting,
        quiet: 10,
    };
    let second = Observation {
        instance: 100,
        is_full: false,
        is_near_end: false,
        is_settled,
        is_free: false,
        is_waiting: false,
        quiet: 10,
    };
    [first, second]
}

/// Returns whether steps, one after the other, have the results that are expected.
fn steps(
    rotation: &mut Rotation,
    works: bool,
    observations: &[Observation],
    expected: &[StepResult],
) -> bool {
    let mut disk = Disk { works };
    for result in expected {
        if step(rotation, &mut disk, 100, true, observations) != *result {
            return false;
        }
    }
    true
}

/// Follows the set that is served. Returns whether the worker was behind before, and begins new work in a journal then.
fn follows(rotation: &mut Rotation, journal: NewWork) -> Option<bool> {
    let was_behind = rotation.answers(1) == NewWork::Behind;
    let version = rotation.version();
    let has_followed = rotation.follow(1, version).ok()?;
    Some(was_behind && has_followed && rotation.answers(1) == journal)
}

/// Rotates to the journal 100, which is prepared, and prepares the next one.
fn rotates(rotation: &mut Rotation) -> bool {
    steps(
        rotation,
        true,
        &observed(false, false),
        &[
            StepResult::Done(RotationAction::Note(100)),
            StepResult::Done(RotationAction::Prepare(100)),
            StepResult::Done(RotationAction::Name(100)),
            StepResult::Done(RotationAction::Switch(100)),
            StepResult::Done(RotationAction::Note(101)),
            StepResult::Done(RotationAction::Prepare(101)),
            StepResult::Nothing,
        ],
    )
}

/// Returns whether a journal is archived once its worker follows the set without it, after a failure and its pause.
fn archives(alloc: Global) -> Option<bool> {
    let mut rotation = opened(alloc, false)?;
    let begins = follows(&mut rotation, NewWork::Accepted(5))?;
    let rolls = rotates(&mut rotation);
    let set = rotation.set(alloc).ok()?;
    let has_both = set.as_slice() == [5, 100].as_slice();
    let goes_on = follows(&mut rotation, NewWork::Accepted(100))?;
    let withdraws = steps(
        &mut rotation,
        true,
        &observed(true, false),
        &[
            StepResult::Done(RotationAction::Withdraw(5)),
            StepResult::Nothing,
        ],
    );
    let has_left = follows(&mut rotation, NewWork::Accepted(100))?;
    let fails = steps(
        &mut rotation,
        false,
        &observed(true, false),
        &[StepResult::Failed(RotationAction::Archive(5))],
    );
    let waits = steps(
        &mut rotation,
        true,
        &observed(true, true),
        &[StepResult::Nothing],
    );
    let ends = steps(
        &mut rotation,
        true,
        &observed(true, false),
        &[
            StepResult::Done(RotationAction::Archive(5)),
            StepResult::Nothing,
        ],
    );
    rotation.refuse(1);
    let refuses = rotation.answers(1) == NewWork::Behind
        && rotation.new_work() == NewWork::Accepted(100);
    Some(
        begins
            && rolls
            && has_both
            && goes_on
            && withdraws
            && has_left
            && fails
            && waits
            && ends
            && refuses,
    )
}

/// Returns whether a service that drains ends, though a journal of it can't be withdrawn.
fn drains(alloc: Global) -> Option<bool> {
    let mut rotation = opened(alloc, true)?;
    let rolls = rotates(&mut rotation);
    let fails = steps(
        &mut rotation,
        false,
        &observed(true, false),
        &[
            StepResult::Failed(RotationAction::Withdraw(5)),
            StepResult::Failed(RotationAction::Withdraw(5)),
        ],
    );
    let ends = steps(
        &mut rotation,
        true,
        &observed(true, true),
        &[StepResult::Done(RotationAction::End), StepResult::Nothing],
    );
    Some(rolls && fails && ends && rotation.new_work() == NewWork::Over)
}

#[test]
fn a_journal_is_archived_once_its_worker_has_left_it(rt: HostRuntime) {
    assert!(rt; archives(rt.alloc()) == Some(true));
}

#[test]
fn a_service_that_drains_ends_though_a_journal_stays(rt: HostRuntime) {
    assert!(rt; drains(rt.alloc()) == Some(true));
}
