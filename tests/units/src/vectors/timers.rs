//! The agenda and the pauses.
use crate::vectors::texts::assert_told;
use lra_timers::{Agenda, Memory, pause};
use std::alloc::Global;

// Sets retries. Some have the same moment, and one is set again.
fn set_retries(agenda: &mut Agenda) -> Result<(), Memory> {
    agenda.set_retry(7, 20)?;
    agenda.set_retry(3, 20)?;
    agenda.set_retry(9, 10)?;
    agenda.set_retry(u64::MAX, 10)?;
    agenda.set_retry(2, 5)?;
    agenda.set_retry(1, u64::MAX)?;
    agenda.set_retry(2, 30)
}

// Removes the members that are due at a moment, and writes them in their order.
fn take_due(agenda: &mut Agenda, now: u64, order: &mut String) -> Result<(), Memory> {
    for _ in 0..7u8 {
        if let Some(member) = agenda.next_retry(now) {
            agenda.drop_retry(member);
            write!(order, "{member} ")?;
        }
    }
    Ok(())
}

// Returns the members that are due at a moment, in their order.
fn due(alloc: Global, now: u64) -> Option<String> {
    let mut agenda = Agenda::new(alloc);
    let mut order = String::new(alloc);
    let is_set = set_retries(&mut agenda).is_ok();
    let is_taken = take_due(&mut agenda, now, &mut order).is_ok();
    drop(agenda);
    if is_set && is_taken {
        return Some(order);
    }
    drop(order);
    None
}

#[test]
fn the_first_moment_comes_first_and_then_the_least_number(rt: HostRuntime) {
    let (before, last) = (due(rt.alloc(), u64::MAX - 1), due(rt.alloc(), u64::MAX));
    assert_told(
        &rt,
        "the last moment but one",
        before,
        "9 18446744073709551615 3 7 2 ",
    );
    assert_told(
        &rt,
        "the last moment",
        last,
        "9 18446744073709551615 3 7 2 1 ",
    );
    assert_told(&rt, "an early moment", due(rt.alloc(), 9), "");
}

// Sets a limit. If a growth is refused the second try has memory.
fn set(agenda: &mut Agenda, action: u64, moment: u64) -> Result<(), Memory> {
    if agenda.set_limit(action, moment).is_err() {
        agenda.set_limit(action, moment)?;
    }
    Ok(())
}

fn make_room(agenda: &mut Agenda) -> Result<(), Memory> {
    if agenda.room(6).is_err() {
        agenda.room(6)?;
    }
    Ok(())
}

// Returns whether 40 limits that were set last one first come and go in their order.
fn come_in_order(agenda: &mut Agenda) -> Result<bool, Memory> {
    make_room(agenda)?;
    for n in 0..40u64 {
        set(agenda, n, 40 - n)?;
        if agenda.first_due(u64::MAX) != Some(n) {
            return Ok(false);
        }
    }
    for n in 0..40u64 {
        if agenda.first_due(40) != Some(39 - n) {
            return Ok(false);
        }
        agenda.drop_limit(39 - n);
    }
    Ok(agenda.first_due(u64::MAX).is_none())
}

#[test]
fn a_refused_growth_loses_no_moment(rt: HostRuntime) {
    let mut agenda = Agenda::new(rt.alloc());
    let are_in_order = come_in_order(&mut agenda);
    drop(agenda);
    assert!(rt; are_in_order == Ok(true));
}

// Returns whether this is the pause before the kth try.
fn is_pause(base: u64, cap: u64, k: u64, want: u64) -> bool {
    k >= 1 && pause(base, cap, k) == want
}

#[test]
fn a_pause_doubles_up_to_the_cap(rt: HostRuntime) {
    assert!(rt; is_pause(100, 60_000, 1, 100));
    assert!(rt; is_pause(100, 60_000, 2, 200));
    assert!(rt; is_pause(100, 60_000, 10, 51_200));
    assert!(rt; is_pause(100, 60_000, 11, 60_000));
    assert!(rt; is_pause(100, 50, 1, 50));
    assert!(rt; is_pause(0, 60_000, 70, 0));
    assert!(rt; is_pause(1, u64::MAX, 64, 1 << 63));
    assert!(rt; is_pause(3, u64::MAX, 64, u64::MAX));
    assert!(rt; is_pause(u64::MAX, u64::MAX, 2, u64::MAX));
}
