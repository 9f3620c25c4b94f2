//! A callback that waits for its own journal.

use crate::callbacks::callbacks::{TIME_OUTS, carry_within};
use crate::callbacks::members::{listen, socket_at};
use crate::callbacks::setting::{End, Ready, errand, no_wakers};
use lra_callbacks::{Callbacks, Quota, SharedDnsCache, WorkerQuota, waker};
use lra_clocks::SystemClock;
use lra_courier::CallbackPool;
use lra_ids::Instance;
use lra_outcomes::Outcomes;
use lra_rules::Rules;
use std::alloc::Global;
use std::net::{Net, TcpListener, TcpStream};
use std::sync::Wait;
use std::sync::atomic::{AtomicU64, Ordering};
use std::time::{Clock, Duration};

/// Position of each errand.
const POSITION: u64 = 5;

/// Returns how many errands have an outcome while the journal is a byte too short, and how many once it is long enough.
fn come_of<R: Clock, C: CallbackPool>(
    rt: &R,
    callback_pool: &mut C,
    length: &AtomicU64,
) -> (u64, u64) {
    length.store(POSITION - 1, Ordering::SeqCst);
    let early = carry_within(rt, callback_pool, 1, Duration::from_millis(300));
    length.store(POSITION, Ordering::SeqCst);
    let late = carry_within(rt, callback_pool, 1, Duration::from_millis(900));
    (early.all(), late.all())
}

/// Gives the errand of a member at a port to a callback pool.
fn take<C: CallbackPool>(alloc: Global, callback_pool: &mut C, port: u16) -> Option<()> {
    let socket = socket_at(alloc, "127.0.0.1", port);
    let held = errand(alloc, socket.as_str(), End::Close);
    drop(socket);
    if let Err(errand) = callback_pool.take(held?.take()?, POSITION) {
        errand.discard();
        return None;
    }
    Some(())
}

/// Returns how many errands have an outcome, early and late. The callbacks belong to the journal of this instance, and
/// only the journal of instance 7 is durable.
fn waited<R>(rt: &R, alloc: Global, number: u64) -> Option<(u64, u64)>
where
    R: Wait + Clock + Net<Listener = TcpListener, Stream = TcpStream>,
{
    let (listener, port) = listen(rt).ok()?;
    drop(listener);
    let (poll, _waker) = waker(rt).ok()?;
    let group = Ready::up_to(0)?;
    let names = SharedDnsCache::new(alloc, None);
    let rules = Rules::none(alloc);
    let (under_way, least_pause) = (AtomicU64::new(0), AtomicU64::new(0));
    let quota = Quota::new(alloc, 1_024, 64);
    let wakers = no_wakers(alloc)?;
    let outcomes = Outcomes::new(alloc);
    let made = Callbacks::new(
        rt,
        alloc,
        &group,
        Instance::new(number)?,
        &names,
        &rules,
        poll,
        &quota,
        WorkerQuota::of(1, TIME_OUTS),
        &under_way,
        &least_pause,
        SystemClock::new(rt, 0),
        &wakers,
        0,
        &outcomes,
        None,
        None,
    );
    let Ok(mut callbacks) = made else {
        return None;
    };
    let came = match take(alloc, &mut callbacks, port) {
        Some(()) => Some(come_of(rt, &mut callbacks, &group.length)),
        None => None,
    };
    callbacks.end();
    came
}

#[test]
fn a_callback_waits_until_its_journal_is_long_enough(rt: HostRuntime) {
    assert!(rt; waited(&rt, rt.alloc(), 7) == Some((0, 1)));
}

#[test]
fn a_callback_leaves_by_no_other_journal(rt: HostRuntime) {
    assert!(rt; waited(&rt, rt.alloc(), 8) == Some((0, 0)));
}
