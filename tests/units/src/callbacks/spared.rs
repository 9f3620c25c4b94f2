//! Members that were silent, and are asked again only after a while.

use crate::callbacks::callbacks::{DONE, TIME_OUTS, carry_within, take_all};
use crate::callbacks::members::{listen, serve_all, socket_at};
use crate::callbacks::setting::{End, Held, Ready, errand, no_wakers};
use lra_callbacks::{Callbacks, Quota, SharedDnsCache, WorkerQuota, waker};
use lra_clocks::SystemClock;
use lra_courier::CallbackPool;
use lra_outcomes::Outcomes;
use lra_rules::Rules;
use std::alloc::Global;
use std::net::{Net, TcpListener, TcpStream};
use std::sync::Wait;
use std::sync::atomic::AtomicU64;
use std::test::Fail;
use std::thread::{Threads, join};
use std::time::{Clock, Duration, Instant};

/// Setting in which a member is asked twice.
#[derive(Clone, Copy)]
struct Twice {
    port: u16,
    /// Shortest time between two asks of a silent member, in milliseconds.
    least_pause: u64,
    /// Moment from which its office's clock goes on.
    office: u64,
    /// End of its action the second time.
    end: End,
}

/// Runs an errand, and returns the time until it has an outcome, if that takes at most three seconds.
fn passed<R: Clock, C: CallbackPool>(
    rt: &R,
    alloc: Global,
    callback_pool: &mut C,
    errand: Held,
) -> Option<Duration> {
    let mut errands = Vec::new(alloc);
    errands.push(errand).ok()?;
    let start = Instant::now(rt).ok()?;
    take_all(callback_pool, errands);
    let count = carry_within(rt, callback_pool, 1, Duration::from_secs(3));
    if count.all() == 1 {
        start.elapsed(rt).ok()
    } else {
        None
    }
}

/// Returns the time until the second errand has an outcome, measured from before the first.
fn passed_again<R: Clock, C: CallbackPool>(
    rt: &R,
    alloc: Global,
    callback_pool: &mut C,
    twice: Twice,
) -> Option<Duration> {
    let socket = socket_at(alloc, "127.0.0.1", twice.port);
    let first = errand(alloc, socket.as_str(), End::Close);
    let second = errand(alloc, socket.as_str(), twice.end);
    drop(socket);
    let start = Instant::now(rt).ok()?;
    passed(rt, alloc, callback_pool, first?)?;
    passed(rt, alloc, callback_pool, second?)?;
    start.elapsed(rt).ok()
}

/// Runs `passed_again` with callbacks of its own.
fn asked_twice<R: Wait + Net + Clock>(rt: &R, alloc: Global, twice: Twice) -> Option<Duration> {
    let (poll, _waker) = waker(rt).ok()?;
    let group = Ready::up_to(u64::MAX)?;
    let names = SharedDnsCache::new(alloc, None);
    let rules = Rules::none(alloc);
    let (under_way, least_pause) = (AtomicU64::new(0), AtomicU64::new(twice.least_pause));
    let quota = Quota::new(alloc, 1_024, 64);
    let wakers = no_wakers(alloc)?;
    let worker_quota = WorkerQuota::of(1, TIME_OUTS);
    let clock = SystemClock::new(rt, twice.office);
    let outcomes = Outcomes::new(alloc);
    let made = Callbacks::new(
        rt,
        alloc,
        &group,
        group.instance,
        &names,
        &rules,
        poll,
        &quota,
        worker_quota,
        &under_way,
        &least_pause,
        clock,
        &wakers,
        0,
        &outcomes,
        None,
        None,
    );
    let Ok(mut callbacks) = made else {
        return None;
    };
    let passed = passed_again(rt, alloc, &mut callbacks, twice);
    callbacks.end();
    passed
}

/// Returns the time of the second errand's outcome at a port without a listener. The office's clock goes on from
/// `office`.
fn silent_at<R>(rt: &R, alloc: Global, least_pause: u64, office: u64, end: End) -> Option<Duration>
where
    R: Wait + Clock + Net<Listener = TcpListener, Stream = TcpStream>,
{
    let (listener, port) = listen(rt).ok()?;
    drop(listener);
    asked_twice(
        rt,
        alloc,
        Twice {
            port,
            least_pause,
            office,
            end,
        },
    )
}

/// Returns the time of the second errand's outcome at a port without a listener.
fn silent_twice<R>(rt: &R, alloc: Global, least_pause: u64, end: End) -> Option<Duration>
where
    R: Wait + Clock + Net<Listener = TcpListener, Stream = TcpStream>,
{
    silent_at(rt, alloc, least_pause, 0, end)
}

#[test]
fn a_silent_member_is_asked_again_after_the_least_pause(rt: HostRuntime) {
    let spared = silent_twice(&rt, rt.alloc(), 1_000, End::Close).unwrap_or(Duration::ZERO);
    assert!(rt; spared >= Duration::from_millis(950) && spared < Duration::from_millis(2_000));
}

#[test]
fn without_a_least_pause_it_is_asked_at_once(rt: HostRuntime) {
    let asked = silent_twice(&rt, rt.alloc(), 0, End::Close).unwrap_or(Duration::MAX);
    assert!(rt; asked < Duration::from_millis(900));
}

#[test]
fn it_is_asked_in_another_stage_at_once(rt: HostRuntime) {
    let asked = silent_twice(&rt, rt.alloc(), u64::MAX, End::Cancel).unwrap_or(Duration::MAX);
    assert!(rt; asked < Duration::from_millis(900));
}

#[test]
fn where_the_pause_never_ends_it_is_not_asked_again(rt: HostRuntime) {
    assert!(rt; silent_twice(&rt, rt.alloc(), u64::MAX, End::Close).is_none());
}

/// Returns the time of the second errand's outcome at a member that answers.
fn answered_twice<R>(rt: &R, alloc: Global) -> Option<Duration>
where
    R: Wait + Clock + Threads + Net<Listener = TcpListener, Stream = TcpStream> + Sync,
{
    let (listener, port) = listen(rt).ok()?;
    let twice = Twice {
        port,
        least_pause: u64::MAX,
        office: 0,
        end: End::Close,
    };
    let (asked, _) = join(
        rt,
        || asked_twice(rt, alloc, twice),
        || serve_all(&listener, DONE, 2),
    );
    asked
}

#[test]
fn a_member_that_answers_is_asked_again_at_once(rt: HostRuntime) {
    let asked = answered_twice(&rt, rt.alloc()).unwrap_or(Duration::MAX);
    assert!(rt; asked < Duration::from_millis(900));
}

#[test]
fn near_the_end_of_the_clock_a_silent_member_is_spared(rt: HostRuntime) {
    assert!(rt; silent_at(&rt, rt.alloc(), 0, u64::MAX, End::Close).is_none());
}

#[test]
fn a_minute_before_that_it_is_asked_at_once(rt: HostRuntime) {
    let moment = u64::MAX - 60_000;
    let asked = silent_at(&rt, rt.alloc(), 0, moment, End::Close).unwrap_or(Duration::MAX);
    assert!(rt; asked < Duration::from_millis(900));
}
