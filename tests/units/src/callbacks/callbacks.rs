//! Callbacks to members that answer, and to members that don't.

use crate::callbacks::members::{listen, serve, serve_all, socket_at};
use crate::callbacks::setting::{Held, Ready, errands, no_wakers};
use lra_callbacks::{Callbacks, Quota, SharedDnsCache, TimeOuts, WorkerQuota, waker};
use lra_clocks::{SystemClock, milliseconds};
use lra_courier::CallbackPool;
use lra_model::Outcome;
use lra_outcomes::{Outcomes, Reply, put_words};
use lra_rules::Rules;
use mio::Waker;
use std::alloc::Global;
use std::net::{Net, TcpListener, TcpStream};
use std::sync::Wait;
use std::sync::atomic::AtomicU64;
use std::test::Fail;
use std::thread::{Threads, join};
use std::time::{Clock, Duration, Instant};

/// Time-outs of a callback.
pub const TIME_OUTS: TimeOuts = TimeOuts {
    connect: 5_000,
    reply: 30_000,
};

/// Count of the errands that were done, and of those with another outcome.
#[derive(Clone, Copy)]
pub struct Count {
    done: u64,
    other: u64,
    /// Reply that is remembered of a member, if there is one.
    reply: Option<Reply>,
}

impl Count {
    /// Returns how many errands have an outcome.
    pub fn all(self) -> u64 {
        self.done.saturating_add(self.other)
    }

    /// Returns how many errands were done.
    pub fn done(self) -> u64 {
        self.done
    }

    /// Returns whether the remembered reply has these words. Without a reply the words have to be empty.
    pub fn says(self, alloc: Global, words: &str) -> bool {
        let mut page = Vec::new(alloc);
        let is_written = match self.reply {
            Some(reply) => put_words(reply, &mut page).is_ok(),
            None => true,
        };
        let says = is_written && page.as_slice() == words.as_bytes();
        drop(page);
        says
    }
}

/// Returns the reply that is remembered of the first member that has one, if its address begins with `http://`.
fn reply_in<R: Wait>(rt: &R, alloc: Global, outcomes: &Outcomes) -> Option<Reply> {
    for member in 0..16 {
        if let Ok(Some(attempt)) = outcomes.find(rt, alloc, member) {
            let is_at_host = attempt.address.as_str().starts_with("http://");
            let reply = attempt.reply;
            drop(attempt);
            return if is_at_host { Some(reply) } else { None };
        }
    }
    None
}

/// Gives errands to a callback pool, as far as it has memory for them.
pub fn take_all<C: CallbackPool>(callback_pool: &mut C, errands: Vec<Held>) {
    for held in errands {
        if let Some(errand) = held.take() {
            if let Err(errand) = callback_pool.take(errand, 1) {
                errand.discard();
            }
        }
    }
}

/// Counts the errands that have an outcome.
fn count_done<C: CallbackPool>(callback_pool: &mut C, count: &mut Count) {
    for _ in 0..u64::MAX {
        let Some((errand, outcome)) = callback_pool.done() else {
            return;
        };
        errand.discard();
        if outcome == Outcome::Done {
            count.done = count.done.saturating_add(1);
        } else {
            count.other = count.other.saturating_add(1);
        }
    }
}

/// Runs a callback pool until this many errands have an outcome, or that time has passed.
pub fn carry_within<R: Clock, C: CallbackPool>(
    rt: &R,
    callback_pool: &mut C,
    wanted: u64,
    time: Duration,
) -> Count {
    let mut count = Count {
        done: 0,
        other: 0,
        reply: None,
    };
    let Ok(start) = Instant::now(rt) else {
        return count;
    };
    for _ in 0..u64::MAX {
        callback_pool.carry(None);
        count_done(callback_pool, &mut count);
        let passed = start.elapsed(rt).unwrap_or(Duration::MAX);
        if count.all() >= wanted || passed > time {
            break;
        }
    }
    count
}

/// Runs the callbacks of errands, beside threads that look up names, until this many have an outcome.
fn carry<R: Wait + Net + Clock>(
    rt: &R,
    alloc: Global,
    names: &SharedDnsCache,
    rules: &Rules,
    held: Vec<Held>,
    wanted: u64,
    time_outs: TimeOuts,
) -> Count {
    let mut count = Count {
        done: 0,
        other: 0,
        reply: None,
    };
    let Ok((poll, _waker)) = waker(rt) else {
        return count;
    };
    let Some(group) = Ready::up_to(u64::MAX) else {
        return count;
    };
    let (under_way, least_pause) = (AtomicU64::new(0), AtomicU64::new(0));
    let outcomes = Outcomes::new(alloc);
    let worker_quota = WorkerQuota::of(1, time_outs);
    let clock = SystemClock::new(rt, 0);
    let quota = Quota::new(alloc, 1_024, 64);
    let Some(wakers) = no_wakers(alloc) else {
        return count;
    };
    let made = Callbacks::new(
        rt,
        alloc,
        &group,
        group.instance,
        names,
        rules,
        poll,
        &quota,
        worker_quota,
        &under_way,
        &least_pause,
        clock,
        &wakers,
        0,
        &outcomes,
        None,
        None,
    );
    match made {
        Ok(mut callbacks) => {
            take_all(&mut callbacks, held);
            count = carry_within(rt, &mut callbacks, wanted, Duration::from_secs(20));
            callbacks.end();
        }
        Err(poll) => {
            drop(poll);
            drop(held);
        }
    }
    count.reply = reply_in(rt, alloc, &outcomes);
    drop(outcomes);
    names.close(rt);
    count
}

/// Runs the callbacks of errands under these rules, and looks up names in a second thread.
pub fn carry_under<R>(
    rt: &R,
    alloc: Global,
    rules: &Rules,
    held: Vec<Held>,
    wanted: u64,
    time_outs: TimeOuts,
) -> Count
where
    R: Wait + Clock + Threads + Net<Listener = TcpListener, Stream = TcpStream> + Sync,
{
    let names = SharedDnsCache::new(alloc, None);
    let wakers: [Waker; 0] = [];
    let (count, _) = join(
        rt,
        || carry(rt, alloc, &names, rules, held, wanted, time_outs),
        || names.run(rt, &wakers),
    );
    count
}

/// Runs the callbacks of errands without rules, and looks up names in a second thread.
fn carry_by_name<R>(rt: &R, alloc: Global, held: Vec<Held>, wanted: u64) -> Count
where
    R: Wait + Clock + Threads + Net<Listener = TcpListener, Stream = TcpStream> + Sync,
{
    let rules = Rules::none(alloc);
    let count = carry_under(rt, alloc, &rules, held, wanted, TIME_OUTS);
    drop(rules);
    count
}

pub const DONE: &str = "HTTP/1.1 204 No Content\r\n\r\n";

/// Returns the errands of members at two ports of this host, with a port and a number of members for each.
pub fn errands_at(alloc: Global, first: (u16, u64), second: (u16, u64)) -> Option<Vec<Held>> {
    let one = socket_at(alloc, "127.0.0.1", first.0);
    let other = socket_at(alloc, "localhost", second.0);
    let held = errands(alloc, (one.as_str(), first.1), (other.as_str(), second.1));
    drop(one);
    drop(other);
    held
}

/// Returns the time until one member has answered. It is asked after 200 others at another port, which accepts
/// connections and answers nothing.
fn passed_beside<R>(rt: &R, alloc: Global) -> Option<Duration>
where
    R: Wait + Clock + Threads + Net<Listener = TcpListener, Stream = TcpStream> + Sync,
{
    let (silent, silent_port) = listen(rt).ok()?;
    let (good, good_port) = listen(rt).ok()?;
    let held = errands_at(alloc, (silent_port, 200), (good_port, 1))?;
    let start = Instant::now(rt).ok()?;
    let (count, _) = join(
        rt,
        || carry_by_name(rt, alloc, held, 1),
        || serve_all(&good, DONE, 1),
    );
    drop(silent);
    if count.done == 1 && count.other == 0 {
        start.elapsed(rt).ok()
    } else {
        None
    }
}

#[test]
fn a_member_is_called_beside_silent_ones(rt: HostRuntime) {
    let passed = passed_beside(&rt, rt.alloc()).unwrap_or(Duration::MAX);
    assert!(rt; passed < Duration::from_secs(3));
}

/// Returns the response of one of nine members, how many bytes come at once, whether its errand is done then, and the
/// words that are remembered of it.
fn manner(place: u64) -> (&'static str, usize, bool, &'static str) {
    match place {
        0 => (DONE, 4096, true, ""),
        1 => (DONE, 1, true, ""),
        2 => (
            "HTTP/1.1 200 OK\r\nContent-Length: 11\r\n\r\n\"Completed\"",
            5,
            true,
            "",
        ),
        3 => ("HTTP/1.1 500 Oops\r\n\r\n", 4096, false, "answered 500"),
        4 => (
            "HTTP/1.1 200 OK\r\nContent-Length: 6\r\n\r\nActive",
            4096,
            false,
            "answered 200 with a body that names no state",
        ),
        5 => (
            "HTTP/1.1 202 Accepted\r\nContent-Length: 0\r\n\r\n",
            4096,
            false,
            "answered 202: it is at it",
        ),
        6 => (
            "HTTP/1.1 409 Conflict\r\nContent-Length: 0\r\n\r\n",
            4096,
            false,
            "",
        ),
        7 => (
            "SSH-2.0-OpenSSH\r\n\r\n",
            4096,
            false,
            "the response isn't HTTP",
        ),
        _ => (
            "",
            4096,
            false,
            "the connection ended before the whole response",
        ),
    }
}

/// Returns the count of the errand of a member with this response.
fn count_by<R>(rt: &R, alloc: Global, response: &str, at_once: usize) -> Option<Count>
where
    R: Wait + Clock + Threads + Net<Listener = TcpListener, Stream = TcpStream> + Sync,
{
    let (listener, port) = listen(rt).ok()?;
    let held = errands_at(alloc, (port, 1), (port, 0))?;
    let (count, _) = join(
        rt,
        || carry_by_name(rt, alloc, held, 1),
        || {
            let _ = serve(&listener, response, at_once);
        },
    );
    if count.all() == 1 { Some(count) } else { None }
}

#[test]
fn what_a_member_answers_comes_of_its_errand(rt: HostRuntime) {
    for place in 0..9 {
        let (response, at_once, is_done, words) = manner(place);
        let count = count_by(&rt, rt.alloc(), response, at_once);
        assert!(rt;
            count.is_some_and(|count| (count.done == 1) == is_done),
            "{response}"
        );
        assert!(rt;
            count.is_some_and(|count| count.says(rt.alloc(), words)),
            "{response}"
        );
    }
}

/// Returns the count of two errands to a port without a listener, if both have an outcome.
fn count_at_no_port<R>(rt: &R, alloc: Global) -> Option<Count>
where
    R: Wait + Clock + Threads + Net<Listener = TcpListener, Stream = TcpStream> + Sync,
{
    let (listener, port) = listen(rt).ok()?;
    drop(listener);
    let held = errands_at(alloc, (port, 1), (port, 1))?;
    let count = carry_by_name(rt, alloc, held, 2);
    if count.all() == 2 { Some(count) } else { None }
}

#[test]
fn nobody_listens(rt: HostRuntime) {
    let count = count_at_no_port(&rt, rt.alloc());
    assert!(rt; count.is_some_and(|count| count.done == 0));
    assert!(rt; count.is_some_and(|count| count.says(rt.alloc(), "connection refused")));
}

/// Returns the count of an errand to a member that accepts the connection and answers nothing. The reply's time-out is
/// 800 ms.
fn count_in_vain<R>(rt: &R, alloc: Global) -> Option<Count>
where
    R: Wait + Clock + Threads + Net<Listener = TcpListener, Stream = TcpStream> + Sync,
{
    let (listener, port) = listen(rt).ok()?;
    let held = errands_at(alloc, (port, 1), (port, 0))?;
    let rules = Rules::none(alloc);
    let time_outs = TimeOuts {
        connect: 5_000,
        reply: 800,
    };
    let count = carry_under(rt, alloc, &rules, held, 1, time_outs);
    drop(rules);
    drop(listener);
    Some(count)
}

#[test]
fn a_member_answers_too_late(rt: HostRuntime) {
    let count = count_in_vain(&rt, rt.alloc());
    assert!(rt; count.is_some_and(|count| count.says(rt.alloc(), "timed out after 1 s")));
}

/// Returns how long callbacks wait with nothing under way. Something is due in `millis` milliseconds, if that is given.
fn rested<R: Wait + Net + Clock>(rt: &R, alloc: Global, millis: Option<u64>) -> Option<Duration> {
    let (poll, _waker) = waker(rt).ok()?;
    let group = Ready::up_to(u64::MAX)?;
    let names = SharedDnsCache::new(alloc, None);
    let rules = Rules::none(alloc);
    let (under_way, least_pause) = (AtomicU64::new(0), AtomicU64::new(0));
    let quota = Quota::new(alloc, 1_024, 64);
    let wakers = no_wakers(alloc)?;
    let worker_quota = WorkerQuota::of(1, TIME_OUTS);
    let clock = SystemClock::new(rt, 0);
    let outcomes = Outcomes::new(alloc);
    let made = Callbacks::new(
        rt,
        alloc,
        &group,
        group.instance,
        &names,
        &rules,
        poll,
        &quota,
        worker_quota,
        &under_way,
        &least_pause,
        clock,
        &wakers,
        0,
        &outcomes,
        None,
        None,
    );
    let Ok(mut callbacks) = made else {
        return None;
    };
    let passed = rest_of(rt, &mut callbacks, millis);
    callbacks.end();
    passed
}

/// Returns how long an idle callback pool takes for one iteration.
fn rest_of<R: Clock, C: CallbackPool>(
    rt: &R,
    callback_pool: &mut C,
    millis: Option<u64>,
) -> Option<Duration> {
    let now = milliseconds(rt)?;
    let start = Instant::now(rt).ok()?;
    callback_pool.carry(millis.map(|millis| now.saturating_add(millis)));
    start.elapsed(rt).ok()
}

#[test]
fn it_rests_until_something_is_due(rt: HostRuntime) {
    let soon = rested(&rt, rt.alloc(), Some(200)).unwrap_or(Duration::ZERO);
    assert!(rt; soon >= Duration::from_millis(190));
    let never = rested(&rt, rt.alloc(), None).unwrap_or(Duration::ZERO);
    assert!(rt; never >= Duration::from_millis(990));
}
