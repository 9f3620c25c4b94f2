//! Callback workers that share one quota.

use crate::callbacks::callbacks::{DONE, TIME_OUTS, carry_within, errands_at, take_all};
use crate::callbacks::members::{listen, serve_all};
use crate::callbacks::setting::{Held, Ready};
use lra_callbacks::{Callbacks, Quota, SharedDnsCache, WorkerQuota, waker};
use lra_clocks::SystemClock;
use lra_courier::CallbackPool;
use lra_outcomes::Outcomes;
use lra_rules::Rules;
use mio::{Poll, Waker};
use std::alloc::Global;
use std::net::{Net, TcpListener, TcpStream};
use std::sync::atomic::{AtomicU64, Ordering};
use std::sync::{Arc, Wait};
use std::thread::{self, Threads, join};
use std::time::{Clock, Duration};

/// State that two workers share.
#[derive(Drop)]
struct Ground {
    group: Ready,
    names: SharedDnsCache,
    rules: Rules,
    quota: Quota,
    wakers: Arc<Vec<Waker>>,
    under_way: AtomicU64,
    least_pause: AtomicU64,
    outcomes: Outcomes,
}

/// Number of errands of each of two workers that were done: of the second while the first had the only permit, of the
/// first, and of the second in all.
#[derive(Clone, Copy, Debug, PartialEq, Eq)]
struct Told {
    early: u64,
    first: u64,
    second: u64,
}

impl Ground {
    /// Returns a state whose quota is `most` in all, and `each` for a host.
    fn new(alloc: Global, wakers: Vec<Waker>, most: u32, each: u32) -> Option<Ground> {
        let wakers = Arc::new(alloc, wakers).ok()?;
        Some(Ground {
            group: Ready::up_to(u64::MAX)?,
            names: SharedDnsCache::new(alloc, None),
            rules: Rules::none(alloc),
            quota: Quota::new(alloc, most, each),
            wakers,
            under_way: AtomicU64::new(0),
            least_pause: AtomicU64::new(0),
            outcomes: Outcomes::new(alloc),
        })
    }

    /// Returns the callbacks of the worker at a place.
    fn callbacks<'a, R: Wait + Net + Clock>(
        &'a self,
        rt: &'a R,
        alloc: Global,
        poll: Poll,
        place: usize,
    ) -> Option<Callbacks<'a, R, Ready>> {
        let made = Callbacks::new(
            rt,
            alloc,
            &self.group,
            self.group.instance,
            &self.names,
            &self.rules,
            poll,
            &self.quota,
            WorkerQuota::of(1, TIME_OUTS),
            &self.under_way,
            &self.least_pause,
            SystemClock::new(rt, 0),
            &self.wakers,
            place,
            &self.outcomes,
            None,
            None,
        );
        made.ok()
    }
}

/// Gives one of the errands to a callback pool.
fn take_one<C: CallbackPool>(alloc: Global, callback_pool: &mut C, held: &mut Vec<Held>) {
    if let Some(one) = held.pop() {
        let mut errands = Vec::new(alloc);
        let _ = errands.push(one);
        take_all(callback_pool, errands);
    }
}

/// Runs an errand by each of both to one host, which answers only once the second has waited.
fn carry_both<R: Clock, C: CallbackPool>(
    rt: &R,
    alloc: Global,
    first: &mut C,
    second: &mut C,
    held: &mut Vec<Held>,
    answers: &AtomicU64,
) -> Told {
    take_one(alloc, first, held);
    carry_within(rt, first, 1, Duration::from_millis(200));
    take_one(alloc, second, held);
    let early = carry_within(rt, second, 1, Duration::from_millis(300));
    answers.store(1, Ordering::SeqCst);
    let of_first = carry_within(rt, first, 1, Duration::from_secs(20));
    let of_second = carry_within(rt, second, 1, Duration::from_secs(20));
    Told {
        early: early.all(),
        first: of_first.done(),
        second: of_second.done(),
    }
}

/// Runs an errand by the second worker once the first has ended. The first one's errand to that host has no answer.
fn carry_after<'a, R: Wait + Net + Clock>(
    rt: &'a R,
    alloc: Global,
    mut first: Callbacks<'a, R, Ready>,
    second: &mut Callbacks<'a, R, Ready>,
    held: &mut Vec<Held>,
    answers: &AtomicU64,
) -> Told {
    take_one(alloc, &mut first, held);
    carry_within(rt, &mut first, 1, Duration::from_millis(200));
    take_one(alloc, second, held);
    let early = carry_within(rt, second, 1, Duration::from_millis(300));
    first.end();
    answers.store(1, Ordering::SeqCst);
    let of_second = carry_within(rt, second, 1, Duration::from_secs(20));
    Told {
        early: early.all(),
        first: 0,
        second: of_second.done(),
    }
}

/// Returns the counts of two workers with an errand each to a port. If `ends` is set the first ends before it has an
/// answer.
fn told_at<R: Wait + Net + Clock>(
    rt: &R,
    alloc: Global,
    port: u16,
    ends: bool,
    answers: &AtomicU64,
) -> Option<Told> {
    let (first_poll, first_waker) = waker(rt).ok()?;
    let (second_poll, second_waker) = waker(rt).ok()?;
    let mut wakers = Vec::new(alloc);
    wakers.push(first_waker).ok()?;
    wakers.push(second_waker).ok()?;
    let ground = Ground::new(alloc, wakers, 8, 1)?;
    let mut held = errands_at(alloc, (port, 2), (port, 0))?;
    let mut first = ground.callbacks(rt, alloc, first_poll, 0)?;
    let Some(mut second) = ground.callbacks(rt, alloc, second_poll, 1) else {
        first.end();
        return None;
    };
    let told = if ends {
        carry_after(rt, alloc, first, &mut second, &mut held, answers)
    } else {
        let told = carry_both(rt, alloc, &mut first, &mut second, &mut held, answers);
        first.end();
        told
    };
    second.end();
    Some(told)
}

/// Returns the counts of two workers with an errand each to a member, which answers twice once it may.
fn told_of<R>(rt: &R, alloc: Global, ends: bool) -> Option<Told>
where
    R: Wait + Clock + Threads + Net<Listener = TcpListener, Stream = TcpStream> + Sync,
{
    let (listener, port) = listen(rt).ok()?;
    let answers = AtomicU64::new(0);
    let (told, _) = join(
        rt,
        || told_at(rt, alloc, port, ends, &answers),
        || {
            for _ in rt.forever() {
                if answers.load(Ordering::SeqCst) > 0 {
                    break;
                }
                thread::sleep(rt, Duration::from_millis(10));
            }
            serve_all(&listener, DONE, 2);
        },
    );
    told
}

#[test]
fn two_workers_share_a_host(rt: HostRuntime) {
    let told = told_of(&rt, rt.alloc(), false);
    assert!(rt;
        told == Some(Told {
            early: 0,
            first: 1,
            second: 1
        })
    );
}

#[test]
fn a_worker_that_ends_gives_its_permits_back(rt: HostRuntime) {
    let told = told_of(&rt, rt.alloc(), true);
    assert!(rt;
        told == Some(Told {
            early: 0,
            first: 0,
            second: 1
        })
    );
}
