//! Members that the rules allow, and others.

use crate::callbacks::callbacks::{Count, DONE, TIME_OUTS, carry_under, errands_at};
use crate::callbacks::members::{listen, serve_all};
use lra_rules::{Rule, Rules};
use std::alloc::Global;
use std::net::{Net, TcpListener, TcpStream};
use std::sync::Wait;
use std::test::Fail;
use std::thread::{Threads, join};
use std::time::Clock;

fn rules_of(alloc: Global, text: &str) -> Option<Rules> {
    let mut rules = Vec::new(alloc);
    rules.push(Rule::read(alloc, text).ok()?).ok()?;
    Some(Rules::new(rules))
}

/// Returns the count of the errands of two members at a port of this host, one by its address and one by its name,
/// under one rule. The port accepts all connections, and answers `answered` of them.
fn count_under<R>(rt: &R, alloc: Global, rule: &str, answered: u64) -> Option<Count>
where
    R: Wait + Clock + Threads + Net<Listener = TcpListener, Stream = TcpStream> + Sync,
{
    let (listener, port) = listen(rt).ok()?;
    let held = errands_at(alloc, (port, 1), (port, 1))?;
    let rules = rules_of(alloc, rule)?;
    let (count, _) = join(
        rt,
        || carry_under(rt, alloc, &rules, held, 2, TIME_OUTS),
        || serve_all(&listener, DONE, answered),
    );
    drop(rules);
    Some(count)
}

#[test]
fn what_no_rule_lets_is_not_called(rt: HostRuntime) {
    let words = "the rules don't allow its address";
    let count = count_under(&rt, rt.alloc(), "*", 0);
    assert!(rt; count.is_some_and(|count| count.all() == 2 && count.done() == 0));
    assert!(rt; count.is_some_and(|count| count.says(rt.alloc(), words)));
}

/// Returns how many errands were done if both members answer.
fn done_under<R>(rt: &R, alloc: Global, rule: &str) -> Option<u64>
where
    R: Wait + Clock + Threads + Net<Listener = TcpListener, Stream = TcpStream> + Sync,
{
    Some(count_under(rt, alloc, rule, 2)?.done())
}

#[test]
fn what_a_rule_lets_is_called(rt: HostRuntime) {
    assert!(rt; done_under(&rt, rt.alloc(), "127.0.0.0/8") == Some(2));
}
