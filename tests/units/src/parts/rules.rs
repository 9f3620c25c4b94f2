//! Rules that are read and applied, and the texts of faults.

use lra_rules::{Rule, Rules};
use std::alloc::Global;
use std::net::SocketAddr;

/// A rule, a host and port, the address that they resolve to, and whether the rule allows that.
const ROWS: &str = r"* pay.test:80 10.0.0.1:80 true
* pay.test:80 127.0.0.1:80 false
* pay.test:80 [::ffff:169.254.169.254]:80 false
PAY.test:8443 pay.test:8443 [2001:db8::1]:8443 true
PAY.test:8443 pay.test:80 [2001:db8::1]:80 false
.test pay.test:80 192.168.0.1:80 true
* pay.test:80 [64:ff9b::7f00:1]:80 false
* pay.test:80 [2002:a9fe:a9fe::1]:80 false
* pay.test:80 [64:ff9b::a00:1]:80 true
64:ff9b::/96 pay.test:80 [64:ff9b::7f00:1]:80 false
64:ff9b::/96 pay.test:80 [64:ff9b::a00:1]:80 true
10.0.0.0/8 pay.test:80 [2002:a00:1::]:80 true
10.0.0.0/8 pay.test:80 [2002:b00:1::]:80 false
127.0.0.0/8 localhost:80 127.0.0.1:80 true
127.0.0.0/8 localhost:80 [::1]:80 false
[fd00::]/8:80 [fd00::1]:80 [fd00::1]:80 true";

/// Texts that are no rules, and why.
const FAULTS: &str = r"10/8 no host, address or network
*.test no host, address or network
pay.test:65536 no port";

/// Returns the text before the first space and the text after it.
fn cut(text: &str) -> (&str, &str) {
    match text.split_once(' ') {
        Some(parts) => parts,
        None => (text, ""),
    }
}

/// Returns whether one rule allows a host and port at an address.
fn is_let(alloc: Global, rule: &str, socket: &str, to: &str) -> Option<bool> {
    let to = to.parse::<SocketAddr>().ok()?;
    let mut rules = Vec::new(alloc);
    rules.push(Rule::read(alloc, rule).ok()?).ok()?;
    let rules = Rules::new(rules);
    let told = rules.let_socket(socket.as_bytes(), to);
    drop(rules);
    Some(told)
}

/// Returns whether the rule of a row allows what the row says.
fn is_told(alloc: Global, row: &str) -> bool {
    let (rule, rest) = cut(row);
    let (socket, rest) = cut(rest);
    let (to, told) = cut(rest);
    is_let(alloc, rule, socket, to) == Some(told == "true")
}

#[test]
fn rules_let_what_they_are_for(rt: HostRuntime) {
    for row in ROWS.lines() {
        assert!(rt; is_told(rt.alloc(), row), "{row}");
    }
}

/// Returns whether a text is no rule, for the reason of its row.
fn is_no_rule(alloc: Global, row: &str) -> bool {
    let (text, why) = cut(row);
    match Rule::read(alloc, text) {
        Ok(rule) => {
            drop(rule);
            false
        }
        Err(fault) => match format!(in alloc; "{fault}") {
            Ok(words) => words.as_str() == why,
            Err(_) => false,
        },
    }
}

#[test]
fn other_texts_are_no_rules(rt: HostRuntime) {
    for row in FAULTS.lines() {
        assert!(rt; is_no_rule(rt.alloc(), row), "{row}");
    }
}
