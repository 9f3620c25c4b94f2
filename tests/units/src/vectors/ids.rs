//! Addresses by the URL Standard, texts that are refused, and the identifiers of actions and members.

use crate::vectors::texts::{Telling, assert_rows, assert_told, parted};
use lra_ids::{
    Address, Instance, Memory, UriFault, address, is_address_text, read_action, read_id,
    read_recovery, spell_action, spell_recovery,
};
use std::alloc::Global;
use url::ParseError;

// Each row: a text, and its address by the URL Standard or the text of the fault.
const FORMS: &str = "\
HTTP://P.test:80/a b -> http://p.test/a%20b
http://p.test/u -> http://p.test/u
http://p.test -> http://p.test/
http:p.test/x -> http://p.test/x
http:\\\\p.test\\x -> http://p.test/x
http:///p.test/x -> http://p.test/x
http://EXAMPLE.com/A -> http://example.com/A
http://%70.test/ -> http://p.test/
http://p.test? -> http://p.test/?
http://p.test# -> http://p.test/#
http://p.test/c?q#f?g -> http://p.test/c?q#f?g
";

const PORTS: &str = "\
http://p.test:/x -> http://p.test/x
http://p.test:00080/x -> http://p.test/x
http://p.test:08080/x -> http://p.test:8080/x
http://p.test:443/x -> http://p.test:443/x
http://p.test:65535/x -> http://p.test:65535/x
http://p.test:65536/ -> not a URL
http://p.test:x/ -> not a URL
http://p.test:80:80/ -> not a URL
";

const DOT_SEGMENTS: &str = "\
http://p.test/a/./b/../c -> http://p.test/a/c
http://p.test/../x -> http://p.test/x
http://p.test/a/%2e%2E/b -> http://p.test/b
http://p.test/a/.. -> http://p.test/
http://p.test/a//b/ -> http://p.test/a//b/
";

const PERCENT_FORMS: &str = "\
http://p.test/%7Ea%zz%2f -> http://p.test/%7Ea%zz%2f
http://p.test/\"<>`{} -> http://p.test/%22%3C%3E%60%7B%7D
http://p.test/é -> http://p.test/%C3%A9
http://p.test/?a b'<é -> http://p.test/?a%20b%27%3C%C3%A9
http://p.test/#a b` -> http://p.test/#a%20b%60
";

const NUMBERED_HOSTS: &str = "\
http://0x7f.1/ -> http://127.0.0.1/
http://017700000001/ -> http://127.0.0.1/
http://2130706433/ -> http://127.0.0.1/
http://127.0.0.1./ -> http://127.0.0.1/
http://0x.0x.0/ -> http://0.0.0.0/
http://192.168.257/ -> http://192.168.1.1/
http://256.1.1.1/ -> not a URL
http://1.2.3.4.5/ -> not a URL
http://0x100000000/ -> not a URL
http://09/ -> not a URL
http://[1:2:0:0:5:0:0:0]/ -> http://[1:2:0:0:5::]/
http://[::FFFF:1.2.3.4]/ -> http://[::ffff:102:304]/
http://[0:0:0:0:0:0:0:1]:8080/x -> http://[::1]:8080/x
http://[::1/ -> not a URL
http://[1::2::3]/ -> not a URL
";

const NAMED_HOSTS: &str = "\
http://faß.ExAmPlE/ -> http://xn--fa-hia.example/
http://☕.example/ -> http://xn--53h.example/
http://ＧＯ.test/ -> http://go.test/
http://xn--53h.example/ -> http://xn--53h.example/
http://p。test/ -> http://p.test/
http://p.test./ -> http://p.test./
http://\u{ad}/ -> not a URL
http://p test/ -> not a URL
http://p<test/ -> not a URL
http://p%00.test/ -> not a URL
";

const USERS: &str = "\
http://u:p@p.test/ -> http://u:p@p.test/
http://u s@p.test/ -> http://u%20s@p.test/
http://:@p.test/ -> http://p.test/
http://u@v@p.test/ -> http://u%40v@p.test/
http://u@/x -> not a URL
";

const REFUSED: &str = "\
p.test/x -> not a URL
/x -> not a URL
//p.test/x -> not a URL
?x -> not a URL
* -> not a URL
://p.test/ -> not a URL
1http://p.test/ -> not a URL
http:// -> not a URL
http://?x -> not a URL
http://:80/ -> not a URL
https://p.test/ -> not an http URL
HTTPS://p.test/ -> not an http URL
ftp://p.test/ -> not an http URL
ws://p.test/ -> not an http URL
file:///x -> not an http URL
mailto:a@p.test -> not an http URL
p.test:80/x -> not an http URL
httpx://p.test/ -> not an http URL
";

// Rows of texts with line feeds. Each ends before a `|`.
const FEEDS: &str =
    " -> not a URL|\u{1} http://p.test/x \n -> http://p.test/x|http://p.t\nest/a\tb -> http://p.test/ab";

// Returns the address that a text stands for, or the text of the fault.
fn answer(alloc: Global, text: &str) -> Result<String, Memory> {
    match address(alloc, text) {
        Ok(own) => own.as_str().to_string(alloc),
        Err(fault) => format!(in alloc; "{fault}"),
    }
}

// Runs `answer`, and checks that the text is an address as it stands exactly if it stands for itself.
fn checked_answer(alloc: Global, text: &str) -> Option<String> {
    let is_own = is_address_text(alloc, text.as_bytes()).ok()?;
    let answer = answer(alloc, text).ok()?;
    if is_own == (answer.as_str() == text) {
        return Some(answer);
    }
    drop(answer);
    None
}

#[derive(Clone, Copy)]
struct Answers;

impl Telling for Answers {
    fn tell(&self, alloc: Global, text: &str) -> Option<String> {
        checked_answer(alloc, text)
    }
}

#[test]
fn addresses_by_the_standard(rt: HostRuntime) {
    assert_rows(&rt, &Answers, FORMS);
    assert_rows(&rt, &Answers, PORTS);
    assert_rows(&rt, &Answers, DOT_SEGMENTS);
    assert_rows(&rt, &Answers, PERCENT_FORMS);
    assert_rows(&rt, &Answers, NUMBERED_HOSTS);
    assert_rows(&rt, &Answers, NAMED_HOSTS);
    assert_rows(&rt, &Answers, USERS);
    assert_rows(&rt, &Answers, REFUSED);
    for row in FEEDS.split('|') {
        let (text, want) = parted(row, " -> ");
        assert_told(&rt, text, checked_answer(rt.alloc(), text), want);
    }
    assert!(rt; is_address_text(rt.alloc(), b"http://p.test/\xFF".as_slice()) == Ok(false));
}

// Returns the text of the fault that a fault of the parser becomes.
fn told_of(alloc: Global, fault: ParseError) -> Option<String> {
    let fault = UriFault::from(fault);
    format!(in alloc; "{fault}").ok()
}

#[test]
fn faults_of_the_parser(rt: HostRuntime) {
    let told = told_of(rt.alloc(), ParseError::Overflow);
    assert_told(&rt, "an overflow", told, "out of memory");
    let told = told_of(rt.alloc(), ParseError::InvalidPort);
    assert_told(&rt, "a port", told, "not a URL");
}

// Returns the front, followed by the letter until the text has this length in bytes.
fn filled(alloc: Global, front: &str, letter: &str, len: usize) -> Result<String, Memory> {
    let mut text = front.to_string(alloc)?;
    for _ in text.len()..len {
        text.push_str(letter)?;
    }
    Ok(text)
}

// A front, the letter that fills it, a length, and the length of the text's address or the text of the fault. The
// input's length is checked before it is read, and the URL's length after its scheme. A space becomes three bytes.
const LONG_TEXTS: &str = "\
http://p.test/|a|512 -> 512
http://p.test/|a|513 -> longer than 512 bytes
http://p.test/ |a|510 -> 512
http://p.test/ |a|511 -> longer than 512 bytes
http://p.test/| |513 -> longer than 512 bytes
https://p.test/ |a|512 -> not an http URL
https://p.test/|a|513 -> longer than 512 bytes
p.test/|a|513 -> longer than 512 bytes
";

fn length_of(alloc: Global, text: &str) -> Result<String, Memory> {
    match address(alloc, text) {
        Ok(own) => format!(in alloc; "{}", own.as_str().len()),
        Err(fault) => format!(in alloc; "{fault}"),
    }
}

#[derive(Clone, Copy)]
struct Lengths;

impl Telling for Lengths {
    fn tell(&self, alloc: Global, text: &str) -> Option<String> {
        let (front, columns) = parted(text, "|");
        let (letter, len) = parted(columns, "|");
        let text = filled(alloc, front, letter, len.parse().ok()?).ok()?;
        length_of(alloc, text.as_str()).ok()
    }
}

#[test]
fn long_texts(rt: HostRuntime) {
    assert_rows(&rt, &Lengths, LONG_TEXTS);
}

// A text, the authority of its address, the port, if there is one, and the target.
const PARTS: &str = "\
http://p.test/ -> p.test None /
http://p.test:9000/c -> p.test:9000 Some(9000) /c
http://u:p@p.test:1/c/d?q=1#f -> p.test:1 Some(1) /c/d?q=1
http://[::1]:8080? -> [::1]:8080 Some(8080) /?
http://127.0.0.1#f -> 127.0.0.1 None /
http://p.test:80/c -> p.test None /c
";

#[derive(Clone, Copy)]
struct Parts;

impl Telling for Parts {
    fn tell(&self, alloc: Global, text: &str) -> Option<String> {
        let own = address(alloc, text).ok()?;
        let (authority, port, target) = (own.authority(), own.port(), own.target());
        format!(in alloc; "{authority} {port:?} {target}").ok()
    }
}

#[test]
fn parts_of_addresses(rt: HostRuntime) {
    assert_rows(&rt, &Parts, PARTS);
}

// Returns the text of an address's copy.
fn copied(alloc: Global, text: &str) -> Option<String> {
    let own = address(alloc, text).ok()?;
    let copy = own.copy();
    drop(own);
    Some(String::from(copy.ok()?))
}

#[test]
fn copies(rt: HostRuntime) {
    let text = "http://p.test/c?q#f";
    assert_told(&rt, text, copied(rt.alloc(), text), text);
}

// A text, and whether it is a base.
const BASES: &str = "\
http://127.0.0.1:8080/ -> true
http://p.test -> true
http://u@[::1]:1/ -> true
http://p.test/x -> false
http://p.test/x/ -> false
http://p.test// -> false
http://p.test/? -> false
http://p.test/# -> false
http://p.test?/ -> false
http://p.test#/ -> false
";

fn is_base(alloc: Global, text: &str) -> Option<String> {
    let own = address(alloc, text).ok()?;
    let is_base = own.is_base();
    drop(own);
    format!(in alloc; "{is_base}").ok()
}

#[derive(Clone, Copy)]
struct IsBase;

impl Telling for IsBase {
    fn tell(&self, alloc: Global, text: &str) -> Option<String> {
        is_base(alloc, text)
    }
}

// Returns whether a text of this length is a base. A slash is added to it.
fn is_long_base(alloc: Global, len: usize) -> Option<String> {
    let text = filled(alloc, "http://", "a", len).ok()?;
    is_base(alloc, text.as_str())
}

#[test]
fn bases(rt: HostRuntime) {
    assert_rows(&rt, &IsBase, BASES);
    assert_told(&rt, "399 bytes", is_long_base(rt.alloc(), 399), "true");
    assert_told(&rt, "400 bytes", is_long_base(rt.alloc(), 400), "false");
}

// Returns a base. If the first try has no memory the second has.
fn base(alloc: Global) -> Option<Address> {
    match address(alloc, "http://p.test/") {
        Ok(base) => Some(base),
        Err(_) => address(alloc, "http://p.test/").ok(),
    }
}

// Returns the URIs of the action and of the member of this number.
fn uris_of(alloc: Global, instance: Instance, n: u64, base: &Address) -> Option<(String, String)> {
    if n == 0 || n >= 1 << 62 || !base.is_base() {
        return None;
    }
    let action = spell_action(alloc, instance, n, base).ok()?;
    let recovery = spell_recovery(alloc, instance, n, base).ok()?;
    Some((action, recovery))
}

// Writes what a text is read as: an action's URI, a member's URI, and a UUID alone.
fn push_reading(told: &mut String, text: &str, instance: Instance, base: &Address) -> Option<()> {
    let action = read_action(text, instance, base);
    let recovery = read_recovery(text, instance, base);
    let id = read_id(text, instance);
    write!(told, "{action:?} {recovery:?} {id:?}").ok()
}

// Writes a text, and what it is read as.
fn push_spelled(told: &mut String, text: &str, instance: Instance, base: &Address) -> Option<()> {
    told.push_str(text).ok()?;
    told.push(' ').ok()?;
    push_reading(told, text, instance, base)
}

// An instance, a number, and their URIs, each with what it is read as.
const IDENTIFIERS: &str = "\
7 1 -> http://p.test/lra-coordinator/00000000-0000-8007-8000-000000000001 Some(1) None None http://p.test/lra-recovery/00000000-0000-8007-8000-000000000001 None Some(1) None
0 4611686018427387903 -> http://p.test/lra-coordinator/00000000-0000-8000-bfff-ffffffffffff Some(4611686018427387903) None None http://p.test/lra-recovery/00000000-0000-8000-bfff-ffffffffffff None Some(4611686018427387903) None
1152921504606846975 255 -> http://p.test/lra-coordinator/ffffffff-ffff-8fff-8000-0000000000ff Some(255) None None http://p.test/lra-recovery/ffffffff-ffff-8fff-8000-0000000000ff None Some(255) None
1152921504606846975 4611686018427387903 -> http://p.test/lra-coordinator/ffffffff-ffff-8fff-bfff-ffffffffffff Some(4611686018427387903) None None http://p.test/lra-recovery/ffffffff-ffff-8fff-bfff-ffffffffffff None Some(4611686018427387903) None
";

fn spelled(alloc: Global, instance: Instance, n: u64, base: &Address) -> Option<String> {
    let (action, recovery) = uris_of(alloc, instance, n, base)?;
    let mut told = String::new(alloc);
    push_spelled(&mut told, action.as_str(), instance, base)?;
    told.push(' ').ok()?;
    push_spelled(&mut told, recovery.as_str(), instance, base)?;
    Some(told)
}

#[derive(Clone, Copy)]
struct Spellings;

impl Telling for Spellings {
    fn tell(&self, alloc: Global, text: &str) -> Option<String> {
        let (instance, n) = parted(text, " ");
        let instance = Instance::new(instance.parse().ok()?)?;
        let n = n.parse().ok()?;
        let base = base(alloc)?;
        let told = spelled(alloc, instance, n, &base);
        drop(base);
        told
    }
}

// An instance, a UUID alone, and what it is read as.
const UUIDS: &str = "\
7 00000000-0000-8007-8000-000000000001 -> None None Some(1)
0 00000000-0000-8000-bfff-ffffffffffff -> None None Some(4611686018427387903)
1152921504606846975 ffffffff-ffff-8fff-8000-0000000000ff -> None None Some(255)
1152921504606846975 ffffffff-ffff-8fff-bfff-ffffffffffff -> None None Some(4611686018427387903)
";

// Returns what a text is read as.
fn reading(alloc: Global, instance: Instance, text: &str) -> Option<String> {
    let base = base(alloc)?;
    let mut told = String::new(alloc);
    let done = push_reading(&mut told, text, instance, &base);
    drop(base);
    done?;
    Some(told)
}

#[derive(Clone, Copy)]
struct Readings;

impl Telling for Readings {
    fn tell(&self, alloc: Global, text: &str) -> Option<String> {
        let (instance, text) = parted(text, " ");
        reading(alloc, Instance::new(instance.parse().ok()?)?, text)
    }
}

#[test]
fn spelled_identifiers(rt: HostRuntime) {
    assert_rows(&rt, &Spellings, IDENTIFIERS);
    assert_rows(&rt, &Readings, UUIDS);
}

// Another instance, another base, and texts that are no UUID of the instance or aren't spelled as they have to be.
const NO_IDENTIFIERS: &str = "\
7 http://p.test/lra-coordinator/00000000-0000-8008-8000-000000000001 -> None None None
7 http://p.test:81/lra-coordinator/00000000-0000-8007-8000-000000000001 -> None None None
7 http://p.test/lra-coordinator/ffffffff-ffff-8fff-bfff-ffffffffffff -> None None None
7 http://p.test/lra-coordinator/00000000-0000-8007-8000-00000000000A -> None None None
7 00000000-0000-7007-8000-000000000001 -> None None None
7 00000000-0000-8007-c000-000000000001 -> None None None
7 00000000-0000-8007-8000-000000000000 -> None None None
7 00000001-0000-8007-8000-000000000001 -> None None None
7 00000000-0000-8007-8000-000000000001- -> None None None
7 00000000-0000-8007-8000-00000000001 -> None None None
7 00000000000080078000000000000001 -> None None None
7 {00000000-0000-8007-8000-000000000001} -> None None None
7 urn:uuid:00000000-0000-8007-8000-000000000001 -> None None None
7\u{20} -> None None None
7 00000000-0000-8007-8000-000000000001\u{20} -> None None None
1152921504606846975 http://p.test/lra-coordinator/ffffffff-ffff-8fff-bfff-fffffffffffF -> None None None
";

#[test]
fn texts_that_are_no_identifiers(rt: HostRuntime) {
    assert_rows(&rt, &Readings, NO_IDENTIFIERS);
}

fn uris_again(alloc: Global, instance: Instance, base: &Address) -> Option<(String, String)> {
    match uris_of(alloc, instance, 1, base) {
        None => uris_of(alloc, instance, 1, base),
        uris => uris,
    }
}

// Returns the URI of an action.
fn action_uri(alloc: Global) -> Option<String> {
    let seven = Instance::new(7)?;
    let base = base(alloc)?;
    let uris = uris_again(alloc, seven, &base);
    drop(base);
    let (action, recovery) = uris?;
    drop(recovery);
    Some(action)
}

// Run with one allocation failing in turn: a spelling that needs a refused growth is refused, and the next one has
// memory.
#[test]
fn a_refused_growth_is_memory_at_a_spelling(rt: HostRuntime) {
    let want = "http://p.test/lra-coordinator/00000000-0000-8007-8000-000000000001";
    assert_told(&rt, "a spelling", action_uri(rt.alloc()), want);
}
