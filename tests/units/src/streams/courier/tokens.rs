use crate::streams::pieces::Sink;
use lra_courier::{Callback, ExtraFields, Token, TokenFault};
use std::alloc::Global;

// The token of the example in RFC 6750, section 2.1, and others that its grammar has.
const TOKENS: &str = "\
mF_9.B5f-4.1JqM
x
0
~+/
YWJj==
a=======";

// What its grammar doesn't have.
const NO_TOKENS: &str = "\

=
=a
a=b
two words
 a
a\t
\"a\"
a:b
a,b
\u{e9}";

// Returns whether a text makes a token, or the fault says that it can't be one.
fn is_token(alloc: Global, text: &str) -> Option<bool> {
    match Token::parse(alloc, text) {
        Ok(token) => {
            drop(token);
            Some(true)
        }
        Err(TokenFault::NotToken) => Some(false),
        Err(TokenFault::Memory) => None,
    }
}

// Returns whether a text of so many bytes is a token.
fn is_token_of(alloc: Global, count: usize) -> Option<bool> {
    let text = "a".repeat(alloc, count).ok()?;
    is_token(alloc, text.as_str())
}

#[test]
fn tokens_are_those_of_the_grammar(rt: HostRuntime) {
    for text in TOKENS.lines() {
        assert!(rt; is_token(rt.alloc(), text) == Some(true), "{text}");
    }
    for text in NO_TOKENS.lines() {
        assert!(rt; is_token(rt.alloc(), text) == Some(false), "{text}");
    }
    for text in ["", "a\n", "a\r\nX: y", "a\0"] {
        assert!(rt; is_token(rt.alloc(), text) == Some(false), "{text}");
    }
    assert!(rt; is_token_of(rt.alloc(), 4_096) == Some(true));
    assert!(rt; is_token_of(rt.alloc(), 4_097) == Some(false));
}

// The request of RFC 6750's token, with `Authorization` after all other fields but `Connection`.
const REQUEST: &[u8] = b"DELETE /f HTTP/1.1\r
Host: p.test\r
Long-Running-Action: http://c.test/a\r
Long-Running-Action-Recovery: http://c.test/r\r
Authorization: Bearer mF_9.B5f-4.1JqM\r
Connection: close\r
\r
";

// Returns whether a callback with a token writes its request.
fn is_written(alloc: Global, callback: &Callback<'_>) -> bool {
    let mut sink = Sink::new(alloc, 7, 4096);
    let result = callback.send(alloc, &mut sink);
    let is_written = result.is_ok() && sink.taken.as_slice() == REQUEST;
    drop(sink);
    is_written
}

// Returns whether a callback gives its token.
fn gives_its_token(alloc: Global) -> Option<bool> {
    let token = Token::parse(alloc, "mF_9.B5f-4.1JqM").ok()?;
    let mut callback = super::forget("http://p.test/f");
    callback.extra = ExtraFields {
        token: Some(&token),
        traceparent: None,
    };
    Some(is_written(alloc, &callback))
}

#[test]
fn a_callback_gives_its_token(rt: HostRuntime) {
    assert!(rt; gives_its_token(rt.alloc()) == Some(true));
}
