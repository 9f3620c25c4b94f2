//! A courier over connections in memory.
use super::forget;
use crate::streams::rows::{number, parted, written_out};
use lra_courier::{Dialler, DiallingCourier};
use std::alloc::{AllocError, Global};
use std::fmt::Write as _;
use std::io;
use std::io::{Read, Write};

/// A member at one socket only. It accepts `room` bytes of a request and sends its reply.
#[derive(Drop)]
struct Member<'a> {
    socket: &'a str,
    room: usize,
    reply: &'a [u8],
}

/// A connection to a member.
#[derive(Drop)]
struct Line<'a> {
    room: usize,
    left: &'a [u8],
}

impl Read for Line<'_> {
    fn read(&mut self, buf: &mut [u8]) -> io::Result<usize> {
        self.left.read(buf)
    }
}

impl Write for Line<'_> {
    fn write(&mut self, buf: &[u8]) -> io::Result<usize> {
        let count = self.room.min(buf.len());
        self.room -= count;
        Ok(count)
    }

    fn flush(&mut self) -> io::Result<()> {
        Ok(())
    }
}

impl<'a> Dialler for Member<'a> {
    type Stream = Line<'a>;

    // The member is reached only at its own socket.
    ghost gives = { λ member socket stream. IfSome stream (λ _. socket ≡ member.socket.now) };

    fn dial(&self, socket: &str) -> Option<Line<'a>> {
        if socket == self.socket {
            Some(Line {
                room: self.room,
                left: self.reply,
            })
        } else {
            None
        }
    }
}

// An address, the bytes of a request that the member accepts, its reply, where `~` ends a line, and the call's result.
const CALLS: &str = "\
http://p.test/f|4096|HTTP/1.1 204 x~Content-Length: 0~~|done
http://p.test:8080/f|4096|HTTP/1.1 204 x~Content-Length: 0~~|no connection
http://q.test/f|4096|HTTP/1.1 204 x~Content-Length: 0~~|no connection
http://p.test|4096|HTTP/1.1 204 x~Content-Length: 0~~|no request: not an address
http://p.test/f|0|HTTP/1.1 204 x~Content-Length: 0~~|no request: output failed
http://p.test/f|20|HTTP/1.1 204 x~Content-Length: 0~~|no request: output failed
http://p.test/f|4096|HTTP/1.1 500 x~Content-Length: 0~~|silent
http://p.test/f|4096|HTTP/1.1 20 x~Content-Length: 0~~|no response: bad head
http://p.test/f|4096||no response: message cut short";

// Writes the result of a call to this address.
fn put_call(
    alloc: Global,
    member: Member<'_>,
    address: &str,
    text: &mut String,
) -> Result<(), AllocError> {
    match DiallingCourier::over(member, alloc).try_call(&forget(address)) {
        Ok(outcome) => text.push_str(outcome.name()),
        Err(fault) => write!(text, "{fault}"),
    }
}

// Returns whether a call has the wanted result.
fn tells(alloc: Global, member: Member<'_>, address: &str, wanted: &str) -> bool {
    let mut text = String::new(alloc);
    let done = put_call(alloc, member, address, &mut text);
    done.is_ok() && text.as_str() == wanted
}

// Returns whether the call of a written-out row has the row's result.
fn row_tells(alloc: Global, row: &str) -> Option<bool> {
    let (address, row) = parted(row, "|");
    let (room, row) = parted(row, "|");
    let (reply, wanted) = parted(row, "|");
    let member = Member {
        socket: "p.test:80",
        room: number(room)? as usize,
        reply: reply.as_bytes(),
    };
    Some(tells(alloc, member, address, wanted))
}

// Returns whether the call of a row of the table has the row's result.
fn call_tells(alloc: Global, row: &str) -> Option<bool> {
    let row = written_out(alloc, row);
    let told = row_tells(alloc, row.as_str());
    drop(row);
    told
}

#[test]
fn a_call_tells_what_came_of_it(rt: HostRuntime) {
    for row in CALLS.lines() {
        assert!(rt; call_tells(rt.alloc(), row) == Some(true), "{row}");
    }
}
