use crate::streams::pieces::Sink;
use lra_wire::{ReplyWrite, RequestWrite, write_request, write_response, write_response_in};
use std::alloc::Global;
use std::test::Fail;

const REQUEST: &[u8] = b"PUT /c?x=1 HTTP/1.1\r\nHost: p.test:9000\r\nContent-Length: 2\r\n\r\nok";

// Returns whether a writer with this room gets a front of the request, and the write fails unless that is all of it.
fn has_front(alloc: Global, room: usize) -> bool {
    let request = RequestWrite {
        method: "PUT",
        target: "/c?x=1",
        fields: &[("Host", "p.test:9000"), ("Content-Length", "2")],
        body: b"ok",
    };
    let mut writer = Sink::new(alloc, 5, room);
    let written = write_request(alloc, &mut writer, &request).is_ok();
    written == (room == REQUEST.len())
        && writer.taken.len() == room
        && REQUEST.starts_with(writer.taken.as_slice())
}

#[test]
fn writes_a_request_or_a_front_of_it(rt: HostRuntime) {
    for room in 0..REQUEST.len() + 1 {
        assert!(rt; has_front(rt.alloc(), room), "{room}");
    }
}

const REPLY: ReplyWrite<'static> = ReplyWrite {
    code: 404,
    phrase: "Not Found",
    fields: &[("Content-Length", "2")],
    body: b"no",
};

// Returns the text of the reply from a writer that accepts three bytes at a time.
fn written(alloc: Global) -> Result<Vec<u8>, Fail> {
    let mut writer = Sink::new(alloc, 3, 4096);
    write_response(alloc, &mut writer, &REPLY)?;
    Ok(writer.taken)
}

// Returns the text of the reply, written by way of a page that had another text before.
fn written_in(alloc: Global) -> Result<Vec<u8>, Fail> {
    let mut writer = Sink::new(alloc, 3, 4096);
    let mut page = Vec::from_slice(alloc, b"what stood there before")?;
    write_response_in(&mut page, &mut writer, &REPLY)?;
    Ok(writer.taken)
}

#[test]
fn writes_a_response(rt: HostRuntime) -> Result<(), Fail> {
    let text: &[u8] = b"HTTP/1.1 404 Not Found\r\nContent-Length: 2\r\n\r\nno";
    assert!(rt; written(rt.alloc())?.as_slice() == text);
    assert!(rt; written_in(rt.alloc())?.as_slice() == text);
    Ok(())
}
