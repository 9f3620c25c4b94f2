//! Calls that are refused a growth: run with one allocation failing in turn.
use crate::streams::pieces::{Sink, in_pieces};
use lra_wire::{RequestWrite, WireFault, read_request, read_response, write_request};
use std::alloc::Global;

// Returns whether a request is read, or memory refused.
fn request_is_read(alloc: Global) -> bool {
    let bytes: &[u8] = b"PUT /a HTTP/1.0\r\nContent-Length: 2\r\n\r\nok";
    let Ok(mut inbox) = in_pieces(alloc, bytes, 30, false) else {
        return true;
    };
    match &read_request(alloc, &mut inbox) {
        Ok(Some(put)) => put.body.as_slice() == b"ok".as_slice(),
        Ok(None) => false,
        Err(fault) => *fault == WireFault::Memory,
    }
}

#[test]
fn a_refused_growth_is_memory_at_a_request(rt: HostRuntime) {
    assert!(rt; request_is_read(rt.alloc()));
}

// Returns whether a response is read, or memory refused.
fn response_is_read(alloc: Global) -> bool {
    let bytes: &[u8] =
        b"HTTP/1.1 200 OK\r\nTransfer-Encoding: chunked\r\n\r\n9\r\nCompleted\r\n0\r\n\r\n";
    let Ok(mut inbox) = in_pieces(alloc, bytes, 30, false) else {
        return true;
    };
    match &read_response(alloc, &mut inbox) {
        Ok(response) => response.body.as_slice() == b"Completed".as_slice(),
        Err(fault) => *fault == WireFault::Memory,
    }
}

#[test]
fn a_refused_growth_is_memory_at_a_response(rt: HostRuntime) {
    assert!(rt; response_is_read(rt.alloc()));
}

// Returns whether a request is written whole, or memory is refused and nothing is written.
fn request_is_written(alloc: Global, writer: &mut Sink) -> bool {
    let request = RequestWrite {
        method: "PUT",
        target: "/a",
        fields: &[("Host", "x")],
        body: b"ok",
    };
    match write_request(alloc, writer, &request) {
        Ok(()) => writer.taken.as_slice() == b"PUT /a HTTP/1.1\r\nHost: x\r\n\r\nok".as_slice(),
        Err(fault) => fault == WireFault::Memory && writer.taken.is_empty(),
    }
}

#[test]
fn a_refused_growth_writes_nothing(rt: HostRuntime) {
    if let Ok(taken) = Vec::with_capacity(rt.alloc(), 64) {
        let mut writer = Sink {
            taken,
            size: 100,
            room: 64,
        };
        assert!(rt; request_is_written(rt.alloc(), &mut writer));
    }
}
