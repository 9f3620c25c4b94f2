//! Two threads that serve connections at an office, and their client over sockets.

use crate::office::making::{enrolled_two, made, shut};
use crate::office::workers::Still;
use lra_office::{Clerk, LockedService, OfficeOf};
use lra_ticket::Pass;
use lra_workers::{ServeEnd, serve_connections};
use std::alloc::Global;
use std::io::{self, Read, Write};
use std::marker::Send;
use std::net::{Ipv4Addr, Net, SocketAddr, TcpListener, TcpStream};
use std::str::from_utf8;
use std::sync::{Mutex, Wait};
use std::test::Fail;
use std::thread::{Threads, join};

/// Requests: a start; the close of that action; a join after that; and the status of an action that doesn't exist.
const REQUESTS: &str = "POST /lra-coordinator HTTP/1.1\r
Host: 127.0.0.1:8080\r
\r
PUT /lra-coordinator/00000000-0000-8007-8000-000000000001/close HTTP/1.1\r
Host: 127.0.0.1:8080\r
Content-Length: 0\r
\r
PUT /lra-coordinator/00000000-0000-8007-8000-000000000001 HTTP/1.1\r
Host: 127.0.0.1:8080\r
Content-Length: 32\r
\r
{\"compensate\":\"http://p.test/u\"}GET /lra-coordinator/00000000-0000-8007-8000-000000000002 HTTP/1.1\r
Host: 127.0.0.1:8080\r
\r
";

/// Replies to the requests, byte for byte.
const REPLIES: &str = "HTTP/1.1 201 Created\r
Content-Type: application/json\r
Content-Length: 84\r
Location: http://127.0.0.1:8080/lra-coordinator/00000000-0000-8007-8000-000000000001\r
Long-Running-Action: http://127.0.0.1:8080/lra-coordinator/00000000-0000-8007-8000-000000000001\r
\r
{\"lra\":\"http://127.0.0.1:8080/lra-coordinator/00000000-0000-8007-8000-000000000001\"}HTTP/1.1 200 OK\r
Content-Type: application/json\r
Content-Length: 19\r
\r
{\"status\":\"Closed\"}HTTP/1.1 412 Precondition Failed\r
Content-Type: application/json\r
Content-Length: 39\r
\r
{\"error\":\"NotActive\",\"status\":\"Closed\"}HTTP/1.1 404 Not Found\r
Content-Type: application/json\r
Content-Length: 24\r
\r
{\"error\":\"NoSuchAction\"}";

/// Sends the requests over one connection, and returns as many bytes as the replies have to have. Then it opens one
/// more.
fn visit<R>(rt: &R, alloc: Global, address: SocketAddr) -> io::Result<Vec<u8>>
where
    R: Net<Listener = TcpListener, Stream = TcpStream>,
{
    let mut replies = Vec::new(alloc);
    replies.resize(REPLIES.len(), 0)?;
    let mut stream = TcpStream::connect(rt, address)?;
    stream.write_all(REQUESTS.as_bytes())?;
    stream.read_exact(replies.as_mut_slice())?;
    drop(stream);
    TcpStream::connect(rt, address)?;
    Ok(replies)
}

/// Serves one connection, and returns whether it ends well.
fn answers_one<V: LockedService, R: Wait>(
    rt: &R,
    alloc: Global,
    acceptor: &Mutex<TcpListener>,
    office: &OfficeOf<V>,
    clerk: Clerk<V>,
) -> (Clerk<V>, bool) {
    let mut clock = Still;
    let (clerk, end) = serve_connections(rt, alloc, acceptor, office, clerk, &mut clock, 1);
    (clerk, end == ServeEnd::Done)
}

/// Serves a connection in each of two threads, and returns whether both end well.
fn two_answer<V: LockedService + Send, R: Threads + Wait + Sync>(
    rt: &R,
    alloc: Global,
    acceptor: &Mutex<TcpListener>,
    office: &OfficeOf<V>,
    first: Clerk<V>,
    second: Clerk<V>,
) -> (Clerk<V>, bool) {
    let (one, other) = join(
        rt,
        move || -> (Clerk<V>, bool) { answers_one(rt, alloc, acceptor, office, first) },
        move || -> (Clerk<V>, bool) { answers_one(rt, alloc, acceptor, office, second) },
    );
    let (clerk, has_ended) = one;
    let (other, other_has_ended) = other;
    drop(other);
    (clerk, has_ended && other_has_ended)
}

/// A flag, set if both serving threads end well, and the bytes that the client reads.
type Visited = (bool, io::Result<Vec<u8>>);

/// Serves a connection by each of two workers, beside a client. Returns whether both end well, and the bytes that the
/// client reads.
fn visited<
    V: LockedService + Send,
    R: Threads + Wait + Sync + Net<Listener = TcpListener, Stream = TcpStream>,
>(
    rt: &R,
    alloc: Global,
    office: &OfficeOf<V>,
    pass: Pass<V>,
    acceptor: &Mutex<TcpListener>,
    address: SocketAddr,
) -> Result<(Clerk<V>, Visited), Fail> {
    let (first, second) = enrolled_two(rt, office, pass)?;
    let ((clerk, have_ended), replies) = join(
        rt,
        move || -> (Clerk<V>, bool) { two_answer(rt, alloc, acceptor, office, first, second) },
        move || visit(rt, alloc, address),
    );
    Ok((clerk, (have_ended, replies)))
}

/// Runs `visited` at a new office, and returns its writer too.
fn visited_at<
    W: Write + Drop + Send,
    R: Threads + Wait + Sync + Net<Listener = TcpListener, Stream = TcpStream>,
>(
    rt: &R,
    alloc: Global,
    writer: W,
    acceptor: &Mutex<TcpListener>,
    address: SocketAddr,
) -> Result<(W, Visited), Fail> {
    let (office, pass) = made(alloc, writer)?;
    let worked = visited(rt, alloc, &office, pass, acceptor, address);
    shut(office, worked)
}

#[test]
fn two_threads_answer_connections(rt: HostRuntime) -> Result<(), Fail> {
    let alloc = rt.alloc();
    let listener = TcpListener::bind(&rt, SocketAddr::from((Ipv4Addr::LOCALHOST, 0)))?;
    let address = listener.local_addr()?;
    let acceptor = Mutex::new(listener);
    let (_, (have_ended, replies)) = visited_at(&rt, alloc, Vec::new(alloc), &acceptor, address)?;
    assert!(rt; have_ended);
    assert_eq!(rt; from_utf8(&replies?)?, REPLIES);
    Ok(())
}
