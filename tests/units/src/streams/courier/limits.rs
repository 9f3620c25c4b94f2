//! A courier over a network and a clock in memory.
use super::forget;
use crate::streams::rows::{number, parted};
use lra_courier::TcpCourier;
use std::alloc::{AllocError, Global};
use std::cell::Cell;
use std::io;
use std::io::{ErrorKind, Read, Write};
use std::net::{Ipv4Addr, Net, OpenListener, OpenStream, SocketAddr};
use std::os::fd::{AsRawFd, RawFd};
use std::time::{Clock, Duration};

const RESPONSE: &[u8] = b"HTTP/1.1 204 x\r\n\r\n";

/// Clock and network of a test. Times are in seconds.
#[derive(Drop)]
struct World {
    now: Cell<u64>,
    /// Number of connections that were asked for, and the port of the last one.
    connects: Cell<u64>,
    port: Cell<u16>,
    /// Number of connections that fail: the first ones.
    failing: u64,
    connect_secs: u64,
    read_secs: u64,
}

impl World {
    fn new(failing: u64, connect_secs: u64, read_secs: u64) -> World {
        World {
            now: Cell::new(1_000),
            connects: Cell::new(0),
            port: Cell::new(0),
            failing,
            connect_secs,
            read_secs,
        }
    }

    fn wait(&self, secs: u64) {
        self.now.set(self.now.get().saturating_add(secs));
    }
}

/// Handle to the network and the clock of a world.
#[derive(Clone, Copy)]
struct Handle<'a> {
    world: &'a World,
}

impl Clock for Handle<'_> {
    fn monotonic(&self) -> io::Result<Duration> {
        Ok(Duration::from_secs(self.world.now.get()))
    }

    fn since_1970(&self) -> io::Result<Duration> {
        Err(ErrorKind::Unsupported.into())
    }
}

/// Connection whose response comes byte by byte.
#[derive(Drop)]
struct Slow<'a> {
    world: &'a World,
    left: &'static [u8],
}

impl Read for Slow<'_> {
    fn read(&mut self, buf: &mut [u8]) -> io::Result<usize> {
        self.world.wait(self.world.read_secs);
        let room = buf.len().min(1);
        self.left.read(&mut buf[..room])
    }
}

impl Write for Slow<'_> {
    fn write(&mut self, buf: &[u8]) -> io::Result<usize> {
        Ok(buf.len())
    }

    fn flush(&mut self) -> io::Result<()> {
        Ok(())
    }
}

impl OpenStream for Slow<'_> {
    fn set_nodelay(&self, _nodelay: bool) -> io::Result<()> {
        Ok(())
    }

    fn set_read_timeout(&self, _dur: Option<Duration>) -> io::Result<()> {
        Ok(())
    }

    fn set_write_timeout(&self, _dur: Option<Duration>) -> io::Result<()> {
        Ok(())
    }
}

impl AsRawFd for Slow<'_> {
    fn as_raw_fd(&self) -> RawFd {
        -1
    }
}

/// Listener that accepts no connection.
#[derive(Drop)]
struct Deaf<'a> {
    world: &'a World,
}

impl<'a> OpenListener for Deaf<'a> {
    type Stream = Slow<'a>;

    fn accept(&self) -> io::Result<(Slow<'a>, SocketAddr)> {
        Err(ErrorKind::Unsupported.into())
    }
}

impl AsRawFd for Deaf<'_> {
    fn as_raw_fd(&self) -> RawFd {
        -1
    }
}

impl<'a> Net for Handle<'a> {
    type Stream = Slow<'a>;

    type Listener = Deaf<'a>;

    fn bind(&self, _addr: SocketAddr) -> io::Result<Deaf<'a>> {
        Err(ErrorKind::Unsupported.into())
    }

    fn connect(&self, _addr: SocketAddr) -> io::Result<Slow<'a>> {
        Err(ErrorKind::Unsupported.into())
    }

    fn connect_timeout(&self, addr: SocketAddr, _timeout: Duration) -> io::Result<Slow<'a>> {
        let world = self.world;
        world.wait(world.connect_secs);
        world.connects.set(world.connects.get().saturating_add(1));
        world.port.set(addr.port());
        if world.connects.get() <= world.failing {
            return Err(ErrorKind::ConnectionRefused.into());
        }
        Ok(Slow {
            world,
            left: RESPONSE,
        })
    }

    // Each name has two addresses.
    fn lookup_host(&self, _host: &str, port: u16, found: &mut [SocketAddr]) -> io::Result<usize> {
        let addr = SocketAddr::from((Ipv4Addr::LOCALHOST, port));
        let count = found.len().min(2);
        for slot in &mut found[..count] {
            *slot = addr;
        }
        Ok(count)
    }
}

/// Number of connections that fail, seconds of each connection and of each read, address of a call, and its outcome.
/// Where it matters, the last port and the number of connections follow. The port is the address's, or 80. The limit of
/// 30 s is for all reads together: the response comes in 18 reads, and the last one begins after 17 of them. The limit
/// of 5 s is for all addresses together: a name has two.
const CALLS: &str = "\
0 0 0 http://127.0.0.1/f -> done, port 80,
0 0 0 http://127.0.0.1:9000/f -> done, port 9000,
0 0 0 http://[::1]/f -> done, port 80,
0 0 0 http://[::1]:81/f -> done, port 81,
0 0 0 http://p.test/f -> done, port 80,
0 0 0 http://p.test:8081/f -> done, port 8081,
0 0 1 http://127.0.0.1:9000/f -> done,
0 12 1 http://127.0.0.1:9000/f -> done,
0 13 1 http://127.0.0.1:9000/f -> silent,
0 0 2 http://127.0.0.1:9000/f -> silent,
0 0 40 http://127.0.0.1:9000/f -> silent,
0 4 0 http://p.test/f -> done, port 80, 1 connections
1 4 0 http://p.test/f -> done, port 80, 2 connections
1 5 0 http://p.test/f -> silent, port 80, 1 connections
2 1 0 http://p.test/f -> silent, port 80, 2 connections";

/// Returns the outcome of a call in a world, with the last port and the number of connections.
fn told(alloc: Global, world: &World, address: &str) -> Result<String, AllocError> {
    let outcome = TcpCourier::new(Handle { world }, alloc).call(&forget(address));
    let (name, port, connects) = (outcome.name(), world.port.get(), world.connects.get());
    format!(in alloc; "{name}, port {port}, {connects} connections")
}

/// Returns whether a call has the wanted result in a world.
fn comes_to(alloc: Global, world: &World, address: &str, wanted: &str) -> bool {
    match &told(alloc, world, address) {
        Ok(told) => told.as_str().starts_with(wanted),
        Err(_) => false,
    }
}

/// Returns whether the call of a row has the row's result.
fn row_holds(alloc: Global, row: &str) -> Option<bool> {
    let (failing, row) = parted(row, " ");
    let (connect_secs, row) = parted(row, " ");
    let (read_secs, row) = parted(row, " ");
    let (address, wanted) = parted(row, " -> ");
    let world = World::new(number(failing)?, number(connect_secs)?, number(read_secs)?);
    Some(comes_to(alloc, &world, address, wanted))
}

#[test]
fn a_call_keeps_to_its_port_and_to_the_limits(rt: HostRuntime) {
    for row in CALLS.lines() {
        assert!(rt; row_holds(rt.alloc(), row) == Some(true), "{row}");
    }
}
