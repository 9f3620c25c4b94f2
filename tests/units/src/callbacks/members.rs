//! Members at ports of this host.

use std::alloc::Global;
use std::io;
use std::io::{Read, Write};
use std::net::{Ipv4Addr, Net, SocketAddr, TcpListener, TcpStream};

/// Opens a listener at a free port, and returns it with the port.
pub fn listen<N>(rt: &N) -> io::Result<(TcpListener, u16)>
where
    N: Net<Listener = TcpListener, Stream = TcpStream>,
{
    let listener = TcpListener::bind(rt, SocketAddr::from((Ipv4Addr::LOCALHOST, 0)))?;
    let port = listener.local_addr()?.port();
    Ok((listener, port))
}

/// Returns a host with that port.
pub fn socket_at(alloc: Global, host: &str, port: u16) -> String {
    format!(in alloc; "{host}:{port}").unwrap_or(String::new(alloc))
}

/// Reads a request's head.
fn read_head(stream: &mut TcpStream) -> io::Result<()> {
    let mut last = [0u8; 4];
    for _ in 0..4096 {
        let mut byte = [0u8];
        if last == *b"\r\n\r\n" || stream.read(&mut byte)? == 0 {
            break;
        }
        last = [last[1], last[2], last[3], byte[0]];
    }
    Ok(())
}

/// Accepts a connection, and once the head of a request has come writes the response, in pieces of `at_once` bytes.
pub fn serve(listener: &TcpListener, response: &str, at_once: usize) -> io::Result<()> {
    let (mut stream, _) = listener.accept()?;
    read_head(&mut stream)?;
    for piece in response.as_bytes().chunks(at_once.max(1)) {
        stream.write_all(piece)?;
    }
    Ok(())
}

/// Serves `count` connections with this response.
pub fn serve_all(listener: &TcpListener, response: &str, count: u64) {
    for _ in 0..count {
        let _ = serve(listener, response, 4096);
    }
}
