//! A courier over sockets.
use super::errands::errand_to;
use super::forget;
use crate::streams::rows::parted;
use lra_core::Errand;
use lra_courier::{Courier, TcpCourier};
use lra_model::Outcome;
use std::alloc::Global;
use std::io;
use std::io::{Read, Write};
use std::net::{Ipv4Addr, Net, SocketAddr, TcpListener, TcpStream};
use std::test::Fail;
use std::thread::join;

fn listen<N>(rt: &N) -> io::Result<(TcpListener, SocketAddr)>
where
    N: Net<Listener = TcpListener, Stream = TcpStream>,
{
    let listener = TcpListener::bind(rt, SocketAddr::from((Ipv4Addr::LOCALHOST, 0)))?;
    let addr = listener.local_addr()?;
    Ok((listener, addr))
}

// Accepts a connection, and sends a response once the head of a request has come.
fn answer(listener: &TcpListener, response: &str) -> io::Result<()> {
    let (mut stream, _) = listener.accept()?;
    let mut last = [0u8; 4];
    for _ in 0..4096 {
        let mut byte = [0u8];
        if last == *b"\r\n\r\n" || stream.read(&mut byte)? == 0 {
            break;
        }
        last = [last[1], last[2], last[3], byte[0]];
    }
    stream.write_all(response.as_bytes())
}

// Returns addresses at a port of this host: to compensate, to complete, and for the status.
fn addresses(alloc: Global, port: u16) -> String {
    let addresses = format!(in alloc;
        "http://127.0.0.1:{port}/u http://127.0.0.1:{port}/c http://127.0.0.1:{port}/s"
    );
    addresses.unwrap_or(String::new(alloc))
}

const DONE: &str = "HTTP/1.1 204 No Content\r\n\r\n";

#[test]
fn a_reply_comes_over_a_socket(rt: HostRuntime) -> Result<(), Fail> {
    let (listener, addr) = listen(&rt)?;
    let addresses = addresses(rt.alloc(), addr.port());
    let (address, _) = parted(addresses.as_str(), " ");
    let courier = TcpCourier::new(&rt, rt.alloc());
    for (response, outcome) in [
        (DONE, Outcome::Done),
        ("HTTP/1.1 500 Oops\r\n\r\n", Outcome::Silent),
        ("", Outcome::Silent),
    ] {
        let (found, _) = join(
            &rt,
            || courier.call(&forget(address)),
            || answer(&listener, response),
        );
        assert!(rt; found == outcome, "{response}");
    }
    drop(listener);
    let found = courier.call(&forget(address));
    assert!(rt; found == Outcome::Silent);
    Ok(())
}

// Returns an errand to a member at a port of this host.
fn errand_at(alloc: Global, port: u16) -> Option<Errand> {
    let addresses = addresses(alloc, port);
    let errand = errand_to(alloc, addresses.as_str());
    drop(addresses);
    errand
}

#[test]
fn an_errand_is_carried_over_a_socket(rt: HostRuntime) -> Result<(), Fail> {
    let (listener, addr) = listen(&rt)?;
    let Some(errand) = errand_at(rt.alloc(), addr.port()) else {
        return Err("no one is to be asked")?;
    };
    let mut courier = TcpCourier::new(&rt, rt.alloc());
    let (found, _) = join(&rt, || courier.carry(&errand), || answer(&listener, DONE));
    errand.discard();
    assert!(rt; found == Outcome::Done);
    Ok(())
}
