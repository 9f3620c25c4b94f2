//! A reader that gives its bytes in pieces, and a writer that accepts some bytes a call.
use lra_wire::Inbox;
use std::alloc::{AllocError, Global};
use std::io;
use std::io::{Read, Write};

/// Reader of at most `size` bytes a call. After its last byte it ends, or fails if `fails` is set.
#[derive(Drop)]
pub struct Pieces<'a> {
    pub rest: &'a [u8],
    pub size: usize,
    pub fails: bool,
}

impl Pieces<'_> {
    /// Returns a reader of a text in pieces of this size, which then ends.
    pub fn of(text: &str, size: usize) -> Pieces<'_> {
        Pieces {
            rest: text.as_bytes(),
            size,
            fails: false,
        }
    }
}

impl Read for Pieces<'_> {
    fn read(&mut self, buf: &mut [u8]) -> io::Result<usize> {
        if self.fails && self.rest.is_empty() {
            return Err(io::ErrorKind::Other.into());
        }
        let room = self.size.min(buf.len());
        self.rest.read(&mut buf[..room])
    }
}

/// Returns an inbox over bytes that come in pieces of this size. Then the reader ends or fails.
pub fn in_pieces(
    alloc: Global,
    rest: &[u8],
    size: usize,
    fails: bool,
) -> Result<Inbox<Pieces<'_>>, AllocError> {
    Inbox::new(alloc, Pieces { rest, size, fails })
}

/// Writer that accepts at most `size` bytes a call, and fails after `room` bytes.
#[derive(Drop)]
pub struct Sink {
    pub taken: Vec<u8>,
    pub size: usize,
    pub room: usize,
}

impl Sink {
    /// Returns a writer that has accepted nothing yet.
    pub fn new(alloc: Global, size: usize, room: usize) -> Sink {
        Sink {
            taken: Vec::new(alloc),
            size,
            room,
        }
    }
}

impl Write for Sink {
    fn write(&mut self, buf: &[u8]) -> io::Result<usize> {
        let left = self.room.saturating_sub(self.taken.len());
        if left == 0 {
            return Err(io::ErrorKind::Other.into());
        }
        let count = self.size.min(left).min(buf.len());
        self.taken.extend_from_slice(&buf[..count])?;
        Ok(count)
    }

    fn flush(&mut self) -> io::Result<()> {
        Ok(())
    }
}
