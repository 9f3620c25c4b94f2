//! Inputs and outputs in memory, some of which fail.

use lra_audits::RunFault;
use lra_reports::Sources;
use std::io;
use std::io::{ErrorKind, Read, Write};

/// One text, under every name, that is read haltingly.
#[derive(Clone, Copy)]
pub struct Halts {
    pub text: &'static str,
    pub fails: bool,
}

impl Sources for Halts {
    type Input = Halting;

    type File = Halting;

    fn input(&self) -> Halting {
        Halting {
            left: self.text.as_bytes(),
            is_interrupted: false,
            fails: self.fails,
        }
    }

    fn open(&self, _name: &str) -> Result<Halting, RunFault> {
        Ok(self.input())
    }

    fn open_again(&self, _name: &str) -> Option<Halting> {
        Some(self.input())
    }
}

/// Reader of one byte a call, with an interruption before each. It ends or fails after the last.
#[derive(Drop)]
pub struct Halting {
    left: &'static [u8],
    is_interrupted: bool,
    fails: bool,
}

impl Read for Halting {
    fn read(&mut self, buf: &mut [u8]) -> io::Result<usize> {
        self.is_interrupted = !self.is_interrupted;
        if self.is_interrupted {
            return Err(io::Error::from(ErrorKind::Interrupted));
        }
        if self.fails && self.left.is_empty() {
            return Err(io::Error::from(ErrorKind::Other));
        }
        let room = buf.len().min(1);
        self.left.read(&mut buf[..room])
    }
}

/// Writer that accepts `room` bytes, and then fails.
#[derive(Drop)]
pub struct Full {
    pub room: usize,
}

impl Write for Full {
    fn write(&mut self, buf: &[u8]) -> io::Result<usize> {
        if self.room == 0 {
            return Err(io::Error::from(ErrorKind::Other));
        }
        let taken = self.room.min(buf.len());
        self.room -= taken;
        Ok(taken)
    }

    fn flush(&mut self) -> io::Result<()> {
        Ok(())
    }
}
