//! Tests of offices, of the lock that they use, and of their workers, through the public API of these crates only.

mod clerks;
mod connections;
mod faulty;
mod making;
mod scribe;
mod signals;
mod stopping;
mod threads;
mod ticket;
mod workers;
