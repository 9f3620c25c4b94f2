//! Tests of the crates below, each through its public API only.

mod auditor;
mod ids;
mod journal;
mod model;
mod runs;
mod tables;
mod texts;
mod timers;
