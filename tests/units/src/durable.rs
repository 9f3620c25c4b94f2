//! Tests of what disks accept and make durable: disks in memory, and a storage's disk over the system's files. They use
//! public APIs only.

mod fences;
mod files;
mod platter;
mod sharing;
mod writing;
