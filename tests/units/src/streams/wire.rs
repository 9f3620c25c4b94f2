//! HTTP/1.1 messages, read in pieces and written by turns.
mod memory;
mod messages;
mod writing;
