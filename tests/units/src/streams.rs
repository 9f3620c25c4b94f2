//! Tests of connections: HTTP messages, the interface that answers them, and callbacks to members.

mod coordinator;
mod courier;
mod front;
mod pieces;
mod rows;
mod wire;
