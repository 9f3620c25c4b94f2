//! Tests of the operators' server: whole requests and their replies, over a service with a small history.

mod requests;
mod toy;
