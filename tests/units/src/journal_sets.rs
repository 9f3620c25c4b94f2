//! Tests of a journal set: which member a request goes to. The members are counters of the orders that they are given.

mod counter;
mod routes;
mod streams;
