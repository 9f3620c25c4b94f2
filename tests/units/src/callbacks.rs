//! Tests of callbacks, many of which are under way at once.

mod callbacks;
mod members;
mod ruled;
mod setting;
mod shared;
mod spared;
mod waiting;
