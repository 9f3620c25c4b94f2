//! Tests: scripts of commands with their answers and lines, at a coordinator and at an office.

mod answers;
mod coordinator;
mod errands;
mod office;
mod openings;
mod rows;
mod same;
mod spelling;
mod words;
