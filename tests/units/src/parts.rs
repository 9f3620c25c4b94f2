//! Tests of small parts of the service, through public APIs only: rules for members, the log, the
//! rotation of journals, and the record of syncs.

mod logs;
mod rotation;
mod rules;
mod syncs;
