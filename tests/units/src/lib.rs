//! Tests of the crates by calls of their public surface. They are run, and not proved.

#[cfg(test)]
mod callbacks;
#[cfg(test)]
mod durable;
#[cfg(test)]
mod journal_sets;
#[cfg(test)]
mod office;
#[cfg(test)]
mod operators;
#[cfg(test)]
mod parts;
#[cfg(test)]
mod scripts;
#[cfg(test)]
mod streams;
#[cfg(test)]
mod vectors;
