//! Tests of the crates of the key encapsulation: rows worked by hand, and values of an independent
//! implementation.
#![tactic(auto)]

#[cfg(test)]
mod drawing;
#[cfg(test)]
mod encodings;
#[cfg(test)]
mod mechanism;
#[cfg(test)]
mod ring;
#[cfg(test)]
mod vectors;
