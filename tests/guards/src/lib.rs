//! Tests of a relay's boxes: who is served, and what their records are, by another implementation.
#![tactic(auto)]

#[cfg(test)]
mod guarded;
#[cfg(test)]
mod records;
#[cfg(test)]
mod refusals;
