//! Tests of long texts: values by an independent implementation.
#![tactic(auto)]

#[cfg(test)]
mod cutting;
#[cfg(test)]
mod joining;
#[cfg(test)]
mod parts;
