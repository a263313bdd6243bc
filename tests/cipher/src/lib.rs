//! Tests of the crates of symmetric cryptography, and of the tags of a relay's tokens: the vectors of
//! their standards, and values of other implementations.
#![tactic(auto)]

#[cfg(test)]
mod counted;
#[cfg(test)]
mod hashing;
#[cfg(test)]
mod key_stream;
#[cfg(test)]
mod message_keys;
#[cfg(test)]
mod root;
#[cfg(test)]
mod sealing;
#[cfg(test)]
mod tokens;
