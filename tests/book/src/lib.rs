//! Tests of the address book: its tables and their damage, how they change, and a book of sessions,
//! by another implementation; and that what is asked under other names changes no answer.
#![tactic(auto)]

#[cfg(test)]
mod changes;
#[cfg(test)]
mod damage;
#[cfg(test)]
mod independence;
#[cfg(test)]
mod opening;
#[cfg(test)]
mod sessions;
#[cfg(test)]
mod tables;
