//! Tests of the crates below the client: packets and what they seal, sessions and records.
#![tactic(auto)]

#[cfg(test)]
mod awaiting_damage;
#[cfg(test)]
mod conversation;
#[cfg(test)]
mod covers;
#[cfg(test)]
mod damage;
#[cfg(test)]
mod ends;
#[cfg(test)]
mod fifth;
#[cfg(test)]
mod filled;
#[cfg(test)]
mod formats;
#[cfg(test)]
mod fourth;
#[cfg(test)]
mod full_receipts;
#[cfg(test)]
mod kinds;
#[cfg(test)]
mod later_packets;
#[cfg(test)]
mod limits;
#[cfg(test)]
mod misread;
#[cfg(test)]
mod missing;
#[cfg(test)]
mod packets;
#[cfg(test)]
mod padded;
#[cfg(test)]
mod parts;
#[cfg(test)]
mod party;
#[cfg(test)]
mod receipts;
#[cfg(test)]
mod record;
#[cfg(test)]
mod said_receipts;
#[cfg(test)]
mod versions;
#[cfg(test)]
mod waiting;
