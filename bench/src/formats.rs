//! The three formats beside each other: a text in an epoch, said by one side and taken by the other, in memory.

use crate::clock::Times;
use crate::party::{Party, Rooms, parties, pass, say};
use bodies::Format;
use kem_laws::{Kem, OpenKem};
use std::io;
use std::rt::Clock;
use std::time::Instant;

/// How many texts are measured in each format, in rounds of which each format has one after the other.
const ROUNDS: usize = 40;

const TEXTS: usize = 501;

/// A text whose packet seals 1,280 bytes: in plain all of them are the text's.
const PLAIN: [u8; 1280] = [1; 1280];

/// Padded, 78 of them are the length and the zeros behind it; with receipts that list nothing, 12 more of these are a receipt's.
const PADDED: [u8; 1200] = [1; 1200];

/// With a receipt that lists 32 missing texts in 266 bytes.
const LISTING: [u8; 1000] = [1; 1000];

/// How many texts are missing then.
const MISSING: usize = 32;

/// Second says twice as many texts as First is to miss, which takes each second one.
fn miss<K: Kem>(first: &mut Party<K>, second: &mut Party<K>, work: &mut K::Work, missing: usize) {
    let mut rooms = Rooms::new();
    for _ in 0..missing {
        say(second, work, &PADDED, 1, &mut rooms.packet);
        let _lost = second.outbox.drop_first(1);
        pass(second, first, work, (&PADDED, 1), &mut rooms);
    }
}

/// First says texts in its epoch, which Second takes. The time of each is added.
fn pass_texts<K: Kem, R: Clock>(
    rt: &R,
    (first, second): (&mut Party<K>, &mut Party<K>),
    work: &mut K::Work,
    text: &[u8],
    times: &mut Times,
) -> io::Result<()> {
    let mut rooms = Rooms::new();
    for _ in 0..TEXTS {
        let start = Instant::now(rt)?;
        pass(first, second, work, (text, 1), &mut rooms);
        times.add(rt, start)?;
    }
    Ok(())
}

/// A conversation in a format, in which First misses so many texts, and says this one again and again.
fn converse<R: Clock + AllocGlobal>(
    rt: &R,
    (format, missing, text): (Format, usize, &[u8]),
    times: &mut Times,
) -> io::Result<()> {
    let (mut first, mut second) = parties::<OpenKem>(rt.alloc(), &mut (), format)?;
    miss(&mut first, &mut second, &mut (), missing);
    pass_texts(rt, (&mut first, &mut second), &mut (), text, times)
}

/// Prints a line.
pub fn report<R: Clock + Print + AllocGlobal>(rt: &R) -> io::Result<()> {
    let mut plain = Times::new(rt.alloc());
    let mut padded = Times::new(rt.alloc());
    let mut receipts = Times::new(rt.alloc());
    let mut listing = Times::new(rt.alloc());
    for _ in 0..ROUNDS {
        converse(rt, (Format::Plain, 0, &PLAIN), &mut plain)?;
        converse(rt, (Format::Padded, 0, &PADDED), &mut padded)?;
        converse(rt, (Format::Receipts, 0, &PADDED), &mut receipts)?;
        converse(rt, (Format::Receipts, MISSING, &LISTING), &mut listing)?;
    }
    let (plain, padded) = (plain.median()?, padded.median()?);
    let (receipts, listing) = (receipts.median()?, listing.median()?);
    println!(rt;
        "said and taken, 1280 bytes sealed: {plain} ns plain, {padded} ns padded, {receipts} ns with receipts, {listing} ns with 32 texts listed"
    )
}
