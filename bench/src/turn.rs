//! A text that one side says and the other takes, in memory: in an epoch, and with a turn.

use crate::clock::Times;
use crate::party::{Party, Rooms, parties, pass, say};
use bodies::Format;
use dr_base::KEPT_LIMIT;
use kem_laws::{Kem, OpenKem};
use ratchet::PacketRoom;
use sntrup761::Sntrup761;
use std::io;
use std::rt::Clock;
use std::time::Instant;

/// How many texts of an epoch are measured: the first hundreds find cold caches, so the middle is that of texts in a row.
const TEXTS: usize = 20_001;

/// How many turns are measured.
const TURNS: usize = 201;

/// What is said.
const TEXT: [u8; 100] = [1; 100];

/// Passes so many texts of one side in an epoch, and adds the time of each.
fn pass_texts<K: Kem, R: Clock>(
    rt: &R,
    from: &mut Party<K>,
    to: &mut Party<K>,
    work: &mut K::Work,
    texts: usize,
    times: &mut Times,
) -> io::Result<()> {
    let mut rooms = Rooms::new();
    for _ in 0..texts {
        let start = Instant::now(rt)?;
        pass(from, to, work, (&TEXT, 1), &mut rooms);
        times.add(rt, start)?;
    }
    Ok(())
}

/// Passes texts of both sides in turn, each of which begins an epoch, and adds the time of each.
fn pass_turns<K: Kem, R: Clock>(
    rt: &R,
    first: &mut Party<K>,
    second: &mut Party<K>,
    work: &mut K::Work,
    times: &mut Times,
) -> io::Result<()> {
    let mut rooms = Rooms::new();
    for run in 0..TURNS {
        let byte = (run % 128) as u8;
        let start = Instant::now(rt)?;
        if run % 2 == 0 {
            pass(first, second, work, (&TEXT, byte), &mut rooms);
        } else {
            pass(second, first, work, (&TEXT, byte), &mut rooms);
        }
        times.add(rt, start)?;
    }
    Ok(())
}

/// The median time of a text in an epoch, said by one side and taken by the other while so many keys are kept, in nanoseconds.
pub fn time_text<K: Kem, R: Clock + AllocGlobal>(
    rt: &R,
    work: &mut K::Work,
    kept: usize,
    texts: usize,
) -> io::Result<u64> {
    let (mut first, mut second) = parties::<K>(rt.alloc(), work, Format::Plain)?;
    let mut room = PacketRoom::new();
    for _ in 0..kept {
        say(&mut second, work, &TEXT, 1, &mut room);
        let _lost = second.outbox.drop_first(1);
    }
    let mut times = Times::new(rt.alloc());
    pass_texts(rt, &mut second, &mut first, work, texts, &mut times)?;
    times.median()
}

/// The median time of a text that begins an epoch, said by one side and taken by the other, in nanoseconds.
fn time_turn<K: Kem, R: Clock + AllocGlobal>(rt: &R, work: &mut K::Work) -> io::Result<u64> {
    let (mut first, mut second) = parties::<K>(rt.alloc(), work, Format::Plain)?;
    let mut times = Times::new(rt.alloc());
    pass_turns(rt, &mut first, &mut second, work, &mut times)?;
    times.median()
}

/// Prints a line for each.
pub fn report<R: Clock + Print + AllocGlobal>(rt: &R) -> io::Result<()> {
    let mut work = Sntrup761::work(rt.alloc())?;
    let text = time_text::<OpenKem, R>(rt, &mut (), 0, TEXTS)?;
    let half = time_text::<OpenKem, R>(rt, &mut (), KEPT_LIMIT / 2, TEXTS)?;
    let full = time_text::<OpenKem, R>(rt, &mut (), KEPT_LIMIT, TEXTS)?;
    let stand_in = time_turn::<OpenKem, R>(rt, &mut ())?;
    let turn = time_turn::<Sntrup761, R>(rt, &mut work)?;
    println!(rt;
        "said and taken: a text in an epoch {text} ns, {half} and {full} ns while half and all keys are kept; a turn {stand_in} ns with the stand-in, {turn} ns with sntrup761"
    )
}
