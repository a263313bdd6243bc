//! A long text of 64 parts joined out of an inbox, in memory: its parts in order, and last first, each twice.

use crate::clock::Times;
use boxes::{Inbox, PART_KIND};
use dr_base::{Position, TEXT_LIMIT};
use long_text::{LONG_LIMIT, long};
use std::alloc::Global;
use std::io::{self, Error, ErrorKind};
use std::rt::Clock;
use std::time::Instant;

/// How often each thing is measured.
const RUNS: usize = 31;

/// How many parts the text has.
const PARTS: u8 = 64;

/// The id of the text: this byte four times.
const ID: u32 = 0x0707_0707;

/// Puts the part of a number into an inbox; it is full of this byte.
fn put(inbox: &mut Inbox, number: u8) -> bool {
    let mut text = [7; TEXT_LIMIT];
    text[4] = number;
    text[5] = PARTS;
    let position = Position {
        epoch: 1,
        index: u32::from(number),
    };
    inbox.push(position, PART_KIND, &text).is_ok()
}

/// An inbox with all parts, in order, or from the last to the first and each of them twice.
fn inbox_of(alloc: Global, is_turned: bool) -> io::Result<Inbox> {
    let mut inbox = Inbox::new(alloc)?;
    let mut is_put = true;
    for number in 0..PARTS {
        if is_turned {
            let back = PARTS.wrapping_sub(number);
            is_put = put(&mut inbox, back) && put(&mut inbox, back) && is_put;
        } else {
            is_put = put(&mut inbox, number.wrapping_add(1)) && is_put;
        }
    }
    if is_put {
        return Ok(inbox);
    }
    Err(Error::from(ErrorKind::InvalidData))
}

/// The median time of joining, in microseconds.
fn time_joining<R: Clock + AllocGlobal>(
    rt: &R,
    inbox: &Inbox,
    into: &mut [u8; LONG_LIMIT],
) -> io::Result<u64> {
    let mut times = Times::new(rt.alloc());
    for _ in 0..RUNS {
        let start = Instant::now(rt)?;
        let joined = long(inbox, ID, into);
        times.add(rt, start)?;
        if joined.is_err() {
            return Err(Error::from(ErrorKind::InvalidData));
        }
    }
    Ok(times.median()? / 1000)
}

/// Prints a line.
pub fn report<R: Clock + Print + AllocGlobal>(rt: &R) -> io::Result<()> {
    let mut into = [0; LONG_LIMIT];
    let ordered = inbox_of(rt.alloc(), false)?;
    let once = time_joining(rt, &ordered, &mut into)?;
    let turned = inbox_of(rt.alloc(), true)?;
    let twice = time_joining(rt, &turned, &mut into)?;
    println!(rt;
        "a long text of 64 parts joined in memory: {once} us; out of 128 that stand last first, each twice: {twice} us"
    )
}
