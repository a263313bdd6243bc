//! A book of 3 sessions over the stand-in mechanism, and its whole disk after some calls, by an
//! independent implementation. Before each call the book is opened again.

use crate::tables::is_digest;
use bodies::Format;
use book::{Book, BookBeginError, BookRefusal, ForgetError};
use book_store::{BOOK_START, ROW_SIZE};
use client::{AREA_SIZE, Client, DropRefusal, SayRefusal, TakeRefusal};
use dr_base::{Key32, Position, Side};
use dr_disk::{Disk, MemoryDisk};
use dr_ports::SteadyDraws;
use kem_laws::OpenKem;
use session_model::Refusal;
use std::alloc::{AllocError, Global};
use std::test::Fail;

/// What is asked under a name.
#[derive(Clone, Copy)]
pub(crate) enum Call {
    Begin(Side, Format, u8),
    /// A text so many times, with a seed of this byte.
    Say(&'static str, usize, u8),
    /// The peer's packet of this position.
    Take(u32, u32),
    Done(u32),
    Sent(u32),
    Forget,
}

/// How it ends.
#[derive(Clone, Copy, PartialEq, Eq)]
pub(crate) enum Ends {
    Did,
    At(u32, u32),
    BadName,
    NameTaken,
    NoName,
    Full,
    Spent,
    TooLong,
    Fewer,
    Other,
}

use Call::{Begin, Done, Forget, Say, Sent, Take};
use Ends::{At, BadName, Did, Fewer, Full, NameTaken, NoName, Other, Spent, TooLong};

const LONG: &str = "xxxxxxxxxxxxxxxxxxxxxxxxxxxxxxxxxxxxxxxx";

/// The calls, how they end, and the digest of the disk, where it is looked at.
const EVENTS: [(&str, Call, Ends, &str); 27] = [
    ("bob", Begin(Side::Second, Format::Plain, 1), Did, ""),
    ("al-1", Begin(Side::First, Format::Padded, 2), Did, "e0e7aa1eea8ed209067d4843878ca42a28ecf888ff3fd6915118129a7cd31d61"),
    ("bob", Begin(Side::First, Format::Plain, 3), NameTaken, ""),
    ("Bob", Begin(Side::First, Format::Plain, 3), BadName, ""),
    ("bob", Say("hi", 1, 0), At(0, 1), ""),
    ("al-1", Say("hello", 1, 1), At(1, 1), ""),
    ("al-1", Take(2, 1), At(2, 1), "ac0d9faef76091c0a5d37fb175d7d965b136415c0f31a062a1ebbe86ec795cda"),
    ("al-1", Take(2, 1), Spent, ""),
    ("0", Begin(Side::Second, Format::Receipts, 4), Did, ""),
    ("zoe", Begin(Side::First, Format::Plain, 5), Full, ""),
    ("none", Say("x", 1, 0), NoName, ""),
    ("bob", Say("a", 3000, 0), At(0, 2), ""),
    ("bob", Say("b", 3000, 0), At(0, 3), ""),
    ("bob", Say("c", 4096, 0), At(0, 4), ""),
    ("bob", Take(1, 1), At(1, 1), "4daed8b43fb94c3522083016e42c273fc1730668448156e50bea82d16b15fdb5"),
    ("bob", Sent(4), Did, ""),
    ("bob", Sent(3), Fewer, ""),
    ("bob", Say("a", 4097, 0), TooLong, ""),
    ("bob", Done(1), Did, "028cfe24481841b4438e6b862e8d8b1aabf35ddf368b84f4155cf24642e0a149"),
    ("al-1", Forget, Did, ""),
    ("al-1", Forget, NoName, ""),
    (LONG, Begin(Side::First, Format::Plain, 6), Did, ""),
    (LONG, Say("e", 4096, 4), At(1, 1), ""),
    ("0", Done(1), Fewer, ""),
    ("bob", Forget, Did, ""),
    ("0", Forget, Did, ""),
    (LONG, Forget, Did, "6fbf711fd0bdad45dc2e33e80200c7a92679fb6d0f21120202bf45aebe889abf"),
];

fn key(byte: u8) -> Key32 {
    Key32 { bytes: [byte; 32] }
}

fn draws(alloc: Global, byte: u8) -> Result<SteadyDraws, AllocError> {
    SteadyDraws::new(alloc, &[key(byte)])
}

/// A text so many times.
fn text_of(alloc: Global, text: &str, times: usize) -> Result<Vec<u8>, AllocError> {
    let mut bytes = Vec::with_capacity(alloc, text.len() * times)?;
    for _ in 0..times {
        bytes.extend_from_slice(text.as_bytes())?;
    }
    Ok(bytes)
}

/// What the peer of a name has packed once it took the packet: a text of so many times a letter.
fn peers_packet(
    alloc: Global,
    book: &Book<OpenKem>,
    name: &str,
) -> Result<Option<Vec<u8>>, AllocError> {
    let (side, format, byte, text, times, seed) = match name {
        "bob" => (Side::First, Format::Plain, 1, "d", 4000, 3),
        _ => (Side::Second, Format::Padded, 2, "back", 1, 2),
    };
    let mut disk = MemoryDisk::new(alloc, AREA_SIZE)?;
    let begun = Client::<OpenKem>::begin(alloc, &mut disk, side, format, &key(byte));
    let (Ok(mut peer), Ok(Some((_, packet)))) = (begun, book.outbox(name, 0)) else {
        return Ok(None);
    };
    let said = text_of(alloc, text, times)?;
    let took = peer.take(&mut disk, packet).is_ok();
    if !took || peer.say(&mut disk, &said, &mut draws(alloc, seed)?).is_err() {
        return Ok(None);
    }
    match peer.outbox(0) {
        Some((_, packet)) => Ok(Some(packet.to_vec(alloc)?)),
        None => Ok(None),
    }
}

fn refused(refusal: Refusal) -> Ends {
    match refusal {
        Refusal::Spent(_) => Spent,
        Refusal::TextTooLong(_) => TooLong,
        Refusal::Fewer(_) => Fewer,
        _ => Other,
    }
}

fn at(position: Position) -> Ends {
    At(position.epoch, position.index)
}

fn said(answer: Result<Position, BookRefusal<SayRefusal>>) -> Ends {
    match answer {
        Ok(position) => at(position),
        Err(BookRefusal::NoName) => NoName,
        Err(BookRefusal::Of(SayRefusal::Refused(refusal))) => refused(refusal),
        Err(_) => Other,
    }
}

fn taken(answer: Result<Position, BookRefusal<TakeRefusal>>) -> Ends {
    match answer {
        Ok(position) => at(position),
        Err(BookRefusal::Of(TakeRefusal::Refused(refusal))) => refused(refusal),
        Err(_) => Other,
    }
}

fn dropped(answer: Result<(), BookRefusal<DropRefusal>>) -> Ends {
    match answer {
        Ok(()) => Did,
        Err(BookRefusal::Of(DropRefusal::Refused(refusal))) => refused(refusal),
        Err(_) => Other,
    }
}

fn begun(answer: Result<(), BookBeginError>) -> Ends {
    match answer {
        Ok(()) => Did,
        Err(BookBeginError::BadName) => BadName,
        Err(BookBeginError::NameTaken) => NameTaken,
        Err(BookBeginError::BookFull { rows: 3 }) => Full,
        Err(_) => Other,
    }
}

fn forgotten(answer: Result<(), ForgetError>) -> Ends {
    match answer {
        Ok(()) => Did,
        Err(ForgetError::NoName) => NoName,
        Err(_) => Other,
    }
}

/// The book is opened, and asked.
pub(crate) fn asked(
    alloc: Global,
    disk: &mut MemoryDisk,
    name: &str,
    call: Call,
) -> Result<Ends, AllocError> {
    let Ok(mut book) = Book::<OpenKem>::open(alloc, disk, 3) else {
        return Ok(Other);
    };
    Ok(match call {
        Begin(side, format, byte) => begun(book.begin(alloc, disk, name, side, format, &key(byte))),
        Say(text, times, seed) => {
            let text = text_of(alloc, text, times)?;
            said(book.say(disk, name, &text, &mut draws(alloc, seed)?))
        }
        Take(_, _) => match peers_packet(alloc, &book, name)? {
            Some(packet) => taken(book.take(disk, name, &packet)),
            None => Other,
        },
        Done(n) => dropped(book.done(disk, name, n)),
        Sent(n) => dropped(book.sent(disk, name, n)),
        Forget => forgotten(book.forget(disk, name)),
    })
}

/// Whether the disk has a digest, where one is given.
fn has_digest(alloc: Global, disk: &mut MemoryDisk, sha256: &str) -> Result<bool, AllocError> {
    if sha256 == "" {
        return Ok(true);
    }
    let mut bytes = vec![in alloc; 0; (BOOK_START + 3 * ROW_SIZE) as usize]?;
    Ok(disk.read(0, &mut bytes).is_ok() && is_digest(alloc, &bytes, sha256)?)
}

/// Whether each call ends as it has to, and leaves the disk.
fn goes_on(alloc: Global) -> Result<bool, AllocError> {
    let mut disk = MemoryDisk::new(alloc, BOOK_START + 3 * ROW_SIZE)?;
    for (name, call, wanted, sha256) in &EVENTS {
        let ended = asked(alloc, &mut disk, name, *call)?;
        if ended != *wanted || !has_digest(alloc, &mut disk, sha256)? {
            return Ok(false);
        }
    }
    Ok(true)
}

#[test]
fn sessions_under_names(rt: HostRuntime) -> Result<(), Fail> {
    assert!(rt; goes_on(rt.alloc())?);
    Ok(())
}
