//! What is answered under one name hangs on nothing that is asked under another: two lists of calls
//! on books of 3 rows, with the same calls for one name.

use crate::sessions::Call::{Begin, Done, Forget, Say, Sent, Take};
use crate::sessions::Ends::{At, Did, Fewer, NoName, TooLong};
use crate::sessions::{Call, Ends, asked};
use bodies::Format;
use book::Book;
use book_store::{BOOK_START, ROW_SIZE};
use dr_base::Side;
use dr_disk::MemoryDisk;
use kem_laws::OpenKem;
use std::alloc::{AllocError, Global};
use std::test::Fail;

/// How the calls for the name end.
const BOBS: [Ends; 11] =
    [NoName, Did, At(0, 1), At(0, 2), At(1, 1), Did, Fewer, Did, TooLong, Did, NoName];

/// The name has the first row, and another session begins and is forgotten beside it.
const ONE: [(&str, Call); 17] = [
    ("bob", Say("hi", 1, 0)),
    ("bob", Begin(Side::Second, Format::Plain, 1)),
    ("al-1", Begin(Side::First, Format::Padded, 2)),
    ("bob", Say("hi", 1, 0)),
    ("al-1", Say("hello", 1, 1)),
    ("al-1", Take(2, 1)),
    ("bob", Say("b", 3000, 0)),
    ("bob", Take(1, 1)),
    ("al-1", Done(1)),
    ("bob", Done(1)),
    ("bob", Sent(3)),
    ("al-1", Forget),
    ("bob", Sent(1)),
    ("bob", Say("a", 4097, 0)),
    ("al-1", Say("x", 1, 0)),
    ("bob", Forget),
    ("bob", Say("x", 1, 0)),
];

/// It has the last one, and two others stand before it.
const OTHER: [(&str, Call); 19] = [
    ("zoe", Begin(Side::First, Format::Plain, 5)),
    ("bob", Say("hi", 1, 0)),
    ("0", Begin(Side::Second, Format::Receipts, 4)),
    ("bob", Begin(Side::Second, Format::Plain, 1)),
    ("zoe", Say("c", 4096, 7)),
    ("bob", Say("hi", 1, 0)),
    ("bob", Say("b", 3000, 0)),
    ("zoe", Forget),
    ("0", Say("x", 1, 0)),
    ("bob", Take(1, 1)),
    ("bob", Done(1)),
    ("0", Sent(1)),
    ("bob", Sent(3)),
    ("Bob", Begin(Side::First, Format::Plain, 3)),
    ("bob", Sent(1)),
    ("bob", Say("a", 4097, 0)),
    ("0", Forget),
    ("bob", Forget),
    ("bob", Say("x", 1, 0)),
];

/// What a book shows under a name, behind what was told before.
fn tell(book: &Book<OpenKem>, name: &str, told: &mut Vec<u8>) -> Result<(), AllocError> {
    for at in 0..4 {
        if let Ok(Some(entry)) = book.inbox(name, at) {
            told.extend_from_slice(&entry.position.epoch.to_le_bytes())?;
            told.extend_from_slice(&entry.position.index.to_le_bytes())?;
            told.extend_from_slice(entry.text)?;
        }
        if let Ok(Some((position, packet))) = book.outbox(name, at) {
            told.extend_from_slice(&position.epoch.to_le_bytes())?;
            told.extend_from_slice(&position.index.to_le_bytes())?;
            told.extend_from_slice(packet)?;
        }
    }
    if let Ok(summary) = book.state(name) {
        for number in [summary.epoch, summary.missing, summary.inbox, summary.outbox] {
            told.extend_from_slice(&number.to_le_bytes())?;
        }
    }
    Ok(())
}

/// All that is shown under the name after each call for it; nothing where one ends otherwise than
/// it has to.
fn told(alloc: Global, calls: &[(&str, Call)]) -> Result<Option<Vec<u8>>, AllocError> {
    let mut disk = MemoryDisk::new(alloc, BOOK_START + 3 * ROW_SIZE)?;
    let mut told = Vec::new(alloc);
    let mut ended = 0;
    for (name, call) in calls {
        let ends = asked(alloc, &mut disk, name, *call)?;
        if *name != "bob" {
            continue;
        }
        if ended == BOBS.len() || ends != BOBS[ended] {
            return Ok(None);
        }
        ended += 1;
        match Book::<OpenKem>::open(alloc, &mut disk, 3) {
            Ok(book) => tell(&book, "bob", &mut told)?,
            Err(_) => return Ok(None),
        }
    }
    if ended == BOBS.len() { Ok(Some(told)) } else { Ok(None) }
}

/// Whether both lists show the same under the name, and more than the texts that were said.
fn is_independent(alloc: Global) -> Result<bool, AllocError> {
    let (Some(one), Some(other)) = (told(alloc, &ONE)?, told(alloc, &OTHER)?) else {
        return Ok(false);
    };
    Ok(one.len() > 7000 && one.as_slice() == other.as_slice())
}

#[test]
fn other_names_change_nothing(rt: HostRuntime) -> Result<(), Fail> {
    assert!(rt; is_independent(rt.alloc())?);
    Ok(())
}
