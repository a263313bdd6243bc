//! Packets that hold parts of long texts, by rows of an independent implementation.

use crate::receipts::{Said, at, pad, said};
use bodies::{PART_KIND, open_body};
use dr_base::{RECEIPTS, SEALED_LIMIT, Side};
use hex::decode;
use std::alloc::Global;
use std::test::Fail;

/// What is opened: a receipt, a kind, and how long the content is.
type Opened = Option<(Said, u8, usize)>;

/// What a side opens the padding of bytes and so many letters after them as.
fn opened(side: Side, front: &[u8], letters: usize) -> Opened {
    let mut room = [0; SEALED_LIMIT];
    let end = pad(&mut room, front, letters);
    match open_body(RECEIPTS, side, &room[..end]) {
        Some(body) => Some((said(&body.receipt), body.kind, body.content.len())),
        None => None,
    }
}

/// Whether Second opens a body, in hex, with so many letters after it, as this, and First as that.
fn row(alloc: Global, front: &str, letters: usize, second: Opened, first: Opened) -> Result<bool, Fail> {
    let front = decode(alloc, front)?;
    Ok(opened(Side::Second, &front, letters) == second && opened(Side::First, &front, letters) == first)
}

/// A part of so many bytes, head and all, without a receipt.
fn part(len: usize) -> Opened {
    Some((None, PART_KIND, len))
}

#[test]
fn parts_are_opened(rt: HostRuntime) -> Result<(), Fail> {
    let rows: [(&str, usize, usize); 4] = [
        ("00010000000701026162", 0, 8),
        ("0001000000000101", 0, 6),
        ("0001ffffffff4040", 0, 6),
        ("0001000000070101", 4090, 4096),
    ];
    for (front, letters, len) in rows {
        assert!(rt; row(rt.alloc(), front, letters, part(len), part(len))?);
    }
    let told = Some((Some((at(1, 2), 0)), PART_KIND, 6));
    assert!(rt; row(rt.alloc(), "0100000001000000020001000000070101", 0, None, told)?);
    Ok(())
}

#[test]
fn unlawful_parts_are_none(rt: HostRuntime) -> Result<(), Fail> {
    let rows: [(&str, usize); 10] = [
        ("0001000000070002", 0),
        ("0001000000070000", 0),
        ("0001000000070302", 0),
        ("0001000000070141", 0),
        ("0001000000074141", 0),
        ("00010000000701ff", 0),
        ("00010000000701", 0),
        ("0001", 0),
        ("0001000000070101", 4091),
        ("0002000000070102", 0),
    ];
    for (front, letters) in rows {
        assert!(rt; row(rt.alloc(), front, letters, None, None)?);
    }
    Ok(())
}
