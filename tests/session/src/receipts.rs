//! What packets with receipts seal, by rows of an independent implementation.

ghost use Rattle.std.specs.Prelude.{◌≤◌};

use bodies::{BODY_LIMIT, Body, Receipt, open_body, put_sealed, receipts_law, sealed_len};
use dr_base::{Position, RECEIPTS, SEALED_LIMIT, Side, TEXT_LIMIT, put, put_u16};
use hex::decode;
use std::alloc::Global;
use std::test::Fail;

/// More letters than a text has.
const LETTERS: [u8; BODY_LIMIT] = [b'a'; BODY_LIMIT];

pub(crate) fn at(epoch: u32, index: u32) -> Position {
    Position { epoch, index }
}

/// Puts bytes and so many letters after them, padded, and answers the place after them.
pub(crate) fn pad(room: &mut [u8; SEALED_LIMIT], front: &[u8], letters: usize) -> usize
    ensures { result ≤ SEALED_LIMIT }
{
    if front.len() > 300 || letters > TEXT_LIMIT + 1 {
        return 0;
    }
    let len = front.len() + letters;
    let at_front = put_u16(room, 0, len as u16);
    let at_letters = put(room, at_front, front);
    put(room, at_letters, &LETTERS[..letters]);
    (2 + len).next_multiple_of(256)
}

/// What a receipt says: its bound, and how many positions it lists.
pub(crate) type Said = Option<(Position, usize)>;

pub(crate) fn said(receipt: &Option<Receipt>) -> Said {
    match receipt {
        Some(receipt) => Some((receipt.bound, receipt.listed.len())),
        None => None,
    }
}

/// Whether a body is sealed as these bytes.
fn is_sealed_as(body: &Body<'_>, bytes: &[u8]) -> bool {
    if body.content.len() > TEXT_LIMIT {
        return false;
    }
    let mut room = [0; SEALED_LIMIT];
    let len = sealed_len(RECEIPTS, body);
    let end = put_sealed(RECEIPTS, &mut room, 0, body);
    len == end && &room[..end] == bytes
}

/// Whether a side opens the padding of bytes and so many letters after them as a text of the
/// letters with this receipt, which is sealed as the same again.
pub(crate) fn opens(side: Side, front: &[u8], letters: usize, receipt: Said) -> bool {
    let mut room = [0; SEALED_LIMIT];
    let end = pad(&mut room, front, letters);
    match open_body(RECEIPTS, side, &room[..end]) {
        Some(body) => {
            said(&body.receipt) == receipt
                && LETTERS.get(..letters) == Some(body.content)
                && is_sealed_as(&body, &room[..end])
        }
        None => false,
    }
}

/// Whether a side opens the padding of bytes and so many letters after them as nothing.
pub(crate) fn refuses(side: Side, front: &[u8], letters: usize) -> bool {
    let mut room = [0; SEALED_LIMIT];
    let end = pad(&mut room, front, letters);
    open_body(RECEIPTS, side, &room[..end]).is_none()
}

/// Whether neither side opens a body, in hex, with so many letters after it.
fn is_bad(alloc: Global, front: &str, letters: usize) -> Result<bool, Fail> {
    let front = decode(alloc, front)?;
    Ok(refuses(Side::First, &front, letters) && refuses(Side::Second, &front, letters))
}

/// Whether only this side opens a body, in hex, with so many letters after it.
fn is_for(
    alloc: Global,
    side: Side,
    front: &str,
    letters: usize,
    receipt: Said,
) -> Result<bool, Fail> {
    let front = decode(alloc, front)?;
    Ok(opens(side, &front, letters, receipt) && refuses(side.peer(), &front, letters))
}

#[test]
fn opens_without_receipt(rt: HostRuntime) {
    receipts_law();
    for side in [Side::First, Side::Second] {
        assert!(rt; opens(side, b"\x00\x00", 0, None));
        assert!(rt; opens(side, b"\x00\x00", 4096, None));
        assert!(rt; refuses(side, b"\x00\x00", 4097));
    }
}

#[test]
fn opens_with_receipt(rt: HostRuntime) -> Result<(), Fail> {
    let second: [(&str, usize, Position, usize); 9] = [
        ("0100000000000000020000", 0, at(0, 2), 0),
        ("01000000000000000201000000000000000100", 1, at(0, 2), 1),
        ("01000000000000000201000000000000000200", 0, at(0, 2), 1),
        ("01000000020000000201000000000001117000", 0, at(2, 2), 1),
        (
            "010000000000000009020000000000000001000000000000000300",
            0,
            at(0, 9),
            2,
        ),
        (
            "010000000200000001020000000000000003000000020000000100",
            0,
            at(2, 1),
            2,
        ),
        ("0100000000000000000000", 0, at(0, 0), 0),
        ("0100000000ffffffff0000", 0, at(0, 4294967295), 0),
        ("01fffffffe000000010000", 0, at(4294967294, 1), 0),
    ];
    for (front, letters, bound, count) in second {
        assert!(rt;
            is_for(
                rt.alloc(),
                Side::Second,
                front,
                letters,
                Some((bound, count))
            )?
        );
    }
    let first: [(&str, usize, Position, usize); 3] = [
        ("0100000001000000020000", 0, at(1, 2), 0),
        ("01000000010000000201000000010000000100", 0, at(1, 2), 1),
        ("01ffffffff000000010000", 0, at(4294967295, 1), 0),
    ];
    for (front, letters, bound, count) in first {
        assert!(rt;
            is_for(
                rt.alloc(),
                Side::First,
                front,
                letters,
                Some((bound, count))
            )?
        );
    }
    Ok(())
}

#[test]
fn refuses_other_bodies(rt: HostRuntime) -> Result<(), Fail> {
    let rows = [
        "00",
        "0001",
        "0002",
        "0200",
        "ff00",
        "0100",
        "01000000000000000200",
        "010000000000000002",
        "01000000000000000201000000000000000300",
        "01000000000000000201000000000000000000",
        "01000000000000000201000000010000000100",
        "010000000000000009020000000000000003000000000000000100",
        "010000000000000009020000000000000003000000000000000300",
        "010000000200000001020000000000000003000000010000000100",
        "010000000200000001020000000200000001000000000000000300",
        "010000000000000028020000000000000001",
        "0100000000000000280200000000000000010000000000000002",
    ];
    for front in rows {
        assert!(rt; is_bad(rt.alloc(), front, 0)?);
    }
    Ok(())
}
