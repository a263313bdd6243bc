//! What `long` answers over lists of entries, by an independent implementation.

use boxes::{Inbox, TEXT_KIND};
use dr_base::Position;
use long_text::{LONG_LIMIT, LongRefusal, PART_KIND, Part, long, put_part};
use std::alloc::Global;
use std::test::Fail;

/// An entry: its position, and the part that it is, or none for a text.
type Row = ((u32, u32), Option<(u32, u8, u8, &'static [u8])>);

/// What is expected: the text, or a refusal.
type Wanted = Result<&'static [u8], LongRefusal>;

/// A position.
fn at(position: (u32, u32)) -> Position {
    Position { epoch: position.0, index: position.1 }
}

/// A pair that clashes.
fn clash(first: (u32, u32), second: (u32, u32)) -> Wanted {
    Err(LongRefusal::Clash { first: at(first), second: at(second) })
}

/// So many parts of so many.
fn parts(have: u32, n: u32) -> Wanted {
    Err(LongRefusal::Parts { have, n })
}

/// The part of id 7 at a position.
fn seven(position: (u32, u32), number: u8, count: u8, bytes: &'static [u8]) -> Row {
    (position, Some((7, number, count, bytes)))
}

/// An inbox with these entries.
fn filled(alloc: Global, rows: &[Row]) -> Result<Inbox, Fail> {
    let mut inbox = Inbox::new(alloc)?;
    let mut room = [0; 4096];
    for (position, told) in rows {
        match told {
            None => inbox.push(at(*position), TEXT_KIND, b"\0\0\0\x07\x01\x01text")?,
            Some((id, number, count, bytes)) => {
                let part = Part { id: *id, number: *number, count: *count, bytes };
                let end = put_part(&mut room, 0, &part);
                inbox.push(at(*position), PART_KIND, &room[..end])?;
            }
        }
    }
    Ok(inbox)
}

/// Whether an inbox gives this for an id, and leaves the rest of the room.
fn gives(alloc: Global, inbox: &Inbox, id: u32, wanted: Wanted) -> Result<bool, Fail> {
    let mut room = vec![in alloc; 0xa5; LONG_LIMIT]?;
    let Some(into) = room.as_mut_slice().first_chunk_mut::<LONG_LIMIT>() else {
        return Ok(false);
    };
    let answer = long(inbox, id, into);
    let len = match answer {
        Ok(len) => len,
        Err(_) => 0,
    };
    let same = match (answer, wanted) {
        (Ok(len), Ok(text)) => &room[..len] == text,
        (Err(refusal), Err(other)) => refusal == other,
        _ => false,
    };
    Ok(same && room[len..].iter().all(|byte| *byte == 0xa5))
}

/// Whether these entries give this for id 7.
fn row(alloc: Global, rows: &[Row], wanted: Wanted) -> Result<bool, Fail> {
    let inbox = filled(alloc, rows)?;
    gives(alloc, &inbox, 7, wanted)
}

#[test]
fn what_is_lacking(rt: HostRuntime) -> Result<(), Fail> {
    let (e, ab, cd) = (seven((0, 3), 3, 3, b"e"), seven((0, 1), 1, 3, b"ab"), seven((0, 2), 2, 3, b"cd"));
    let none: Wanted = Err(LongRefusal::NoLong);
    assert!(rt; row(rt.alloc(), &[], none)?);
    assert!(rt; row(rt.alloc(), &[((0, 1), None)], none)?);
    assert!(rt; row(rt.alloc(), &[e, ab], parts(2, 3))?);
    assert!(rt; row(rt.alloc(), &[e, ab, cd], Ok(b"abcde"))?);
    assert!(rt; row(rt.alloc(), &[e, ((0, 4), None), ab, cd], Ok(b"abcde"))?);
    assert!(rt; row(rt.alloc(), &[ab, cd, e, seven((0, 5), 2, 3, b"cd")], Ok(b"abcde"))?);
    assert!(rt; row(rt.alloc(), &[ab, seven((0, 5), 1, 3, b"ab")], parts(1, 3))?);
    let inbox = filled(rt.alloc(), &[e, ab, cd])?;
    assert!(rt; gives(rt.alloc(), &inbox, 8, none)?);
    Ok(())
}

#[test]
fn what_clashes(rt: HostRuntime) -> Result<(), Fail> {
    let (ab, cd) = (seven((0, 1), 1, 3, b"ab"), seven((0, 2), 2, 3, b"cd"));
    let (other, e) = (seven((0, 5), 2, 3, b"CD"), seven((0, 3), 3, 3, b"e"));
    let last = seven((0, 6), 1, 3, b"AB");
    assert!(rt; row(rt.alloc(), &[ab, cd, e, other], clash((0, 2), (0, 5)))?);
    assert!(rt; row(rt.alloc(), &[other, ab, cd], clash((0, 5), (0, 2)))?);
    assert!(rt; row(rt.alloc(), &[ab, seven((0, 2), 2, 2, b"cd")], clash((0, 1), (0, 2)))?);
    let (x, y) = (seven((0, 5), 1, 2, b"x"), seven((0, 6), 2, 2, b"y"));
    assert!(rt; row(rt.alloc(), &[ab, cd, x, y], clash((0, 1), (0, 5)))?);
    assert!(rt; row(rt.alloc(), &[cd, other, ab, last], clash((0, 2), (0, 5)))?);
    assert!(rt; row(rt.alloc(), &[ab, cd, other, last], clash((0, 1), (0, 6)))?);
    let (again, shorter) = (seven((2, 1), 1, 3, b"ab"), seven((2, 2), 1, 3, b"a"));
    assert!(rt; row(rt.alloc(), &[ab, again, shorter], clash((0, 1), (2, 2)))?);
    Ok(())
}

#[test]
fn ids_and_bytes(rt: HostRuntime) -> Result<(), Fail> {
    let of_8: [Row; 3] = [
        seven((0, 1), 1, 3, b"ab"),
        ((0, 2), Some((8, 2, 3, b"cd"))),
        ((0, 3), Some((8, 1, 3, b"x"))),
    ];
    let inbox = filled(rt.alloc(), &of_8)?;
    assert!(rt; gives(rt.alloc(), &inbox, 8, parts(2, 3))?);
    assert!(rt; row(rt.alloc(), &[seven((0, 1), 1, 1, b"")], Ok(b""))?);
    let of_0: [Row; 2] = [((0, 1), Some((0, 1, 2, b""))), ((0, 2), Some((0, 2, 2, b"a\"\\\n")))];
    let inbox = filled(rt.alloc(), &of_0)?;
    assert!(rt; gives(rt.alloc(), &inbox, 0, Ok(b"a\"\\\n"))?);
    let inbox = filled(rt.alloc(), &[((0, 1), Some((u32::MAX, 1, 1, b"\x00\xff")))])?;
    assert!(rt; gives(rt.alloc(), &inbox, u32::MAX, Ok(b"\x00\xff"))?);
    Ok(())
}

/// The parts of 64 from this number down to the first, each of one letter.
fn falling(alloc: Global, from: u8) -> Result<Inbox, Fail> {
    let mut inbox = Inbox::new(alloc)?;
    for k in 0..from {
        let number = from - k;
        let text = [0, 0, 0, 7, number, 64, b'x'];
        inbox.push(at((0, u32::from(number))), PART_KIND, &text)?;
    }
    Ok(inbox)
}

#[test]
fn parts_in_falling_order(rt: HostRuntime) -> Result<(), Fail> {
    let inbox = falling(rt.alloc(), 64)?;
    assert!(rt; gives(rt.alloc(), &inbox, 7, Ok(&[b'x'; 64]))?);
    let inbox = falling(rt.alloc(), 63)?;
    assert!(rt; gives(rt.alloc(), &inbox, 7, parts(63, 64))?);
    Ok(())
}
