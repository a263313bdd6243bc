//! What packets seal: padded texts, and bytes that are a padding or none, by rows of an independent
//! implementation.

use crate::versions::has_digest;
use bodies::{
    Body, bodies_law, body_place, lengths_law, limits_in_numbers, open_body, put_sealed, sealed_len,
};
use dr_base::{PADDED, PLAIN, SEALED_LIMIT, Side, TEXT_LIMIT, put, put_u16};
use std::alloc::Global;
use std::test::Fail;

/// The content of what First opens.
fn opened(version: u8, bytes: &[u8]) -> Option<&[u8]> {
    match open_body(version, Side::First, bytes) {
        Some(body) => Some(body.content),
        None => None,
    }
}

/// Whether a text is sealed in a version as so many bytes with this SHA-256, and opened again.
fn seals_text(
    alloc: Global,
    version: u8,
    text: &[u8],
    len: usize,
    sha256: &str,
) -> Result<bool, Fail> {
    if text.len() > TEXT_LIMIT {
        return Ok(false);
    }
    let body = Body::text(text);
    let mut room = [255; SEALED_LIMIT];
    let said_len = sealed_len(version, &body);
    let end = put_sealed(version, &mut room, 0, &body);
    let sealed = &room[..end];
    let is_right = (said_len, end) == (len, len) && opened(version, sealed) == Some(text);
    Ok(is_right && has_digest(alloc, sealed, sha256)?)
}

/// A letter, how many of it are a text, how many bytes are sealed, and their SHA-256.
pub(crate) type Sealed = (u8, usize, usize, &'static str);

/// Whether the text of a row is sealed as told in a version, and opened again.
pub(crate) fn seals(alloc: Global, version: u8, row: Sealed) -> Result<bool, Fail> {
    let (letter, count, len, sha256) = row;
    if count > TEXT_LIMIT {
        return Ok(false);
    }
    let letters = [letter; TEXT_LIMIT];
    seals_text(alloc, version, &letters[..count], len, sha256)
}

#[test]
fn seals_padded(rt: HostRuntime) -> Result<(), Fail> {
    bodies_law();
    lengths_law();
    let rows: [Sealed; 6] = [
        (
            b'a',
            0,
            256,
            "5341e6b2646979a70e57653007a1f310169421ec9bdd9f1a5648f75ade005af1",
        ),
        (
            b'a',
            1,
            256,
            "e5be5629058cda745fbe3a8f264f743254e87d51204fd725ce7608390f148118",
        ),
        (
            b'b',
            253,
            256,
            "ee67db882a2089d7eeb69bed71ed62e7274eab4f1f9e618ab4ace5c5c0d1c2ac",
        ),
        (
            b'c',
            254,
            256,
            "a777c5088236aff8525c8e34221e2498da4c09d5372e93e9279ffe411fa1144a",
        ),
        (
            b'd',
            255,
            512,
            "061f20c3f687572edaff6ab2907e22ea763416fb18a3544c9801b0b72f65c745",
        ),
        (
            b'e',
            4096,
            4352,
            "21cf06555b4ac0842143a2a4eee2db760151ad0979d2c852a84e4663435564e6",
        ),
    ];
    for row in rows {
        assert!(rt; seals(rt.alloc(), PADDED, row)?);
    }
    Ok(())
}

/// What may follow a number.
const BEHIND: usize = SEALED_LIMIT - 2;

const LETTERS: [u8; BEHIND] = [b'a'; BEHIND];

const ZEROS: [u8; BEHIND] = [0; BEHIND];

/// Whether a number, so many letters, so many zeros and what stands last are opened as a text of so
/// many bytes, or as none.
fn opens(number: u16, letters: usize, zeros: usize, last: &[u8], text: Option<usize>) -> bool {
    if last.len() > 1 || letters > BEHIND - last.len() || zeros > BEHIND - last.len() - letters {
        return false;
    }
    let mut room = [255; SEALED_LIMIT];
    let at_letters = put_u16(&mut room, 0, number);
    let at_zeros = put(&mut room, at_letters, &LETTERS[..letters]);
    let at_last = put(&mut room, at_zeros, &ZEROS[..zeros]);
    let end = put(&mut room, at_last, last);
    match (open_body(PADDED, Side::First, &room[..end]), text) {
        (Some(body), Some(len)) => {
            room[body_place(PADDED, &body)..].get(..len) == Some(body.content)
        }
        (None, None) => true,
        _ => false,
    }
}

#[test]
fn opens_what_is_padded(rt: HostRuntime) {
    // a number, letters and zeros after it, what stands last, and how long the text is, if it is one
    let rows: [(u16, usize, usize, &[u8], Option<usize>); 20] = [
        (0x0000, 0, 254, b"", Some(0)),
        (0x0000, 0, 253, b"\x01", None),
        (0x0000, 0, 510, b"", None),
        (0x0001, 1, 253, b"", Some(1)),
        (0x0001, 1, 252, b"\xff", None),
        (0x0002, 1, 253, b"", Some(2)),
        (0x00fd, 253, 1, b"", Some(253)),
        (0x00fe, 254, 0, b"", Some(254)),
        (0x00fe, 254, 256, b"", None),
        (0x00ff, 254, 0, b"", None),
        (0x00ff, 255, 255, b"", Some(255)),
        (0x0100, 254, 0, b"", None),
        (0x0100, 256, 254, b"", Some(256)),
        (0x1000, 4096, 254, b"", Some(4096)),
        (0x1000, 4096, 253, b"\x01", None),
        (0x1001, 4097, 253, b"", None),
        (0x10fe, 4350, 0, b"", None),
        (0xffff, 0, 254, b"", None),
        (0xffff, 0, 4350, b"", None),
        (0x0100, 0, 254, b"", None),
    ];
    for (number, letters, zeros, last, text) in rows {
        assert!(rt; opens(number, letters, zeros, last, text));
    }
}

/// Whether a plain packet seals a text as it is, and is opened as any bytes.
fn is_plain() -> bool {
    let mut room = [255; 2];
    let body = Body::text(b"hi");
    sealed_len(PLAIN, &body) == 2
        && put_sealed(PLAIN, &mut room, 0, &body) == 2
        && room == *b"hi"
        && body_place(PLAIN, &body) == 0
        && opened(PLAIN, b"\xff\xff\x00") == Some(b"\xff\xff\x00".as_slice())
}

#[test]
fn seals_plain(rt: HostRuntime) {
    limits_in_numbers();
    assert!(rt; is_plain());
}
