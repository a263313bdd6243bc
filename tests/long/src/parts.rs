//! The bytes of parts, by an independent implementation.

use long_text::{Part, parse_part, put_part};

/// The id, the number and the count of a part, and how many bytes follow.
type Told = (u32, u8, u8, usize);

/// What bytes are read as.
fn told(bytes: &[u8]) -> Option<Told> {
    match parse_part(bytes) {
        Some(part) => Some((part.id, part.number, part.count, part.bytes.len())),
        None => None,
    }
}

/// Whether a part of these numbers and bytes has this text.
fn is_text(id: u32, number: u8, count: u8, bytes: &[u8], text: &[u8]) -> bool {
    let mut room = [0; 4096];
    let part = Part { id, number, count, bytes };
    let end = put_part(&mut room, 0, &part);
    &room[..end] == text && told(text) == Some((id, number, count, bytes.len()))
}

#[test]
fn parts_have_these_bytes(rt: HostRuntime) {
    assert!(rt; is_text(7, 1, 2, b"ab", &[0, 0, 0, 7, 1, 2, 0x61, 0x62]));
    assert!(rt; is_text(0, 1, 1, b"", &[0, 0, 0, 0, 1, 1]));
    assert!(rt; is_text(u32::MAX, 64, 64, b"", &[255, 255, 255, 255, 64, 64]));
}

#[test]
fn what_is_no_part(rt: HostRuntime) {
    let rows: [&[u8]; 7] = [
        &[],
        &[0, 0, 0, 7, 1],
        &[0, 0, 0, 7, 0, 1],
        &[0, 0, 0, 7, 2, 1, 0x61],
        &[0, 0, 0, 7, 1, 0],
        &[0, 0, 0, 7, 65, 65],
        &[0, 0, 0, 7, 1, 65],
    ];
    for bytes in rows {
        assert!(rt; told(bytes) == None);
    }
}

#[test]
fn the_longest_part(rt: HostRuntime) {
    let mut bytes = [b'z'; 4097];
    bytes[..6].copy_from_slice(&[0, 0, 0, 7, 64, 64]);
    assert!(rt; told(&bytes[..4096]) == Some((7, 64, 64, 4090)));
    assert!(rt; told(&bytes) == None);
}
