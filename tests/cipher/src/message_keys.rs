//! The values are those of Python's modules `hashlib` and `hmac`.

use crate::counted::COUNTED;
use dr_base::{Key32, Position};
use etm_aead::OpenKey;
use fs_aead::{ReceiveStream, Row, SendStream, SkipLimit, Skipped};

// The first three message keys.
const KEYS: [[u8; 32]; 3] = [
    [
        0x9b, 0x4c, 0x81, 0x20, 0xa4, 0x82, 0x3a, 0x95, 0xf4, 0x7c, 0xde, 0x17, 0xa2, 0x44, 0xf4,
        0x50, 0x72, 0x44, 0xee, 0x6e, 0x39, 0x57, 0xd1, 0xfa, 0xb9, 0xfa, 0x29, 0xb4, 0x4d, 0x38,
        0x29, 0xb7,
    ],
    [
        0xf7, 0x70, 0x3c, 0x39, 0xde, 0xa9, 0xfe, 0xb3, 0x0c, 0xb6, 0x36, 0x93, 0x04, 0xad, 0x7b,
        0x84, 0x7b, 0x9a, 0xca, 0x58, 0xc1, 0x15, 0x2a, 0xf3, 0x17, 0xaa, 0x78, 0xa9, 0x1b, 0xed,
        0xdd, 0xa1,
    ],
    [
        0x5d, 0x20, 0x42, 0xbf, 0x4c, 0x60, 0x3c, 0xf3, 0xaa, 0x71, 0x94, 0x73, 0x9e, 0xd0, 0x8b,
        0xc1, 0xc6, 0x98, 0xa7, 0xec, 0x7f, 0xb8, 0xe7, 0x7d, 0x3e, 0xa2, 0x58, 0x8c, 0x6f, 0xe7,
        0x8c, 0xe1,
    ],
];

// The tag of an empty text with nothing in the clear, under each of them.
const TAGS: [[u8; 32]; 3] = [
    [
        0xbb, 0xc4, 0x4e, 0x7e, 0x76, 0x50, 0x5b, 0x51, 0xe4, 0xfc, 0x98, 0x21, 0xec, 0x8d, 0x2a,
        0xab, 0x3c, 0xb8, 0x12, 0x1e, 0x48, 0x86, 0x31, 0x67, 0xee, 0xb5, 0x32, 0xa6, 0x0c, 0xd5,
        0x49, 0x75,
    ],
    [
        0xbf, 0x0d, 0x3e, 0x5f, 0x59, 0xf4, 0x09, 0x4c, 0xc4, 0x03, 0xbb, 0xe5, 0x2f, 0x72, 0x96,
        0x9f, 0xcf, 0xa4, 0x41, 0x10, 0xd1, 0xce, 0x97, 0xc9, 0x75, 0xe4, 0x60, 0x36, 0xf1, 0xb2,
        0xbb, 0x36,
    ],
    [
        0x4a, 0xa1, 0x67, 0x26, 0x5c, 0x7d, 0xd8, 0xcd, 0xd8, 0x07, 0x1d, 0x97, 0xd1, 0x27, 0x34,
        0x88, 0xcd, 0x41, 0x75, 0x68, 0x77, 0x4c, 0x41, 0x14, 0xa0, 0xbf, 0x4a, 0xe6, 0x39, 0x76,
        0x81, 0x16,
    ],
];

// The chain key after them.
const CHAIN_BEHIND: [u8; 32] = [
    0x04, 0x42, 0x8b, 0x81, 0x36, 0x75, 0x03, 0x6c, 0x07, 0x23, 0x3e, 0xdd, 0x0b, 0xe1, 0x3b, 0x7c,
    0x42, 0x26, 0x10, 0xa8, 0xc3, 0xd6, 0xec, 0xc7, 0xc8, 0xfb, 0xd8, 0x56, 0x71, 0xe4, 0x7a, 0x13,
];

fn chain() -> Key32 {
    Key32 { bytes: COUNTED }
}

#[test]
fn sends_with_the_keys_in_order(rt: HostRuntime) {
    let (stream, first) = SendStream::resume(chain(), 0).next();
    let (stream, second) = stream.next();
    let (stream, third) = stream.next();
    assert!(rt; first.seal(b"", &mut []) == TAGS[0]);
    assert!(rt; second.seal(b"", &mut []) == TAGS[1]);
    assert!(rt; third.seal(b"", &mut []) == TAGS[2]);
    let (chain, sent) = stream.rest();
    assert!(rt; chain.bytes == CHAIN_BEHIND);
    assert!(rt; sent == 3);
}

// The bytes of a key, if there is one.
fn shelved(key: Option<OpenKey>) -> Option<[u8; 32]> {
    match key {
        Some(key) => Some(key.shelve().bytes),
        None => None,
    }
}

/// Whether a stream is at index 3, and its chain key the one behind the three.
fn is_behind(stream: ReceiveStream) -> bool {
    let (chain, reach) = stream.rest();
    chain.bytes == CHAIN_BEHIND && reach == 3
}

/// Whether the second key is given once, and no other one.
fn gives_once(skipped: &mut Skipped) -> bool {
    let second = Position { epoch: 1, index: 2 };
    let other = Position { epoch: 2, index: 2 };
    shelved(skipped.take(other)) == None
        && shelved(skipped.take(second)) == Some(KEYS[1])
        && shelved(skipped.take(second)) == None
}

/// Whether there is room for 510 keys beside the two that are there.
fn has_room(skipped: &Skipped) -> bool {
    skipped.len() == 2
        && skipped.room_for(510) == Ok(())
        && skipped.room_for(511) == Err(SkipLimit { would: 513 })
}

/// Whether the first key and the third are there.
fn keeps_others(skipped: &Skipped) -> bool {
    for (kept, index) in skipped.kept().iter().zip([1, 3]) {
        let position = Position { epoch: 1, index };
        if kept.position != position || kept.key.bytes != KEYS[index as usize - 1] {
            return false;
        }
    }
    true
}

#[test]
fn takes_a_passed_key_once(rt: HostRuntime) {
    let mut skipped = Skipped::new();
    let stream = ReceiveStream::resume(chain(), 0).advance(1, &mut skipped, 3);
    assert!(rt; is_behind(stream));
    let mut resumed = Skipped::resume(skipped.kept());
    assert!(rt; gives_once(&mut resumed) && has_room(&resumed) && keeps_others(&resumed));
}

/// A table that keeps the keys of 0.1, 0.2 and 2.1.
fn of_two_epochs() -> Skipped {
    let mut skipped = Skipped::new();
    let (_chain, _reach) = ReceiveStream::resume(chain(), 0)
        .advance(0, &mut skipped, 2)
        .rest();
    let (_chain, _reach) = ReceiveStream::resume(chain(), 0)
        .advance(2, &mut skipped, 1)
        .rest();
    skipped
}

// Where the keys of that table stand: epoch and index of a position, and the place of its key.
const PLACES: [(u32, u32, Option<usize>); 6] = [
    (0, 1, Some(0)),
    (0, 2, Some(1)),
    (0, 3, None),
    (1, 1, None),
    (2, 1, Some(2)),
    (2, 2, None),
];

/// Whether each key is found, and no other.
fn finds_each(skipped: &Skipped) -> bool {
    for (epoch, index, place) in PLACES {
        if skipped.find(Position { epoch, index }) != place {
            return false;
        }
    }
    true
}

/// Whether a table has these rows: of each the epoch, the start and the length.
fn has_rows(skipped: &Skipped, rows: &[(u32, usize, usize)]) -> bool {
    for (k, &(epoch, start, len)) in rows.iter().enumerate() {
        if skipped.row(k) != Some(Row { epoch, start, len }) {
            return false;
        }
    }
    skipped.rows() == rows.len() && skipped.row(rows.len()) == None
}

/// The bytes of the key that is found at a position and taken at its place.
fn taken(skipped: &mut Skipped, position: Position) -> Option<[u8; 32]> {
    match skipped.find(position) {
        Some(place) => Some(skipped.take_at(place).shelve().bytes),
        None => None,
    }
}

/// Whether the rows follow what is taken.
fn rows_follow(skipped: &mut Skipped) -> bool {
    has_rows(skipped, &[(0, 0, 2), (2, 2, 1)])
        && taken(skipped, Position { epoch: 0, index: 2 }) == Some(KEYS[1])
        && has_rows(skipped, &[(0, 0, 1), (2, 1, 1)])
        && taken(skipped, Position { epoch: 0, index: 1 }) == Some(KEYS[0])
        && has_rows(skipped, &[(2, 0, 1)])
}

#[test]
fn keys_lie_in_rows(rt: HostRuntime) {
    let mut skipped = of_two_epochs();
    assert!(rt; finds_each(&skipped) && rows_follow(&mut skipped));
}
