//! The first fault of what is no packet.

use dr_base::{PLAIN, Position, put};
use packet::{Kind, Malformed, parse, write_into};

const SESSION: [u8; 16] = [0, 1, 2, 3, 4, 5, 6, 7, 8, 9, 10, 11, 12, 13, 14, 15];

const FIRST: Position = Position { epoch: 0, index: 1 };

const TAG: [u8; 32] = [7; 32];

/// Whether the fault of the first packet's first `len` bytes is this one, where `new` is put at a
/// place.
fn finds(len: usize, place: usize, new: &[u8], fault: Malformed) -> bool {
    let mut bytes = [0; 68];
    let _len = write_into(PLAIN, &SESSION, FIRST, 0, &[], b"hi", &TAG, &mut bytes);
    if len > 68 || place > 64 || new.len() > 4 {
        return false;
    }
    let _end = put(&mut bytes, place, new);
    parse(&bytes[..len], 64).err() == Some(fault)
}

#[test]
fn finds_the_first_fault(rt: HostRuntime) {
    // the length of what is parsed, a place, the bytes that are put there, and the fault
    let rows: [(usize, usize, &[u8], usize, Kind); 12] = [
        (67, 0, &[0], 0, Kind::Version),
        (67, 0, &[4], 0, Kind::Version),
        (67, 17, &[255, 255, 255, 255], 17, Kind::Epoch),
        (67, 24, &[1], 21, Kind::Previous),
        (67, 26, &[1], 25, Kind::Index),
        (67, 28, &[0], 25, Kind::Index),
        (67, 29, &[1], 29, Kind::Agreement),
        (67, 31, &[16, 1], 31, Kind::Text),
        (66, 0, &[1], 35, Kind::Short),
        (0, 0, &[1], 0, Kind::Short),
        (68, 0, &[1], 67, Kind::Long),
        (67, 17, &[0, 0, 0, 1], 29, Kind::Agreement),
    ];
    for (len, place, new, at, kind) in rows {
        assert!(rt; finds(len, place, new, Malformed { at, kind }));
    }
}

#[test]
fn finds_where_it_is_cut(rt: HostRuntime) {
    // from and to which length it is cut, and the place of the field that is cut short
    let rows = [
        (0, 0, 0),
        (1, 16, 1),
        (17, 20, 17),
        (21, 24, 21),
        (25, 28, 25),
        (29, 30, 29),
        (31, 32, 31),
        (33, 34, 33),
        (35, 66, 35),
    ];
    for (from, to, at) in rows {
        let fault = Malformed {
            at,
            kind: Kind::Short,
        };
        for len in from..=to {
            assert!(rt; finds(len, 0, &[1], fault));
        }
    }
}
