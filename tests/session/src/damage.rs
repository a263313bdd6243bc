//! Where the damage of records is found, by rows of an independent implementation.

use crate::record::{BEGUN, PEERS, is_damaged};
use dr_base::put;
use std::alloc::{AllocError, Global};
use std::test::Fail;

/// A text, how much of it is read, a place, the bytes that are put there, and where the damage is
/// then.
type Row = (&'static [u8], usize, usize, &'static [u8], usize);

/// Whether the damage is found where a row has it.
fn is_found(alloc: Global, row: Row) -> Result<bool, AllocError> {
    let (text, len, place, new, at) = row;
    if text.len() > 353 || len > 353 || place > 349 || new.len() > 4 {
        return Ok(false);
    }
    let mut bytes = [0; 353];
    let _end = put(&mut bytes, 0, text);
    let _end = put(&mut bytes, place, new);
    is_damaged(alloc, &bytes[..len], Some(at))
}

#[test]
fn damage_is_found(rt: HostRuntime) -> Result<(), Fail> {
    let rows: [Row; 19] = [
        (BEGUN, 130, 0, b"\x09", 0),
        (BEGUN, 130, 1, b"\x03", 1),
        (BEGUN, 130, 50, b"\xff\xff\xff\xff", 50),
        (BEGUN, 130, 86, b"\x00\x00\x00\x01", 86),
        (BEGUN, 130, 122, b"\x00\x01\x00\x00", 122),
        (BEGUN, 130, 126, b"\x00\x01", 128),
        (BEGUN, 130, 128, b"\xff", 128),
        (BEGUN, 130, 129, b"\xff", 129),
        (BEGUN, 131, 130, b"\x00", 130),
        (BEGUN, 60, 0, b"\x01", 54),
        (BEGUN, 0, 0, b"\x01", 0),
        // the second kept key: of an epoch above the session's, at the position of the first, at
        // index 0, of an own epoch, and of an epoch below the first
        (PEERS, 353, 171, b"\x04", 168),
        (PEERS, 353, 175, b"\x01", 172),
        (PEERS, 353, 175, b"\x00", 172),
        (PEERS, 353, 171, b"\x01", 168),
        (PEERS, 353, 131, b"\x02", 168),
        // a packet of another session, one that is a byte too short, and one of a later version:
        // the place is its first byte
        (PEERS, 353, 224, b"\x00", 223),
        (PEERS, 353, 222, b"\x81", 223),
        (PEERS, 353, 223, b"\x02", 223),
    ];
    for row in rows {
        assert!(rt; is_found(rt.alloc(), row)?);
    }
    Ok(())
}

/// The version, how much of the record is read, a place, the bytes that are put there, and where
/// the damage is then.
type VersionRow = (u8, usize, usize, &'static [u8], usize);

/// Whether the damage of `BEGUN` in version 3 or 4 is found where a row has it.
fn is_found_in_version(alloc: Global, row: VersionRow) -> Result<bool, AllocError> {
    let (version, len, place, new, at) = row;
    if len > 136 || place > 132 || new.len() > 4 {
        return Ok(false);
    }
    let mut bytes = [0; 136];
    let at_session = put(&mut bytes, 0, &[version, 1, 1]);
    let _end = put(&mut bytes, at_session, &BEGUN[2..130]);
    let _end = put(&mut bytes, place, new);
    is_damaged(alloc, &bytes[..len], Some(at))
}

#[test]
fn damage_is_found_in_later_versions(rt: HostRuntime) -> Result<(), Fail> {
    let rows: [VersionRow; 22] = [
        (3, 131, 0, b"\x09", 0),
        (3, 131, 1, b"\x03", 1),
        (3, 131, 51, b"\xff\xff\xff\xff", 51),
        (3, 131, 87, b"\x00\x00\x00\x01", 87),
        (3, 131, 123, b"\x00\x01\x00\x00", 123),
        (3, 131, 127, b"\x00\x01", 129),
        (3, 131, 129, b"\xff", 129),
        (3, 131, 130, b"\xff", 130),
        (3, 132, 131, b"\x00", 131),
        (3, 61, 0, b"\x03", 55),
        (4, 132, 0, b"\x09", 0),
        (4, 132, 1, b"\x03", 1),
        (4, 132, 51, b"\xff\xff\xff\xff", 51),
        (4, 132, 87, b"\x00\x00\x00\x01", 87),
        (4, 132, 123, b"\x00\x01\x00\x00", 123),
        (4, 132, 127, b"\x00\x01", 129),
        (4, 132, 129, b"\xff", 129),
        (4, 132, 130, b"\xff", 130),
        (4, 132, 131, b"\xff", 131),
        (4, 133, 132, b"\x00", 132),
        (4, 61, 0, b"\x04", 55),
        // nothing after the outbox
        (4, 131, 0, b"\x04", 131),
    ];
    for row in rows {
        assert!(rt; is_found_in_version(rt.alloc(), row)?);
    }
    Ok(())
}
