//! Records of version 4 of an independent implementation: their texts, and where the damage of the
//! version and of the format is found.

use crate::record::{fifth_of, fourth_of, is_damaged, rewritten};
use crate::versions::{FIRST, SECOND, has_digest};
use dr_base::Side;
use hex::decode;
use std::alloc::Global;
use std::test::Fail;

/// What a side keeps in version 4 up to what waits.
pub(crate) fn before_waiting(alloc: Global, side: Side) -> Result<Vec<u8>, Fail> {
    let (record, kind) = match side {
        Side::First => (FIRST, 317),
        Side::Second => (SECOND, 237),
    };
    Ok(fourth_of(alloc, &decode(alloc, record)?, Some(kind))?)
}

/// What a side keeps in version 4, where this waits, in hex.
pub(crate) fn fourth(alloc: Global, side: Side, waiting: &str) -> Result<Vec<u8>, Fail> {
    let mut text = before_waiting(alloc, side)?;
    text.extend_from_slice(&decode(alloc, waiting)?)?;
    Ok(text)
}

/// What waits of First's texts after the conversation, and of Second's.
pub(crate) const FIRST_WAITING: &str = "0200000001000000010000000300000001";

const SECOND_WAITING: &str = "040000000000000001000000000000000200000000000000030000000200000001";

/// Whether a text has the first SHA-256, and is written in version 5, with the other.
fn is_whole(alloc: Global, text: &[u8], old: &str, new: &str) -> Result<bool, Fail> {
    match rewritten(alloc, text)? {
        Some(again) => Ok(
            has_digest(alloc, text, old)?
                && has_digest(alloc, &again, new)?
                && fifth_of(alloc, text)? == again,
        ),
        None => Ok(false),
    }
}

/// Whether a side's record, where this waits, has the first SHA-256, and in version 5 the other.
fn is_kept(alloc: Global, row: (Side, &str, &str, &str)) -> Result<bool, Fail> {
    let (side, waiting, old, new) = row;
    is_whole(alloc, &fourth(alloc, side, waiting)?, old, new)
}

#[test]
fn records_of_version_4_are_read_and_written(rt: HostRuntime) -> Result<(), Fail> {
    let rows = [
        (
            Side::First,
            FIRST_WAITING,
            "28cefe0d71f84106b212e199a22cecd2fd0c517971bfc3fc34132ab5b104cd2b",
            "163ce6169b9e1b244c4d4ee94e80040705454676f0d9fb5e77d998932b3200e4",
        ),
        (
            Side::Second,
            SECOND_WAITING,
            "058fe8f06dcb34fb0d29e3e8192d614b1bb213c4d76d3a459e2bcc0e2c5e6734",
            "125b6444e5194138ce9ac3e4e324ac7374bd9884674f0562c19c3c93ae7e828e",
        ),
    ];
    for row in rows {
        assert!(rt; is_kept(rt.alloc(), row)?);
    }
    Ok(())
}

/// Whether a record with this byte at a place is damaged as told.
fn is_told(
    alloc: Global,
    mut text: Vec<u8>,
    row: (usize, u8, Option<usize>),
) -> Result<bool, Fail> {
    let (place, byte, at) = row;
    match text.get_mut(place) {
        Some(old) => *old = byte,
        None => return Ok(false),
    }
    Ok(is_damaged(alloc, &text, at)?)
}

#[test]
fn version_and_format_are_looked_at(rt: HostRuntime) -> Result<(), Fail> {
    // a place, the byte there, and where the damage is
    let rows = [
        (0, 0, Some(0)),
        (0, 1, Some(86)),
        (0, 2, Some(86)),
        (0, 3, Some(323)),
        (0, 4, None),
        (0, 5, Some(604)),
        (0, 6, Some(0)),
        (0, 255, Some(0)),
        (2, 0, Some(2)),
        (2, 1, None),
        (2, 2, None),
        (2, 3, None),
        (2, 4, Some(2)),
        (2, 255, Some(2)),
    ];
    for row in rows {
        assert!(rt;
            is_told(
                rt.alloc(),
                fourth(rt.alloc(), Side::First, FIRST_WAITING)?,
                row
            )?
        );
    }
    Ok(())
}
