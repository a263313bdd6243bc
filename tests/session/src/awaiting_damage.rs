//! Where the damage of the texts that wait is found, by rows of an independent implementation.

use crate::fourth::{before_waiting, fourth};
use crate::record::is_damaged;
use crate::versions::has_digest;
use dr_base::Side;
use std::alloc::Global;
use std::test::Fail;

/// What waits in First's record, in hex, after what stands before it, and where the damage is.
const FIRST_WAITING: [(&str, Option<usize>); 23] = [
    ("020000000100000001000000030000000100", Some(604)),
    ("00", None),
    ("000000000300000001", Some(588)),
    ("01", Some(588)),
    ("0100000003", Some(592)),
    ("41", Some(587)),
    ("ff", Some(587)),
    ("0200000001000000010000000300000001", None),
    ("010000000300000000", Some(592)),
    ("01000000010000ffff", None),
    ("010000000100010000", Some(592)),
    ("010000000000000001", Some(588)),
    ("0200000001000000010000000200000001", Some(596)),
    ("010000000300000001", None),
    ("010000000300000002", Some(592)),
    ("010000000300010000", Some(592)),
    ("010000000500000001", Some(588)),
    ("01fffffffd00000001", Some(588)),
    ("01ffffffff00000001", Some(588)),
    ("0200000003000000010000000100000001", Some(596)),
    ("0200000001000000020000000100000001", Some(600)),
    ("0200000001000000020000000100000002", Some(600)),
    ("0200000001000000020000000500000000", Some(596)),
];

/// What waits in Second's record, in hex, after what stands before it, and where the damage is.
const SECOND_WAITING: [(&str, Option<usize>); 24] = [
    (
        "040000000000000001000000000000000200000000000000030000000200000001",
        None,
    ),
    (
        "04000000000000000100000000000000020000000000000003000000020000000100",
        Some(612),
    ),
    ("00", None),
    ("000000000200000001", Some(580)),
    ("01", Some(580)),
    ("0100000002", Some(584)),
    ("41", Some(579)),
    ("ff", Some(579)),
    ("0200000000000000010000000200000001", None),
    ("010000000200000000", Some(584)),
    ("01000000000000ffff", None),
    ("010000000000010000", Some(584)),
    ("010000000100000001", Some(580)),
    ("0200000000000000010000000100000001", Some(588)),
    ("010000000200000001", None),
    ("010000000200000002", Some(584)),
    ("010000000200010000", Some(584)),
    ("010000000400000001", Some(580)),
    ("01fffffffe00000001", Some(580)),
    ("01ffffffff00000001", Some(580)),
    ("0200000002000000010000000000000001", Some(588)),
    ("0200000000000000020000000000000001", Some(592)),
    ("0200000000000000020000000000000002", Some(592)),
    ("0200000000000000020000000400000000", Some(588)),
];

/// Whether a side's record, where this waits, is damaged at this place, or read.
fn is_told(alloc: Global, side: Side, waiting: &str, at: Option<usize>) -> Result<bool, Fail> {
    let text = fourth(alloc, side, waiting)?;
    Ok(is_damaged(alloc, &text, at)?)
}

#[test]
fn what_waits_is_looked_at(rt: HostRuntime) -> Result<(), Fail> {
    for (waiting, at) in FIRST_WAITING {
        assert!(rt; is_told(rt.alloc(), Side::First, waiting, at)?);
    }
    for (waiting, at) in SECOND_WAITING {
        assert!(rt; is_told(rt.alloc(), Side::Second, waiting, at)?);
    }
    Ok(())
}

/// A side's record where so many texts of an epoch wait, from the first on.
fn with_waiting(alloc: Global, side: Side, epoch: u32, n: u8) -> Result<Vec<u8>, Fail> {
    let mut text = before_waiting(alloc, side)?;
    text.push(n)?;
    for i in 0..n {
        text.extend_from_slice(&epoch.to_be_bytes())?;
        text.extend_from_slice(&(u32::from(i) + 1).to_be_bytes())?;
    }
    Ok(text)
}

/// Whether a side's record, where so many texts of an epoch wait, is damaged at this place, or
/// read.
fn is_counted(
    alloc: Global,
    side: Side,
    epoch: u32,
    n: u8,
    at: Option<usize>,
) -> Result<bool, Fail> {
    let text = with_waiting(alloc, side, epoch, n)?;
    Ok(is_damaged(alloc, &text, at)?)
}

#[test]
fn at_most_64_texts_wait(rt: HostRuntime) -> Result<(), Fail> {
    let rows = [
        (Side::First, 1, 64, None),
        (Side::First, 1, 65, Some(587)),
        (Side::Second, 0, 64, None),
        (Side::Second, 0, 65, Some(579)),
    ];
    for (side, epoch, n, at) in rows {
        assert!(rt; is_counted(rt.alloc(), side, epoch, n, at)?);
    }
    Ok(())
}

/// Whether a side's record up to what waits has this SHA-256, and is damaged at its end.
fn is_cut(alloc: Global, side: Side, at: usize, sha256: &str) -> Result<bool, Fail> {
    let text = before_waiting(alloc, side)?;
    Ok(has_digest(alloc, &text, sha256)? && is_damaged(alloc, &text, Some(at))?)
}

#[test]
fn what_waits_stands_last(rt: HostRuntime) -> Result<(), Fail> {
    let rows = [
        (
            Side::First,
            587,
            "92e4e287e1fdc64f53bea181c548fa1322a51c7c073a168696fe6f31d474b4e2",
        ),
        (
            Side::Second,
            579,
            "5799674ff08930531dec57b964be1bb966793b3190d32e76b9cc47585e99b820",
        ),
    ];
    for (side, at, sha256) in rows {
        assert!(rt; is_cut(rt.alloc(), side, at, sha256)?);
    }
    Ok(())
}
