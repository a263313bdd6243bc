//! What is the record of a box, and where the damage of others is found, by rows of an independent
//! implementation.

use hex::decode;
use relay_core::check_box;
use std::alloc::{AllocError, Global};
use std::test::Fail;

/// A box with a guard and two packets, the same one without a guard, and that in the version
/// before.
const GUARDED: &str = "02016101\
    1111111111111111111111111111111111111111111111111111111111111111\
    2222222222222222222222222222222222222222222222222222222222222222\
    000000000000000500000000000000060000000000000003020000000000000002000107\
    000000000000000300020809";
const UNGUARDED: &str = "020161000000000000000003020000000000000002000107000000000000000300020809";
const OLDER: &str = "0101610000000000000003020000000000000002000107000000000000000300020809";

/// Where the first damage of a text is, with these bytes put at a place of it or behind it; nothing
/// where it is a record.
fn damage_of(
    alloc: Global,
    text: &str,
    place: usize,
    new: &str,
) -> Result<Option<u32>, AllocError> {
    let (Ok(mut text), Ok(new)) = (decode(alloc, text), decode(alloc, new)) else {
        return Ok(Some(999));
    };
    for (i, byte) in new.iter().enumerate() {
        if place + i < text.len() {
            text[place + i] = *byte;
        } else {
            text.push(*byte)?;
        }
    }
    Ok(check_box(&text).err())
}

#[test]
fn damage_is_found(rt: HostRuntime) -> Result<(), Fail> {
    let rows: [(&str, usize, &str, Option<u32>); 34] = [
        (GUARDED, 0, "", None),
        (UNGUARDED, 0, "", None),
        (OLDER, 0, "", None),
        (GUARDED, 0, "00", Some(0)),
        (GUARDED, 0, "01", Some(12)),
        (GUARDED, 0, "03", Some(0)),
        (GUARDED, 1, "00", Some(1)),
        (GUARDED, 1, "29", Some(1)),
        (GUARDED, 2, "41", Some(2)),
        (GUARDED, 3, "00", Some(23)),
        (GUARDED, 3, "02", Some(3)),
        (GUARDED, 3, "ff", Some(3)),
        (GUARDED, 4, "00", None),
        (GUARDED, 68, "ffffffffffffffff", None),
        (GUARDED, 76, "0000000000000000", None),
        (GUARDED, 84, "0000000000000002", Some(104)),
        (GUARDED, 84, "ffffffffffffffff", None),
        (GUARDED, 92, "41", Some(92)),
        (GUARDED, 92, "03", Some(116)),
        (GUARDED, 93, "0000000000000000", Some(93)),
        (GUARDED, 93, "0000000000000004", Some(93)),
        (GUARDED, 101, "0000", Some(101)),
        (GUARDED, 101, "1f41", Some(101)),
        (GUARDED, 104, "0000000000000002", Some(104)),
        (GUARDED, 116, "00", Some(116)),
        (UNGUARDED, 3, "01", Some(36)),
        (UNGUARDED, 3, "02", Some(3)),
        (UNGUARDED, 0, "01", Some(12)),
        (UNGUARDED, 4, "0000000000000000", Some(13)),
        (UNGUARDED, 12, "01", Some(24)),
        (UNGUARDED, 36, "00", Some(36)),
        (OLDER, 0, "02", Some(13)),
        (OLDER, 3, "01", None),
        (OLDER, 11, "41", Some(11)),
    ];
    for (text, place, new, at) in rows {
        assert!(rt; damage_of(rt.alloc(), text, place, new)? == at);
    }
    Ok(())
}

#[test]
fn cuts_are_found(rt: HostRuntime) -> Result<(), Fail> {
    // how much of the guarded box's record stands, and where the damage is
    let rows: [(usize, u32); 23] = [
        (0, 0), (1, 1), (2, 2), (3, 3), (4, 4), (5, 4), (35, 4), (36, 36), (37, 36), (67, 36),
        (68, 68), (69, 68), (75, 68), (76, 76), (77, 76), (83, 76), (84, 84), (91, 84), (92, 92),
        (93, 93), (101, 101), (103, 103), (115, 114),
    ];
    let Ok(text) = decode(rt.alloc(), GUARDED) else {
        return Ok(());
    };
    for (len, at) in rows {
        assert!(rt; check_box(&text[..len]) == Err(at));
    }
    Ok(())
}
