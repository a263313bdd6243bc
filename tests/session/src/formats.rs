//! What both sides keep after a conversation in each format, by an independent implementation.

use crate::party::Party;
use bodies::Format;
use dr_base::{Key32, Side};
use std::alloc::Global;
use std::test::Fail;

/// The shared key.
const KEY: Key32 = Key32 {
    bytes: [
        0x01, 0x23, 0x45, 0x67, 0x89, 0xab, 0xcd, 0xef, 0x01, 0x23, 0x45, 0x67, 0x89, 0xab, 0xcd,
        0xef, 0x01, 0x23, 0x45, 0x67, 0x89, 0xab, 0xcd, 0xef, 0x01, 0x23, 0x45, 0x67, 0x89, 0xab,
        0xcd, 0xef,
    ],
};

/// Whether the records of First and of Second have these SHA-256 where both begin in this format.
fn have_records(alloc: Global, format: Format, one: &str, other: &str) -> Result<bool, Fail> {
    let mut first = Party::begin(alloc, Side::First, format, &KEY)?;
    let mut second = Party::begin(alloc, Side::Second, format, &KEY)?;
    let _a = second.says((0, 1), b"a", 0)?;
    let _b = second.says((0, 2), b"b", 0)?;
    let c = second.says((0, 3), b"c", 0)?;
    first.takes((0, 3), &c)?;
    let d = first.says((1, 1), b"d", 1)?;
    second.takes((1, 1), &d)?;
    let e = second.says((2, 1), b"e", 2)?;
    first.takes((2, 1), &e)?;
    let _f = first.says((3, 1), b"f", 3)?;
    first.inbox.drop_first(1)?;
    Ok(first.has_record(alloc, one)? && second.has_record(alloc, other)?)
}

#[test]
fn records_keep_the_format(rt: HostRuntime) -> Result<(), Fail> {
    let rows = [
        (
            Format::Plain,
            "2ec29d193e7cd431c33d02f22f71f2e16d49d9b5ee87952229bc37286f71a541",
            "e9486d0eb8b77dc91de9a673858528ca16d021eb774fc6ad69c6e68711bd374f",
        ),
        (
            Format::Padded,
            "1f1a28adf3de1cad85bcef8c22fc7cbc1994431607ffd0bb1e420b29d94a38b1",
            "00fee3dac49afa1d2aff8a20ed2e8fb57b35bb51b32bab174537c508f262669c",
        ),
        (
            Format::Receipts,
            "43aaa584d571f9c51beb152c0b01e025fa260646418876e1dc36ecad752d577a",
            "1e0eaaf41663ca7ba7ba13e78bacb36a02c85247c217715814775ff23efec771",
        ),
    ];
    for (format, one, other) in rows {
        assert!(rt; have_records(rt.alloc(), format, one, other)?);
    }
    Ok(())
}
