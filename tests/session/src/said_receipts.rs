//! Packets of a conversation in the formats that pad, and the records at its end, by an independent
//! implementation.

use crate::party::Party;
use bodies::Format;
use dr_base::{Key32, Side, TEXT_LIMIT};
use std::alloc::Global;
use std::test::Fail;

/// The SHA-256 of Second's packets and of First's.
type Digests = ([&'static str; 7], [&'static str; 1]);

const PADDED: Digests = (
    [
        "45ef3e5159bd824e77a61764d1aa43cd8d7d8dabc790e802be666521609e4f79",
        "dd172d46db1838cbe07d098460ae2034835f3cf589581a6c4365755b8c30d860",
        "026c4deb5ce094c9ec9c966183fecb0db81b10d9859ba86623cb2485d65b8374",
        "357e2b2c44dd30fc3d009d26b1e7dab1828a8c71f8f96c3f7cfe7e144b32a62f",
        "ea305573b5dfe81feaaf405957c3a18181df20c165b3dad19e7713b2906b1edb",
        "3d352097c5e6592b3c0a0dc6f3f19d94f7a509ef8453e6eefcf7e81f030f1401",
        "ee5f757d8eff843cb546077103c7f0f3da88b59942abf0df8b4ae4866b7839d1",
    ],
    ["9297b0e4d3e7118f04e3203d5a0ce89bc706268eb61174fab0cba8822e7ce62b"],
);

const RECEIPTS: Digests = (
    [
        "682112271e21f0ebde4e2f0396d7e8e90ff73513831885cbb4f25d6b4e6f974b",
        "b25ac6e952380a0d1569fb35cd6591b600ce8d15cab7a76eb6d346320e1b7873",
        "1bd74b2457106969d121323d7b2117d0a286a7205ba19cc46a673423916d26c2",
        "a60c6cb06b4514ecf76b2ef425515ed467319ecc408a04311c57ca9c2fa43066",
        "e9adc700ef4a1561edb4a3f02d083ff541b37b35fcd2d3f0d69f78938ca7bdd2",
        "71df5678355b9937b54f913e64d57ec3b0a500327a8227db8c0c87fa9f84e943",
        "4914267d64f6f0eda7bc979c14d8616e766295592f730d4977063d0383633312",
    ],
    ["af8a8738bb696d89715a969df0d7b3ff7be24402ece773df837d816bb2aefd9b"],
);

/// Says so many of a letter in epoch 0.
fn say_letters(second: &mut Party, index: u32, letter: u8, n: usize) -> Result<(), Fail> {
    let letters = [letter; TEXT_LIMIT];
    let _packet = second.says((0, index), letters.get(..n).unwrap_or(b""), 0)?;
    Ok(())
}

/// The conversation: Second says six texts, of which First takes the last, and each answers once.
fn converse(first: &mut Party, second: &mut Party) -> Result<(), Fail> {
    let rows = [
        (1, b'a', 0),
        (2, b'a', 1),
        (3, b'b', 253),
        (4, b'c', 254),
        (5, b'd', 255),
    ];
    for (index, letter, n) in rows {
        say_letters(second, index, letter, n)?;
    }
    let last = second.says((0, 6), &[b'e'; TEXT_LIMIT], 0)?;
    first.takes((0, 6), &last)?;
    let ok = first.says((1, 1), b"ok", 1)?;
    second.takes((1, 1), &ok)?;
    let _back = second.says((2, 1), b"back", 2)?;
    Ok(())
}

/// Whether the packets have these SHA-256, and the records of version 4 these, where they are
/// given.
fn is_told(
    alloc: Global,
    format: Format,
    packets: &Digests,
    records: Option<(&str, &str)>,
) -> Result<bool, Fail> {
    let key = Key32 { bytes: [0; 32] };
    let mut first = Party::begin(alloc, Side::First, format, &key)?;
    let mut second = Party::begin(alloc, Side::Second, format, &key)?;
    converse(&mut first, &mut second)?;
    let are_kept = match records {
        Some((one, other)) => first.has_fourth(alloc, one)? && second.has_fourth(alloc, other)?,
        None => true,
    };
    let (seconds, firsts) = packets;
    Ok(are_kept && second.has_packets(alloc, seconds)? && first.has_packets(alloc, firsts)?)
}

#[test]
fn packets_are_padded(rt: HostRuntime) -> Result<(), Fail> {
    assert!(rt; is_told(rt.alloc(), Format::Padded, &PADDED, None)?);
    Ok(())
}

#[test]
fn packets_carry_receipts(rt: HostRuntime) -> Result<(), Fail> {
    let records = (
        "139ad83d868fca8b06a972481874c959b6e292fa6026bb163d1ca0cfae74ba60",
        "6f47bd0697791704ac2203fcb0f3bb21fd6d351c8473ec0810dd6090962dcf8f",
    );
    assert!(rt; is_told(rt.alloc(), Format::Receipts, &RECEIPTS, Some(records))?);
    Ok(())
}
