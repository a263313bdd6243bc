//! How long the bodies of packets with receipts are: sealed texts and the longest bodies, by rows
//! of an independent implementation, and lengths around the steps of 256 bytes, worked by hand.

use crate::padded::{Sealed, seals};
use crate::receipts::{at, opens, refuses};
use arrayvec::ArrayVec;
use bodies::{Body, Receipt, TEXT_KIND, sealed_len};
use dr_base::{RECEIPTS, Side, TEXT_LIMIT, put_u8, put_u32};
use std::test::Fail;

/// The front of a body whose receipt has the bound 0.40 and says that it lists so many positions,
/// and lists as many from 0.1 on; and the place after it.
fn listing(count: u8) -> ([u8; 300], usize) {
    let mut front = [0; 300];
    put_u8(&mut front, 0, 1);
    put_u32(&mut front, 5, 40);
    put_u8(&mut front, 9, count);
    let listed = usize::from(count).min(33);
    for i in 0..listed {
        put_u32(&mut front, 14 + 8 * i, i as u32 + 1);
    }
    (front, 11 + 8 * listed)
}

/// Whether Second alone opens a full receipt with a longest text, and nobody more of either.
fn takes_no_more() -> bool {
    let (full, len) = listing(32);
    let (more, longer) = listing(33);
    let receipt = Some((at(0, 40), 32));
    match (full.get(..len), more.get(..longer)) {
        (Some(full), Some(more)) => {
            opens(Side::Second, full, 4096, receipt)
                && refuses(Side::First, full, 4096)
                && refuses(Side::Second, full, 4097)
                && refuses(Side::Second, more, 0)
        }
        _ => false,
    }
}

#[test]
fn lists_as_many_as_it_may(rt: HostRuntime) {
    assert!(rt; takes_no_more());
}

#[test]
fn seals_without_receipt(rt: HostRuntime) -> Result<(), Fail> {
    let rows: [Sealed; 6] = [
        (
            b'a',
            0,
            256,
            "35ff53b0b112ada98a30178353d3f88addc8c2f261a5c4a5e6e247700d6367e0",
        ),
        (
            b'a',
            1,
            256,
            "26cf79d06806023131a0ed116f9a970ba7dc2d6ef172f8f5e29f796f656707af",
        ),
        (
            b'b',
            253,
            512,
            "ed9c4b10f41878f867e5a3dfee3fe3f09d3649d71a14d1537b9cfaccb7898893",
        ),
        (
            b'c',
            254,
            512,
            "a18b5089d3d5c26c1734ccc622a51d12f6876b47f13393adcde73598f78be0bb",
        ),
        (
            b'd',
            255,
            512,
            "196e575eac3555ac846c15730e0b92c63cf23a6d26fab73b130e5997c120c6c5",
        ),
        (
            b'e',
            4096,
            4352,
            "f8325971a522833704f9aff6925ffad1c74d72017be723484baf26df5f648196",
        ),
    ];
    for row in rows {
        assert!(rt; seals(rt.alloc(), RECEIPTS, row)?);
    }
    Ok(())
}

/// A receipt that lists so many positions.
fn receipt_with(count: u32) -> Receipt {
    let mut listed = ArrayVec::new();
    for index in 0..count {
        if !listed.is_full() {
            listed.push(at(0, index + 1));
        }
    }
    Receipt {
        bound: at(0, 40),
        listed,
    }
}

/// Whether a text of so many letters is sealed as so many bytes, where its receipt lists so many
/// positions, or where it has none.
fn has_length(listed: Option<u32>, letters: usize, len: usize) -> bool {
    if letters > TEXT_LIMIT {
        return false;
    }
    let text = [b'a'; TEXT_LIMIT];
    let body = Body {
        receipt: match listed {
            Some(count) => Some(receipt_with(count)),
            None => None,
        },
        kind: TEXT_KIND,
        content: &text[..letters],
    };
    sealed_len(RECEIPTS, &body) == len
}

#[test]
fn bodies_are_padded_to_steps(rt: HostRuntime) {
    // how many positions a receipt lists, if there is one, how long the text is, and the length
    let rows = [
        (None, 252, 256),
        (None, 253, 512),
        (Some(0), 243, 256),
        (Some(0), 244, 512),
        (Some(1), 235, 256),
        (Some(1), 236, 512),
        (Some(32), 243, 512),
        (Some(32), 244, 768),
        (Some(32), 4096, 4608),
    ];
    for (listed, letters, len) in rows {
        assert!(rt; has_length(listed, letters, len));
    }
}
