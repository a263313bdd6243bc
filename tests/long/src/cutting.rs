//! Texts that are cut, by an independent implementation.

use long_text::{LONG_LIMIT, cut_part, part_count};
use std::alloc::{AllocError, Global};

/// How long the part of a number is, in a text of so many bytes, and how many parts that has.
fn cut(text: &[u8], len: usize, number: u8) -> Option<(usize, u8)> {
    match cut_part(&text[..len], 7, number) {
        Some(part) => Some((part.bytes.len(), part.count)),
        None => None,
    }
}

/// Whether texts of these lengths have so many parts, the last of so many bytes.
fn are_cut(alloc: Global) -> Result<bool, AllocError> {
    let text = vec![in alloc; b'x'; LONG_LIMIT]?;
    let rows: [(usize, u8, usize); 7] = [
        (0, 1, 0),
        (2, 1, 2),
        (4090, 1, 4090),
        (4091, 2, 1),
        (8180, 2, 4090),
        (257_670, 63, 4090),
        (261_760, 64, 4090),
    ];
    let mut all = true;
    for (len, count, last) in rows {
        all = all
            && part_count(&text[..len]) == count
            && cut(&text, len, count) == Some((last, count))
            && cut(&text, len, count.wrapping_add(1)) == None
            && cut(&text, len, 0) == None;
    }
    Ok(all)
}

#[test]
fn texts_are_cut(rt: HostRuntime) -> Result<(), AllocError> {
    assert!(rt; are_cut(rt.alloc())?);
    Ok(())
}
