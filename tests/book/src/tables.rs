//! The bytes of tables, by rows of an independent implementation.

use book_store::{BOOK_TABLE, Desk};
use dr_disk::{Disk, MemoryDisk};
use hex::decode;
use sha2::{Digest, Sha256};
use std::alloc::{AllocError, Global};
use std::test::Fail;

/// A row: its place, its name, the length of its record, and the numbers of the record's pages, in
/// ranges of a first one and how many.
pub(crate) type Row = (usize, &'static str, u32, &'static [(u32, u32)]);

/// Puts a row into the table to come. Answers whether it did.
fn puts_row(
    alloc: Global,
    desk: &mut Desk,
    disk: &mut MemoryDisk,
    row: Row,
) -> Result<bool, AllocError> {
    let (place, name, len, ranges) = row;
    let mut numbers = Vec::with_capacity(alloc, 190)?;
    for (first, count) in ranges {
        for number in *first..*first + *count {
            numbers.push(number)?;
        }
    }
    let staged = desk.stage(disk, place, name.as_bytes(), len, &numbers, &[], &[], &[]);
    Ok(staged.is_ok())
}

/// The table of these rows, which was committed so often that it has this turn, after its gate and
/// with it; nothing where a call failed.
pub(crate) fn table_of(
    alloc: Global,
    turn: u8,
    rows: &[Row],
) -> Result<Option<Vec<u8>>, AllocError> {
    let mut disk = MemoryDisk::new(alloc, 2 * BOOK_TABLE as u64)?;
    let mut desk = Desk::new(alloc, 3)?;
    for row in rows {
        if !puts_row(alloc, &mut desk, &mut disk, *row)? {
            return Ok(None);
        }
    }
    for _ in 0..turn {
        if desk.commit(&mut disk).is_err() {
            return Ok(None);
        }
    }
    let place = if turn == 2 { BOOK_TABLE as u64 } else { 0 };
    let mut table = vec![in alloc; 0; BOOK_TABLE as usize]?;
    match disk.read(place, &mut table) {
        Ok(()) => Ok(Some(table)),
        Err(_) => Ok(None),
    }
}

/// Whether a table of these rows has this SHA-256, in hex.
fn has_digest(
    alloc: Global,
    turn: u8,
    rows: &[Row],
    sha256: &str,
) -> Result<bool, AllocError> {
    match table_of(alloc, turn, rows)? {
        Some(table) => is_digest(alloc, &table, sha256),
        None => Ok(false),
    }
}

/// Whether bytes have a digest, in hex.
pub(crate) fn is_digest(alloc: Global, bytes: &[u8], sha256: &str) -> Result<bool, AllocError> {
    match decode(alloc, sha256) {
        Ok(expected) => Ok(Sha256::digest(bytes)[..] == expected[..]),
        Err(_) => Ok(false),
    }
}

#[test]
fn tables_have_their_bytes(rt: HostRuntime) -> Result<(), Fail> {
    let rows: [(u8, &[Row], &str); 12] = [
        (1, &[(0, "bob", 132, &[(0, 1)])], "28489e5abcabb8414a63588d6639e1ad1868fb5b888b56561a70ed803ab5c1ca"),
        (2, &[(0, "bob", 132, &[(0, 1)]), (1, "al-1", 132, &[(0, 1)])], "62476b4d1a2fb23cbb66215d464c853d1fcbede0a270864a71a8a19bd66a4d94"),
        (3, &[(0, "bob", 10530, &[(0, 1), (3, 2)]), (1, "al-1", 542, &[(0, 1)]), (2, "0", 132, &[(0, 1)])], "9ee8f96ffd2f0ce66414daf3f6cfac25d5a53e4d5c10e4cdf838cde3332a58a5"),
        (2, &[(0, "bob", 4175, &[(1, 1), (0, 1)]), (1, "al-1", 542, &[(0, 1)]), (2, "0", 132, &[(0, 1)])], "63b696aec69f42fa71092788d8fae03e011881e0a66261df605af895cbc84f5d"),
        (1, &[(0, "bob", 164, &[(2, 1)]), (2, "0", 132, &[(0, 1)])], "26627dc982cd0fc036f719e6736bfa8ce05cf5fc9e873c9a7127a5b48aaff503"),
        (2, &[(0, "bob", 164, &[(2, 1)]), (1, "xxxxxxxxxxxxxxxxxxxxxxxxxxxxxxxxxxxxxxxx", 132, &[(0, 1)]), (2, "0", 132, &[(0, 1)])], "e51f627ae044a7870afa6fc42a47fcf1a7c6ff3f4815fa7971f01893f5857e99"),
        (3, &[], "b14a04f35a526d8c38389dbd8e731cf407f3292821abc773f9e97b58a1fb4de5"),
        (1, &[(0, "a", 1, &[(0, 1)])], "6b80ca317d053d734f84ebcad67981c88600b896f13b15382087a717fb4d82c2"),
        (3, &[(0, "a", 8192, &[(1, 2)]), (1, "b-2", 778240, &[(0, 190)]), (2, "c", 12001, &[(0, 1), (2, 2)])], "b9b6918a5f7720ad63fdc618675c9aa84e695cbca2fcdf2135090ab2d34d1bee"),
        (1, &[(0, "a", 8192, &[(1, 2)]), (1, "b-2", 778240, &[(190, 190)]), (2, "c", 12001, &[(0, 1), (2, 2)])], "12ecf2874d3878cffcd2fa2dbf2236565423cc02e5395ed77c47f2d08ca6a166"),
        (2, &[], "fcf15d25566de8735f7ba7d3c70a7f17e566f60bafdafe9369d91d1aad9ed261"),
        (3, &[(0, "bob", 4678, &[(0, 1), (3, 1)]), (2, "0", 132, &[(0, 1)])], "5713b3219a5dd148262a77eb442fa845a4901665850f00f426ff6ae4d3b245a3"),
    ];
    for (turn, rows, sha256) in rows {
        assert!(rt; has_digest(rt.alloc(), turn, rows, sha256)?);
    }
    Ok(())
}
