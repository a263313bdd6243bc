//! Tables, pages and calls of a book of 3 rows as it changes, by an independent implementation.

use crate::tables::is_digest;
use book_store::{BOOK_START, BOOK_TABLE, BookStore, ROW_MOST, ROW_PAGES, ROW_SIZE};
use dr_base::PAGE;
use dr_disk::{Disk, MemoryDisk};
use relay_wire::Name;
use std::alloc::{AllocError, Global};
use std::test::Fail;

/// One change: its row; the row's name, none where it becomes absent; the length of its record,
/// whose pages are filled with these bytes; how many writes and syncs it makes; how many pages of
/// the book aren't zeros then; and the digest of the table that is open then.
type Change = (
    usize,
    Option<&'static str>,
    usize,
    &'static [u8],
    u32,
    usize,
    &'static str,
);

/// The changes of a book that is new, one after the other. The first goes to table 0.
const CHANGES: [Change; 16] = [
    (0, Some("bob"), 132, &[1], 5, 1, "28489e5abcabb8414a63588d6639e1ad1868fb5b888b56561a70ed803ab5c1ca"),
    (1, Some("al-1"), 132, &[2], 9, 2, "62476b4d1a2fb23cbb66215d464c853d1fcbede0a270864a71a8a19bd66a4d94"),
    (0, Some("bob"), 209, &[3], 10, 2, "3c79ae5954210c9fa6b2f162024c59296a883fe2cd3405ab061eb1f5e6c3b6dc"),
    (1, Some("al-1"), 627, &[4], 10, 2, "f98edeab2990b82945fe144473348952e787f8bc6ae1e6258b13af252c215d7c"),
    (1, Some("al-1"), 542, &[5], 10, 2, "50bdc796d33f5529d55428413b1ce728d6397cfd1d01eb5c2d123a536a6eb5f0"),
    (2, Some("0"), 132, &[6], 9, 3, "03d777fb174a53767c1fd51842e16546fc92b1ee34a96ff670606e1ab78720a7"),
    (0, Some("bob"), 3284, &[7], 10, 3, "59ad07430095574f924bda6b9f8d75f618e3247dd77a54a9ab19638c9dac7b81"),
    (0, Some("bob"), 6359, &[8, 9], 11, 4, "25706a150f9d63d6f7f70cb1817f2efe691377c9448be834a1738606adabc462"),
    (0, Some("bob"), 10530, &[10, 11, 12], 13, 5, "9ee8f96ffd2f0ce66414daf3f6cfac25d5a53e4d5c10e4cdf838cde3332a58a5"),
    (0, Some("bob"), 14541, &[13, 14, 15, 16], 15, 6, "84e21482d9bbf4a4e035ed9649ab46b09c1eb9b5f503b3e222d3ec4fc523c232"),
    (0, Some("bob"), 4175, &[13, 17], 12, 4, "63b696aec69f42fa71092788d8fae03e011881e0a66261df605af895cbc84f5d"),
    (0, Some("bob"), 164, &[18], 11, 3, "495120d5fe56810417b23f4056c50d4e12948cc0e1d1ea43d0dff19d05b6177b"),
    (1, None, 0, &[], 9, 2, "26627dc982cd0fc036f719e6736bfa8ce05cf5fc9e873c9a7127a5b48aaff503"),
    (1, Some("xxxxxxxxxxxxxxxxxxxxxxxxxxxxxxxxxxxxxxxx"), 132, &[19], 9, 3, "e51f627ae044a7870afa6fc42a47fcf1a7c6ff3f4815fa7971f01893f5857e99"),
    (1, Some("xxxxxxxxxxxxxxxxxxxxxxxxxxxxxxxxxxxxxxxx"), 4467, &[20, 21], 11, 4, "2f4241b28fd22b65a622f4c33439fc4825c6c01aef3222dae58ad76bfdf92844"),
    (0, None, 0, &[], 9, 3, "e600f251d0a05cacc9111081d6c81fd815d76c9bc4e394885f3d0a652f4c4afd"),
];

/// Puts a record of this length into a room, its pages filled with these bytes.
fn fill_text(text: &mut Vec<u8>, len: usize, fills: &[u8]) -> Result<(), AllocError> {
    text.clear();
    for fill in fills {
        for _ in 0..PAGE {
            text.push(*fill)?;
        }
    }
    text[len..].fill(0);
    Ok(())
}

/// Stages a change, commits and retires it. Answers whether no call failed.
fn makes(
    store: &mut BookStore,
    disk: &mut MemoryDisk,
    text: &mut Vec<u8>,
    change: Change,
) -> Result<bool, AllocError> {
    let (row, name, len, fills, _calls, _pages, _sha256) = change;
    match name {
        Some(name) => {
            let Some(name) = Name::new(name.as_bytes()) else {
                return Ok(false);
            };
            fill_text(text, len, fills)?;
            if store.stage(disk, row, name, text, len).is_err() {
                return Ok(false);
            }
        }
        None => store.stage_empty(row),
    }
    Ok(store.commit(disk).is_ok() && store.retire(disk).is_ok())
}

/// Whether a store has a row after a change.
fn has_row(store: &BookStore, change: Change) -> bool {
    let (row, name, len, fills, _calls, _pages, _sha256) = change;
    let content = store.content(row);
    store.name(row) == name && content.len() == len && (len == 0 || content[0] == fills[0])
}

/// How many of the pages of a book of 3 rows aren't zeros; nothing where a read failed.
fn pages_in(disk: &mut MemoryDisk, page: &mut [u8]) -> Option<usize> {
    let mut count = 0;
    for row in 0..3 {
        for number in 0..ROW_PAGES as u64 {
            let place = BOOK_START + ROW_SIZE * row + PAGE as u64 * number;
            if disk.read(place, page).is_err() {
                return None;
            }
            if page.iter().any(|byte| *byte != 0) {
                count += 1;
            }
        }
    }
    Some(count)
}

/// Whether this table has a digest, and the other one is zeros.
fn has_tables(
    alloc: Global,
    disk: &mut MemoryDisk,
    second: bool,
    sha256: &str,
) -> Result<bool, AllocError> {
    let mut table = vec![in alloc; 0; BOOK_TABLE as usize]?;
    let mut other = vec![in alloc; 1; BOOK_TABLE as usize]?;
    let (place, beside) = if second {
        (BOOK_TABLE as u64, 0)
    } else {
        (0, BOOK_TABLE as u64)
    };
    if disk.read(place, &mut table).is_err() || disk.read(beside, &mut other).is_err() {
        return Ok(false);
    }
    Ok(is_digest(alloc, &table, sha256)? && other.iter().all(|byte| *byte == 0))
}

/// Whether each change of a new book makes so many calls, and leaves what it should.
fn all_are_made(alloc: Global) -> Result<bool, AllocError> {
    let mut disk = MemoryDisk::new(alloc, BOOK_START + 3 * ROW_SIZE)?;
    let mut store = BookStore::new(alloc, 3)?;
    let mut text = Vec::with_capacity(alloc, PAGE * ROW_MOST as usize)?;
    let mut page = vec![in alloc; 0; PAGE]?;
    let mut second = false;
    for change in CHANGES {
        let (_row, _name, _len, _fills, calls, pages, sha256) = change;
        disk.stop_after(calls);
        if !makes(&mut store, &mut disk, &mut text, change)? || disk.sync().is_ok() {
            return Ok(false);
        }
        disk.go_on();
        if !has_tables(alloc, &mut disk, second, sha256)?
            || pages_in(&mut disk, &mut page) != Some(pages)
            || !has_row(&store, change)
        {
            return Ok(false);
        }
        second = !second;
    }
    Ok(true)
}

#[test]
fn changes_leave_their_tables(rt: HostRuntime) -> Result<(), Fail> {
    assert!(rt; all_are_made(rt.alloc())?);
    Ok(())
}
