//! Whole disks as they are opened, by an independent implementation: a book of 3 rows whose texts
//! begin with a T, and what damages it.

use crate::tables::is_digest;
use book_store::{BOOK_START, BookOpenError, BookStore, Grammar, ROW_MOST, ROW_SIZE, RowGrammar};
use dr_base::PAGE;
use dr_disk::{Disk, MemoryDisk};
use hex::decode;
use relay_wire::Name;
use std::alloc::{AllocError, Global};
use std::test::Fail;

ghost use Rattle.std.specs.Prelude.{⊤, ◌==◌, None, Some, if◌then◌else◌, slice_index};

/// A reader of texts that begin with a T, which keeps how long the text was.
#[derive(Drop)]
struct Reader {
    len: usize,
}

impl Grammar for Reader {
    ghost fault_at = { λ text. if slice_index text 0 == 84 then None else Some 0 };

    ghost is_new = { λ r. ⊤ };

    ghost has_read = { λ r text. ⊤ };

    fn read(&mut self, text: &[u8]) -> Result<(), u32> {
        if text.first() != Some(&b'T') {
            return Err(0);
        }
        self.len = text.len();
        Ok(())
    }
}

impl RowGrammar for Reader {
    fn fresh(_alloc: Global) -> Result<Reader, AllocError> {
        Ok(Reader { len: 0 })
    }
}

/// What a row is to have: its place, its name, a letter, and how many of it stand behind a T; no
/// name where it is to be absent.
type Row = (usize, &'static str, u8, usize);

/// Rows that change under one commit, and the digest of the whole disk then, where it is looked at.
type Event = (&'static [Row], &'static str);

/// The events of a book that is new, one after the other.
const EVENTS: [Event; 9] = [
    (&[(0, "a", b'p', 0)], ""),
    (&[(1, "b", b'q', 4095), (2, "c", b'r', 4096)], "3fb3364843b8fa31b736dd54127372d16ab57f6a9b83b3ebddc36edc1261d552"),
    (&[(0, "a", b'p', 8191)], ""),
    (&[(0, "a", b's', 5000), (1, "", 0, 0), (2, "c", b'r', 4096)], ""),
    (&[(2, "c", b'r', 12000), (0, "a", b'p', 8191)], "9449f4a4f8c9043f4b948758907c7c6f65af1ef0cd6ccddb91d40909e1aec456"),
    (&[(1, "b-2", b'u', 778239)], "bcac0bff4e630af5f5dd7636be84fdb0bfa099202ab1a9949c4d43df796c0d11"),
    (&[(1, "b-2", b'v', 778239)], ""),
    (&[(0, "", 0, 0), (1, "", 0, 0), (2, "", 0, 0)], "fb358ecb4212e66772b481d57ef1dbb21298e0e5ad6ec4e22f3426b5078d5e9c"),
    (&[(2, "a", b'w', 1)], "2b9bc7e622c6ba151fc1834e2d9ff9c5f69f7050e0e1a8d669f603a20b1c93fb"),
];

/// Stages a row. Answers whether no call failed.
fn stages(
    store: &mut BookStore,
    disk: &mut MemoryDisk,
    text: &mut Vec<u8>,
    row: Row,
) -> Result<bool, AllocError> {
    let (place, name, letter, count) = row;
    let Some(name) = Name::new(name.as_bytes()) else {
        store.stage_empty(place);
        return Ok(true);
    };
    text.clear();
    text.push(b'T')?;
    text.resize(1 + count, letter)?;
    text.resize((count / PAGE + 1) * PAGE, 0)?;
    Ok(store.stage(disk, place, name, text, 1 + count).is_ok())
}

/// Makes the rows of an event what they are to be. Answers whether no call failed.
fn makes(
    alloc: Global,
    store: &mut BookStore,
    disk: &mut MemoryDisk,
    rows: &[Row],
) -> Result<bool, AllocError> {
    let mut text = Vec::with_capacity(alloc, PAGE * ROW_MOST as usize)?;
    for row in rows {
        if !stages(store, disk, &mut text, *row)? {
            return Ok(false);
        }
    }
    Ok(store.commit(disk).is_ok() && store.retire(disk).is_ok())
}

/// The bytes of a book of 3 rows.
fn bytes_of(alloc: Global, disk: &mut MemoryDisk) -> Result<Vec<u8>, AllocError> {
    let mut bytes = vec![in alloc; 0; (BOOK_START + 3 * ROW_SIZE) as usize]?;
    if disk.read(0, &mut bytes).is_err() {
        bytes.clear();
    }
    Ok(bytes)
}

/// Whether a book of 3 rows has this digest, if one is given.
fn has_digest(alloc: Global, disk: &mut MemoryDisk, sha256: &str) -> Result<bool, AllocError> {
    Ok(sha256 == "" || is_digest(alloc, &bytes_of(alloc, disk)?, sha256)?)
}

/// Whether a store has the rows of an event, and its readers have read just what it has.
fn has_rows(store: &BookStore, readers: &[Option<Reader>], rows: &[Row]) -> bool {
    for (row, reader) in readers.iter().enumerate() {
        let len = match reader {
            Some(reader) => reader.len,
            None => 0,
        };
        if len != store.content(row).len() || store.name(row).is_some() != reader.is_some() {
            return false;
        }
    }
    rows.iter().all(|row| {
        let (place, name, letter, count) = *row;
        let content = store.content(place);
        if name == "" {
            return content.is_empty();
        }
        store.name(place) == Some(name)
            && content.len() == 1 + count
            && content[1..].iter().all(|byte| *byte == letter)
    })
}

/// Whether a book can be opened before each of the first events, and the event leaves its disk.
fn goes_on(alloc: Global, disk: &mut MemoryDisk, count: usize) -> Result<bool, AllocError> {
    let mut before: &[Row] = &[];
    for (rows, sha256) in &EVENTS[..count] {
        let Ok((mut store, readers)) = BookStore::open::<Reader, MemoryDisk>(alloc, disk, 3) else {
            return Ok(false);
        };
        if readers.len() != 32
            || !has_rows(&store, &readers, before)
            || !makes(alloc, &mut store, disk, rows)?
            || !has_digest(alloc, disk, sha256)?
        {
            return Ok(false);
        }
        before = rows;
    }
    Ok(true)
}

/// What opening comes to: so many rows are present, or why it is refused.
fn opened(alloc: Global, disk: &mut MemoryDisk, rows: u32) -> Result<usize, BookOpenError> {
    let (store, _readers) = BookStore::open::<Reader, MemoryDisk>(alloc, disk, rows)?;
    Ok((0..32).filter(|row| store.name(*row).is_some()).count())
}

/// A disk with room for 4 rows after five events; nothing where a call failed.
fn after_five(alloc: Global) -> Result<Option<MemoryDisk>, AllocError> {
    let mut disk = MemoryDisk::new(alloc, BOOK_START + 4 * ROW_SIZE)?;
    let mut store = BookStore::new(alloc, 3)?;
    for (rows, _sha256) in &EVENTS[..5] {
        if !makes(alloc, &mut store, &mut disk, rows)? {
            return Ok(None);
        }
    }
    Ok(Some(disk))
}

/// Puts bytes in the place of others, and fills in what stood there. Answers whether it could.
fn puts(
    alloc: Global,
    disk: &mut MemoryDisk,
    changes: &[(u64, &str)],
    old: &mut Vec<Vec<u8>>,
) -> Result<bool, AllocError> {
    for (place, new) in changes {
        let Ok(bytes) = decode(alloc, new) else {
            return Ok(false);
        };
        let mut before = vec![in alloc; 0; bytes.len()]?;
        if disk.read(*place, &mut before).is_err() || disk.write_at(*place, &bytes).is_err() {
            return Ok(false);
        }
        old.push(before)?;
    }
    Ok(true)
}

/// Whether a disk with these bytes in the place of others is opened as this. Then the others are put
/// back.
fn is_told(
    alloc: Global,
    disk: &mut MemoryDisk,
    changes: &[(u64, &str)],
    rows: u32,
    expected: Result<usize, BookOpenError>,
) -> Result<bool, AllocError> {
    let mut old = Vec::new(alloc);
    if !puts(alloc, disk, changes, &mut old)? || opened(alloc, disk, rows) != expected {
        return Ok(false);
    }
    for (change, before) in changes.iter().zip(old.iter()) {
        if disk.write_at(change.0, before).is_err() {
            return Ok(false);
        }
    }
    Ok(true)
}

/// Whether a disk with these bytes in the place of others is opened with so many rows.
fn opens_with(
    alloc: Global,
    disk: &mut MemoryDisk,
    changes: &[(u64, &str)],
    count: usize,
) -> Result<bool, AllocError> {
    let mut old = Vec::new(alloc);
    Ok(puts(alloc, disk, changes, &mut old)? && opened(alloc, disk, 3) == Ok(count))
}

const KEPT: &str = "9449f4a4f8c9043f4b948758907c7c6f65af1ef0cd6ccddb91d40909e1aec456";

fn table(table: u32, at: u64) -> Result<usize, BookOpenError> {
    Err(BookOpenError::DamagedTable { table, at })
}

fn row(row: u32, at: u64) -> Result<usize, BookOpenError> {
    Err(BookOpenError::DamagedRow { row, at })
}

#[test]
fn books_are_opened_again(rt: HostRuntime) -> Result<(), Fail> {
    let mut disk = MemoryDisk::new(rt.alloc(), BOOK_START + 3 * ROW_SIZE)?;
    assert!(rt; goes_on(rt.alloc(), &mut disk, 9)?);
    Ok(())
}

// Table 0 is open with turn 2. Row 0 has the pages 1 and 2, row 2 the pages 0, 2 and 3.
const WIPED: [&[(u64, &str)]; 5] = [
    &[],
    &[(20_480, "a501"), (1_638_400, "01")],
    &[(20_480, "a500"), (65_536, "ff")],
    &[(20_480, "a504"), (4_780_032, "ff")],
    &[(20_480, "0107"), (20_482, "ff"), (40_959, "ff")],
];

/// Whether all but what counts is wiped.
fn all_else_is_wiped(alloc: Global) -> Result<bool, AllocError> {
    let Some(mut disk) = after_five(alloc)? else {
        return Ok(false);
    };
    let kept = bytes_of(alloc, &mut disk)?;
    for changes in WIPED {
        if !opens_with(alloc, &mut disk, changes, 2)? || bytes_of(alloc, &mut disk)? != kept {
            return Ok(false);
        }
    }
    if !opens_with(alloc, &mut disk, &[(1, "00"), (20_480, "a400")], 0)? {
        return Ok(false);
    }
    Ok(is_digest(alloc, &kept, KEPT)? && bytes_of(alloc, &mut disk)?.iter().all(|b| *b == 0))
}

/// Whether damage is told, and nothing is written then.
fn all_damage_is_told(alloc: Global) -> Result<bool, AllocError> {
    let Some(mut disk) = after_five(alloc)? else {
        return Ok(false);
    };
    let rows: [(&[(u64, &str)], Result<usize, BookOpenError>); 14] = [
        (&[(20_480, "a502")], table(1, 1)),
        (&[(20_480, "a502"), (2, "01")], table(1, 1)),
        (&[(20_480, "a503"), (20_482, "01")], table(1, 2)),
        (&[(2, "01")], table(0, 2)),
        (&[(512, "02")], table(0, 512)),
        (&[(1537, "0161")], table(0, 1538)),
        (&[(558, "0180")], table(0, 558)),
        (&[(69_632, "00")], row(0, 4096)),
        (&[(3_211_264, "00")], row(2, 4096)),
        (&[(3_211_264, "00"), (69_632, "00")], row(0, 4096)),
        (&[(3_227_361, "01")], row(2, 16_097)),
        (&[(554, "00001fff")], row(0, 12_287)),
        (&[(3_211_264, "00"), (20_479, "01")], table(0, 20_479)),
        (&[(558, "017f")], row(0, 4096)),
    ];
    for (changes, expected) in rows {
        if !is_told(alloc, &mut disk, changes, 3, expected)? {
            return Ok(false);
        }
    }
    Ok(is_told(alloc, &mut disk, &[], 2, table(0, 1536))?
        && is_told(alloc, &mut disk, &[], 4, Ok(2))?
        && has_digest(alloc, &mut disk, KEPT)?)
}

#[test]
fn what_does_not_count_is_wiped(rt: HostRuntime) -> Result<(), Fail> {
    assert!(rt; all_else_is_wiped(rt.alloc())?);
    Ok(())
}

#[test]
fn damage_is_told(rt: HostRuntime) -> Result<(), Fail> {
    assert!(rt; all_damage_is_told(rt.alloc())?);
    Ok(())
}
