//! A record that is replaced on a real file, beside a bare loop of the same writes and syncs.

ghost use Rattle.std.specs.Prelude.{⊤, ℕ, List, None};

use crate::clock::Times;
use dr_base::PAGE;
use dr_disk::Disk;
use file_disk::{FileDisk, Sharing};
use slot_store::{Area, Grammar, SlotStore, lengthen, record_memory};
use std::fs::{File, OpenOptions};
use std::io::{Error, ErrorKind};
use std::os::unix::fs::FileExt;
use std::rt::{Clock, Files};
use std::time::Instant;
use std::{fs, io};

/// How often each thing is measured.
const RUNS: usize = 41;

/// A client's area, its longest record and that one's pages, and the files that are written.
const AREA: u64 = 1_572_864;

const RECORD: usize = 761_855;

const RECORD_PAGES: u8 = 184;

const STORE: &str = "bench-store";

const BARE: &str = "bench-bare";

/// Any bytes.
#[derive(Drop)]
struct AnyText;

impl Grammar for AnyText {
    ghost fault_at = { λ _. None };

    ghost is_new = { λ _. ⊤ };

    ghost has_read = { λ _ _. ⊤ };

    fn read(&mut self, _text: &[u8]) -> Result<(), u32> {
        Ok(())
    }
}

/// Replaces the record once, and adds the time of that.
fn replace<R: Clock + AllocGlobal + Files<File = File>>(
    rt: &R,
    disk: &mut FileDisk<R>,
    text: &[u8],
    times: &mut Times,
) -> io::Result<()> {
    if disk.size() < AREA || text.len() > RECORD {
        return Err(Error::from(ErrorKind::InvalidInput));
    }
    let area = Area {
        start: 0,
        upper: 524_288,
        pages: 384,
        most: 190,
    };
    let Ok((mut store, _found)) = SlotStore::open(rt.alloc(), disk, area, &mut AnyText) else {
        return Err(Error::from(ErrorKind::InvalidData));
    };
    let mut room = record_memory(rt.alloc(), area)?;
    lengthen(area, &mut room, text.len());
    room[..text.len()].copy_from_slice(text);
    let start = Instant::now(rt)?;
    let Ok(()) = store.replace(disk, &mut room, text.len()) else {
        return Err(Error::from(ErrorKind::InvalidData));
    };
    times.add(rt, start)
}

/// Changes the first byte of each page, or that of the first page alone.
fn change(text: &mut [u8], every_page: bool, byte: u8) {
    let pages = if every_page {
        usize::from(RECORD_PAGES)
    } else {
        1
    };
    for page in text.chunks_mut(PAGE).take(pages) {
        if let Some(first) = page.first_mut() {
            *first = byte;
        }
    }
}

/// The median time of that, in microseconds, where one page changes or every page.
fn time_store<R: Clock + AllocGlobal + Files<File = File>>(
    rt: &R,
    text: &mut [u8],
    every_page: bool,
) -> io::Result<u64> {
    let mut disk = FileDisk::new(rt, STORE, AREA, 0, Sharing::InTurn);
    let mut times = Times::new(rt.alloc());
    for run in 0..RUNS {
        change(text, every_page, run as u8);
        replace(rt, &mut disk, text, &mut times)?;
    }
    Ok(times.median()? / 1000)
}

/// Writes so many pages, from one on.
fn write_pages(file: &File, first: u16, count: u8, page: &[u8]) -> io::Result<()> {
    for at in 0..count {
        file.write_all_at(page, PAGE as u64 * (u64::from(first) + u64::from(at)))?;
    }
    Ok(())
}

/// The writes and syncs with which a record is replaced of which so many pages change.
fn replace_bare(file: &File, count: u8, page: &[u8; PAGE], zeros: &[u8; PAGE]) -> io::Result<()> {
    write_pages(file, 2, count, page)?;
    file.write_all_at(&page[1..], 1)?;
    file.sync_data()?;
    file.write_all_at(&[0xa5], 0)?;
    file.sync_data()?;
    file.write_all_at(&[0], PAGE as u64)?;
    file.sync_data()?;
    file.write_all_at(&zeros[1..], PAGE as u64 + 1)?;
    write_pages(file, 2 + u16::from(count), count, zeros)?;
    file.sync_data()
}

/// The median time of that on a new file, in nanoseconds.
fn time_bare_on<R: Clock + AllocGlobal>(rt: &R, file: &File, count: u8) -> io::Result<u64> {
    let page = [1; PAGE];
    let zeros = [0; PAGE];
    let mut times = Times::new(rt.alloc());
    for _ in 0..RUNS {
        let start = Instant::now(rt)?;
        replace_bare(file, count, &page, &zeros)?;
        times.add(rt, start)?;
    }
    times.median()
}

/// The same in microseconds, on a file that is made for it and removed.
pub fn time_bare<R: Clock + AllocGlobal + Files<File = File>>(
    rt: &R,
    count: u8,
) -> io::Result<u64> {
    let file = OpenOptions::new()
        .read(true)
        .write(true)
        .create(true)
        .open(rt, BARE)?;
    let nanos = time_bare_on(rt, &file, count)?;
    fs::remove_file(rt, BARE)?;
    Ok(nanos / 1000)
}

/// Prints a line for a record of which all pages change and one for one page, and removes the files.
pub fn report<R: Clock + Print + AllocGlobal + Files<File = File>>(rt: &R) -> io::Result<()> {
    let mut text = vec![in rt.alloc(); 7; RECORD]?;
    let all = time_store(rt, &mut text, true)?;
    let one = time_store(rt, &mut text, false)?;
    let bare_all = time_bare(rt, RECORD_PAGES)?;
    let bare_one = time_bare(rt, 1)?;
    fs::remove_file(rt, STORE)?;
    println!(rt;
        "a record of 761,855 bytes replaced on a file: {all} us; its writes and syncs alone: {bare_all} us"
    )?;
    println!(rt;
        "the same where one page changes: {one} us; its writes and syncs alone: {bare_one} us"
    )
}
