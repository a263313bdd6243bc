//! A packet posted, fetched and acknowledged at a relay on a real file, over loopback, at a box without keys and at one with keys,
//! beside the bare writes and syncs of its box's records.

ghost use Rattle.relay_server.specs.Durable.{IsServerReady};

use crate::clock::Times;
use crate::store::time_bare;
use dr_base::Key32;
use dr_disk::Disk;
use file_disk::{FileDisk, Sharing};
use dr_ports::{Door, Link};
use relay_core::{BoxKeys, BoxSpec};
use relay_guard::token_tag;
use relay_pipe::send_all;
use relay_server::{HALF_SIZE, Server, UPPER_START};
use relay_wire::Name;
use std::alloc::Global;
use std::fs::File;
use std::io::{Error, ErrorKind};
use std::net::{Net, TcpStream};
use std::rt::{Clock, Files};
use std::time::Instant;
use std::{fs, io};
use tcp_ports::{TcpDoor, TcpLink};

/// How often the exchange is measured.
const RUNS: u64 = 41;

/// Where the relay listens.
const PORT: u16 = 47614;

const ADDRESS: &str = "127.0.0.1:47614";

/// The file of the relay, and the size of a disk with the area of one box.
const RELAY: &str = "bench-relay";

/// The same of a relay whose box has keys.
const GUARDED: &str = "bench-guarded";

const DISK_SIZE: u64 = UPPER_START + HALF_SIZE;

/// How many bytes the replies have: a number, the packet, that it was dropped, and that a frame has no lawful length.
const REPLIES: usize = 1053;

/// The length of a token: its kind, a counter and a tag.
const TOKEN: usize = 41;

/// The owner's key and the poster's.
fn key() -> Key32 {
    Key32 { bytes: [5; 32] }
}

/// The keys of a box that has some.
fn keys_of(guarded: bool) -> Option<BoxKeys> {
    if guarded {
        return Some(BoxKeys {
            owner: key(),
            poster: key(),
        });
    }
    None
}

/// Puts the frame of a request to the box `a` behind those that stand, with a token of this counter where there is one.
fn put(bytes: &mut Vec<u8>, head: &[u8], rest: &[u8], counter: Option<u64>) -> io::Result<()> {
    let bare = head.len().wrapping_add(rest.len()).wrapping_add(1);
    let body = match counter {
        None => bare,
        Some(_) => bare.wrapping_add(TOKEN),
    };
    let Ok(len) = u16::try_from(body) else {
        return Err(Error::from(ErrorKind::InvalidInput));
    };
    bytes.extend_from_slice(&len.to_be_bytes())?;
    if let Some(counter) = counter {
        bytes.push(4)?;
        bytes.extend_from_slice(&counter.to_be_bytes())?;
        bytes.extend_from_slice(&token_tag(&key(), counter, head, b"a", rest))?;
    }
    bytes.extend_from_slice(head)?;
    bytes.extend_from_slice(b"a")?;
    bytes.extend_from_slice(rest)?;
    Ok(())
}

/// The frames that post a packet of 1,024 bytes to the box `a`, fetch it and acknowledge it under its number, and one of no
/// lawful length, which ends the connection. Each owner's request has a counter of its own.
fn requests(alloc: Global, number: u64, guarded: bool) -> io::Result<Vec<u8>> {
    let mut bytes = Vec::new(alloc);
    let fetch = number.wrapping_mul(2);
    let counters = if guarded {
        [Some(number), Some(fetch), Some(fetch.wrapping_add(1))]
    } else {
        [None; 3]
    };
    put(&mut bytes, b"\x01\x01", &[7; 1024], counters[0])?;
    put(&mut bytes, b"\x02\x01", b"", counters[1])?;
    put(&mut bytes, b"\x03\x01", &number.to_be_bytes(), counters[2])?;
    bytes.extend_from_slice(b"\x00\x00")?;
    Ok(bytes)
}

/// Receives the replies.
fn receive_replies<L: Link>(link: &mut L) -> io::Result<()> {
    let mut piece = [0; 2048];
    let mut got = 0;
    for _ in 0..REPLIES {
        if got >= REPLIES {
            return Ok(());
        }
        match link.receive(&mut piece) {
            Ok(count) => got += count,
            Err(_) => return Err(Error::from(ErrorKind::BrokenPipe)),
        }
    }
    Err(Error::from(ErrorKind::UnexpectedEof))
}

/// Has the relay serve one connection that sends these bytes, and adds the time of that.
fn serve_once<R: Clock, D: Disk, L: Link, A: Door>(
    rt: &R,
    server: &mut Server,
    disk: &mut D,
    link: &mut L,
    door: &mut A,
    bytes: &[u8],
    times: &mut Times,
) -> io::Result<()>
    requires { IsServerReady server.old (D.state disk.old) }
{
    let start = Instant::now(rt)?;
    let connected = link.open(ADDRESS).is_ok()
        && send_all(link, bytes).is_ok()
        && door.accept().is_ok()
        && server.serve(disk, door).is_ok();
    if !connected {
        return Err(Error::from(ErrorKind::BrokenPipe));
    }
    receive_replies(link)?;
    link.shut();
    door.shut();
    times.add(rt, start)
}

/// Opens the relay and has it serve one connection, and adds the time of that.
fn exchange<R: Clock + AllocGlobal, D: Disk, L: Link, A: Door>(
    rt: &R,
    disk: &mut D,
    link: &mut L,
    door: &mut A,
    number: u64,
    guarded: bool,
    times: &mut Times,
) -> io::Result<()> {
    let Some(name) = Name::new(b"a") else {
        return Err(Error::from(ErrorKind::InvalidInput));
    };
    if disk.size() < DISK_SIZE {
        return Err(Error::from(ErrorKind::InvalidInput));
    }
    let bytes = requests(rt.alloc(), number, guarded)?;
    let keys = keys_of(guarded);
    match Server::open(rt.alloc(), disk, &[BoxSpec { name, keys }]) {
        Ok(mut server) => serve_once(rt, &mut server, disk, link, door, &bytes, times),
        Err(_) => Err(Error::from(ErrorKind::InvalidData)),
    }
}

/// The median times of an exchange at a box without keys, and at one with keys, in turn, in microseconds.
fn time_exchanges<R: Clock + AllocGlobal + Files<File = File> + Net<Stream = TcpStream>>(
    rt: &R,
) -> io::Result<(u64, u64)> {
    let mut disk = FileDisk::new(rt, RELAY, DISK_SIZE, HALF_SIZE, Sharing::Alone);
    let mut kept = FileDisk::new(rt, GUARDED, DISK_SIZE, HALF_SIZE, Sharing::Alone);
    let mut link = TcpLink::new(rt);
    let mut door = TcpDoor::new(rt);
    if door.listen(PORT).is_err() {
        return Err(Error::from(ErrorKind::AddrInUse));
    }
    let mut bare = Times::new(rt.alloc());
    let mut guarded = Times::new(rt.alloc());
    for number in 1..=RUNS {
        exchange(rt, &mut disk, &mut link, &mut door, number, false, &mut bare)?;
        exchange(rt, &mut kept, &mut link, &mut door, number, true, &mut guarded)?;
    }
    Ok((bare.median()? / 1000, guarded.median()? / 1000))
}

/// Prints a line, and removes the files.
pub fn report<R: Clock + Print + AllocGlobal + Files<File = File> + Net<Stream = TcpStream>>(
    rt: &R,
) -> io::Result<()> {
    let (each, guarded) = time_exchanges(rt)?;
    fs::remove_file(rt, RELAY)?;
    fs::remove_file(rt, GUARDED)?;
    let put = time_bare(rt, 1)?;
    let (bare, three) = (put.saturating_mul(2), put.saturating_mul(3));
    println!(rt;
        "a packet of 1,024 bytes posted, fetched and acknowledged over loopback, on a file: {each} us; its writes and syncs alone: {bare} us"
    )?;
    println!(rt; "the same at a box with keys: {guarded} us; its writes and syncs alone: {three} us")
}
