//! A text said and its packet taken by clients on real files.

ghost use Rattle.std.specs.Prelude.{◌≡◌, None, IfOk, OnOk};
ghost use Rattle.client.specs.Clients.{IsReady};

use crate::clock::Times;
use bodies::Format;
use client::{AREA_SIZE, Client};
use dr_base::{Key32, Side};
use dr_disk::Disk;
use file_disk::{FileDisk, Sharing};
use dr_ports::SteadyDraws;
use kem_laws::{Kem, OpenKem};
use sntrup761::Sntrup761;
use std::alloc::Global;
use std::fs::File;
use std::io::{Error, ErrorKind};
use std::rt::{Clock, Files};
use std::time::Instant;
use std::{fs, io};

/// How often each side says two texts: each thing is measured twice as often.
const RUNS: usize = 11;

/// The files that are written.
const FIRST: &str = "bench-first";

const SECOND: &str = "bench-second";

/// What is said.
const TEXT: [u8; 1024] = [5; 1024];

/// The times of a first text of an epoch, and of a later one: said, and taken.
#[derive(Drop)]
struct Rounds {
    said_turn: Times,
    said: Times,
    taken_turn: Times,
    taken: Times,
}

/// The client of a side, begun on a new file.
pub fn begin<K: Kem, D: Disk>(alloc: Global, side: Side, disk: &mut D) -> io::Result<()> {
    if disk.size() < AREA_SIZE {
        return Err(Error::from(ErrorKind::InvalidInput));
    }
    match Client::<K>::begin(alloc, disk, side, Format::Plain, &Key32 { bytes: [7; 32] }) {
        Ok(_) => Ok(()),
        Err(_) => Err(Error::from(ErrorKind::InvalidData)),
    }
}

/// A copy of the packet at a place of the outbox.
fn packet_at<K: Kem>(alloc: Global, client: &Client<K>, at: usize) -> io::Result<Vec<u8>> {
    match client.outbox(at) {
        Some((_, packet)) => Ok(packet.to_vec(alloc)?),
        None => Err(Error::from(ErrorKind::InvalidData)),
    }
}

/// Says a text, and adds the time of that.
fn time_say<K: Kem, D: Disk, R: Clock>(
    rt: &R,
    client: &mut Client<K>,
    disk: &mut D,
    draws: &mut SteadyDraws,
    times: &mut Times,
) -> io::Result<()>
    requires { client.old.closed ≡ None → IsReady client.old.kept client.old.store (D.state disk.old) }
    ensures { OnOk result ((client.new.closed ≡ None) × IsReady client.new.kept client.new.store (D.state disk.new)) }
{
    let start = Instant::now(rt)?;
    match client.say(disk, &TEXT, draws) {
        Ok(_) => times.add(rt, start),
        Err(_) => Err(Error::from(ErrorKind::InvalidData)),
    }
}

/// Takes a packet, and adds the time of that.
fn time_take<K: Kem, D: Disk, R: Clock>(
    rt: &R,
    client: &mut Client<K>,
    disk: &mut D,
    packet: &[u8],
    times: &mut Times,
) -> io::Result<()>
    requires { client.old.closed ≡ None → IsReady client.old.kept client.old.store (D.state disk.old) }
    ensures { OnOk result ((client.new.closed ≡ None) × IsReady client.new.kept client.new.store (D.state disk.new)) }
{
    let start = Instant::now(rt)?;
    match client.take(disk, packet) {
        Ok(_) => times.add(rt, start),
        Err(_) => Err(Error::from(ErrorKind::InvalidData)),
    }
}

/// Says two texts, the first of a new epoch, and answers their packets, which leave the outbox.
fn say_two<K: Kem, D: Disk, R: Clock + AllocGlobal>(
    rt: &R,
    client: &mut Client<K>,
    disk: &mut D,
    draws: &mut SteadyDraws,
    rounds: &mut Rounds,
) -> io::Result<(Vec<u8>, Vec<u8>)>
    requires { client.old.closed ≡ None → IsReady client.old.kept client.old.store (D.state disk.old) }
{
    time_say(rt, client, disk, draws, &mut rounds.said_turn)?;
    time_say(rt, client, disk, draws, &mut rounds.said)?;
    let turn = packet_at(rt.alloc(), client, 0)?;
    let later = packet_at(rt.alloc(), client, 1)?;
    match client.sent(disk, 2) {
        Ok(()) => Ok((turn, later)),
        Err(_) => Err(Error::from(ErrorKind::InvalidData)),
    }
}

/// Takes them.
fn take_two<K: Kem, D: Disk, R: Clock>(
    rt: &R,
    client: &mut Client<K>,
    disk: &mut D,
    packets: &(Vec<u8>, Vec<u8>),
    rounds: &mut Rounds,
) -> io::Result<()>
    requires { client.old.closed ≡ None → IsReady client.old.kept client.old.store (D.state disk.old) }
{
    time_take(rt, client, disk, &packets.0, &mut rounds.taken_turn)?;
    time_take(rt, client, disk, &packets.1, &mut rounds.taken)?;
    match client.done(disk, 2) {
        Ok(()) => Ok(()),
        Err(_) => Err(Error::from(ErrorKind::InvalidData)),
    }
}

/// The client that a disk holds.
pub fn opened<K: Kem, D: Disk>(alloc: Global, disk: &mut D) -> io::Result<Client<K>>
    ensures { IfOk result (λ client. client.closed ≡ None → IsReady client.kept client.store (D.state disk.new)) }
{
    if disk.size() < AREA_SIZE {
        return Err(Error::from(ErrorKind::InvalidInput));
    }
    match Client::<K>::open(alloc, disk) {
        Ok(client) => Ok(client),
        Err(_) => Err(Error::from(ErrorKind::InvalidData)),
    }
}

/// One side says two texts, and the other takes them.
fn pass<K: Kem, D: Disk, R: Clock + AllocGlobal>(
    rt: &R,
    from: &mut D,
    to: &mut D,
    draws: &mut SteadyDraws,
    rounds: &mut Rounds,
) -> io::Result<()> {
    let mut client = opened::<K, D>(rt.alloc(), from)?;
    let packets = say_two(rt, &mut client, from, draws, rounds)?;
    let mut client = opened::<K, D>(rt.alloc(), to)?;
    take_two(rt, &mut client, to, &packets, rounds)
}

/// Both sides begin, and say and take in turn.
fn play<K: Kem, D: Disk, R: Clock + AllocGlobal>(
    rt: &R,
    first: &mut D,
    second: &mut D,
    rounds: &mut Rounds,
) -> io::Result<()> {
    begin::<K, D>(rt.alloc(), Side::First, first)?;
    begin::<K, D>(rt.alloc(), Side::Second, second)?;
    let mut draws = SteadyDraws::new(rt.alloc(), &[Key32 { bytes: [3; 32] }])?;
    for _ in 0..RUNS {
        pass::<K, D, R>(rt, first, second, &mut draws, rounds)?;
        pass::<K, D, R>(rt, second, first, &mut draws, rounds)?;
    }
    Ok(())
}

/// Both sides on new files, which are removed.
fn play_on_files<K: Kem, R: Clock + AllocGlobal + Files<File = File>>(
    rt: &R,
    rounds: &mut Rounds,
) -> io::Result<()> {
    let mut first = FileDisk::new(rt, FIRST, AREA_SIZE, 0, Sharing::InTurn);
    let mut second = FileDisk::new(rt, SECOND, AREA_SIZE, 0, Sharing::InTurn);
    play::<K, FileDisk<R>, R>(rt, &mut first, &mut second, rounds)?;
    drop(first);
    drop(second);
    fs::remove_file(rt, FIRST)?;
    Ok(fs::remove_file(rt, SECOND)?)
}

/// Prints a line over a mechanism.
fn report_over<K: Kem, R: Clock + Print + AllocGlobal + Files<File = File>>(
    rt: &R,
    name: &str,
) -> io::Result<()> {
    let mut rounds = Rounds {
        said_turn: Times::new(rt.alloc()),
        said: Times::new(rt.alloc()),
        taken_turn: Times::new(rt.alloc()),
        taken: Times::new(rt.alloc()),
    };
    play_on_files::<K, R>(rt, &mut rounds)?;
    let said = rounds.said.median()? / 1000;
    let said_turn = rounds.said_turn.median()? / 1000;
    let taken = rounds.taken.median()? / 1000;
    let taken_turn = rounds.taken_turn.median()? / 1000;
    println!(rt;
        "over {name}: a text said on a file in {said} us, with a turn in {said_turn} us; taken in {taken} us, with a turn in {taken_turn} us"
    )
}

/// Prints a line for each mechanism.
pub fn report<R: Clock + Print + AllocGlobal + Files<File = File>>(rt: &R) -> io::Result<()> {
    report_over::<OpenKem, R>(rt, "the stand-in")?;
    report_over::<Sntrup761, R>(rt, "sntrup761")
}
