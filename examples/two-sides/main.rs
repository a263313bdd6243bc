//! Two sides of one conversation, each on a file of its own in the current folder: Second says a
//! text, and First takes its packet, shows the text and answers.
#![tactic(auto)]

use bodies::Format;
use client::{AREA_SIZE, Client};
use dr_base::{Key32, Side};
use dr_disk::Disk;
use dr_ports::RandomDraws;
use file_disk::{FileDisk, Sharing};
use rand::rngs::SysRng;
use sntrup761::Sntrup761;
use std::io;

fn main(rt: HostRuntime) -> io::Result<()> {
    // 32 random bytes that both share, in a real program
    let key = Key32 { bytes: [7; 32] };
    let mut draws = RandomDraws::new(SysRng::new(&rt));
    let mut disk = FileDisk::new(&rt, "second.state", AREA_SIZE, AREA_SIZE, Sharing::InTurn);
    let mut other = FileDisk::new(&rt, "first.state", AREA_SIZE, AREA_SIZE, Sharing::InTurn);
    if disk.size() < AREA_SIZE || other.size() < AREA_SIZE {
        return println!(rt; "a disk is too small");
    }
    let begun = Client::<Sntrup761>::begin(
        rt.alloc(),
        &mut disk,
        Side::Second,
        Format::Receipts,
        &key,
    );
    let Ok(mut second) = begun else {
        return println!(rt; "second isn't begun");
    };
    let begun = Client::<Sntrup761>::begin(
        rt.alloc(),
        &mut other,
        Side::First,
        Format::Receipts,
        &key,
    );
    let Ok(mut first) = begun else {
        return println!(rt; "first isn't begun");
    };
    if let Err(refusal) = second.say(&mut disk, b"are you there?", &mut draws) {
        return println!(rt; "second: {refusal}");
    }
    let Some((_, packet)) = second.outbox(0) else {
        return println!(rt; "nothing to send");
    };
    if let Err(refusal) = first.take(&mut other, packet) {
        return println!(rt; "first: {refusal}");
    }
    if let Some(entry) = first.inbox(0) {
        let position = entry.position;
        println!(rt;
            "first has {}.{}, of {} bytes",
            position.epoch,
            position.index,
            entry.text.len()
        )?;
    }
    match first.say(&mut other, b"yes", &mut draws) {
        Ok(position) => println!(rt; "first said {}.{}", position.epoch, position.index),
        Err(refusal) => println!(rt; "first: {refusal}"),
    }
}
