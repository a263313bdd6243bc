//! One message: sealed, opened, parsed; and the keys that a stream passes.

use crate::clock::Times;
use dr_base::{Key32, PLAIN, Position};
use etm_aead::{OpenKey, SealKey};
use fs_aead::{ReceiveStream, Skipped};
use packet::{parse, write_into};
use std::io;
use std::rt::Clock;
use std::time::Instant;

/// How often each thing is measured.
const RUNS: usize = 301;

/// The median time of sealing a text of 1,024 bytes, in nanoseconds.
fn time_sealing<R: Clock + AllocGlobal>(rt: &R) -> io::Result<u64> {
    let mut text = [1; 1024];
    let mut times = Times::new(rt.alloc());
    for _ in 0..RUNS {
        let start = Instant::now(rt)?;
        let key = SealKey::from_message(Key32 { bytes: [7; 32] });
        let _tag = key.seal(&[2; 33], &mut text);
        times.add(rt, start)?;
    }
    times.median()
}

/// The median time of opening it.
fn time_opening<R: Clock + AllocGlobal>(rt: &R) -> io::Result<u64> {
    let mut ciphertext = [1; 1024];
    let tag = SealKey::from_message(Key32 { bytes: [7; 32] }).seal(&[2; 33], &mut ciphertext);
    let mut times = Times::new(rt.alloc());
    for _ in 0..RUNS {
        let mut text = ciphertext;
        let start = Instant::now(rt)?;
        let key = OpenKey::from_message(Key32 { bytes: [7; 32] });
        let _opened = key.open(&[2; 33], &mut text, &tag);
        times.add(rt, start)?;
    }
    times.median()
}

/// The median time of parsing a packet of 3,286 bytes a thousand times, in nanoseconds a packet.
#[tactic(auto, unfolding(packet::specs::Versions::is_version, packet::specs::Versions::is_text_len))]
fn time_parsing<R: Clock + AllocGlobal>(rt: &R) -> io::Result<u64> {
    let position = Position { epoch: 1, index: 1 };
    let mut bytes = [0; 3286];
    write_into(
        PLAIN, &[1; 16], position, 0, &[2; 2197], &[3; 1024], &[4; 32], &mut bytes,
    );
    let mut times = Times::new(rt.alloc());
    let mut parsed: u64 = 0;
    for _ in 0..RUNS {
        let start = Instant::now(rt)?;
        for i in 0..1000u32 {
            bytes[28] = (i % 255 + 1) as u8;
            if let Ok(view) = parse(&bytes, 2197) {
                parsed = parsed.wrapping_add(u64::from(view.index()));
            }
        }
        times.add(rt, start)?;
    }
    Ok(times.median()? / 1000 + parsed / (1 << 60))
}

/// The median time of passing and keeping 256 keys, in nanoseconds.
fn time_shelving<R: Clock + AllocGlobal>(rt: &R) -> io::Result<u64> {
    let mut times = Times::new(rt.alloc());
    for _ in 0..RUNS {
        let mut skipped = Skipped::new();
        let start = Instant::now(rt)?;
        let stream = ReceiveStream::resume(Key32 { bytes: [7; 32] }, 0);
        let _parts = stream.advance(0, &mut skipped, 256).rest();
        times.add(rt, start)?;
    }
    times.median()
}

/// Prints a line for each.
pub fn report<R: Clock + Print + AllocGlobal>(rt: &R) -> io::Result<()> {
    let sealing = time_sealing(rt)?;
    let opening = time_opening(rt)?;
    let parsing = time_parsing(rt)?;
    let shelving = time_shelving(rt)?;
    println!(rt; "a text of 1024 bytes: sealed in {sealing} ns, opened in {opening} ns")?;
    println!(rt; "a packet of 3286 bytes: parsed in {parsing} ns")?;
    println!(rt; "256 keys passed and kept: {shelving} ns")
}
