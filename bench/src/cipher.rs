//! The primitives, at three lengths.

use crate::clock::Times;
use dr_chacha20::xor_in_place;
use hmac_hkdf::hmac;
use std::io;
use std::rt::Clock;
use std::time::Instant;

/// How often each thing is measured.
const RUNS: usize = 101;

/// Encrypts a text of 65,536 bytes or less in place.
fn encrypt(text: &mut [u8]) {
    if text.len() <= 65536 {
        xor_in_place(&[7; 32], 1, &[9; 12], text);
    }
}

/// The median time of an encryption, in nanoseconds.
fn time_encryption<R: Clock + AllocGlobal>(rt: &R, size: usize) -> io::Result<u64> {
    let mut text = vec![in rt.alloc(); 1u8; size]?;
    let mut times = Times::new(rt.alloc());
    for _ in 0..RUNS {
        let start = Instant::now(rt)?;
        encrypt(text.as_mut_slice());
        times.add(rt, start)?;
    }
    times.median()
}

/// The median time of an HMAC, in nanoseconds.
fn time_hmac<R: Clock + AllocGlobal>(rt: &R, size: usize) -> io::Result<u64> {
    let text = vec![in rt.alloc(); 1u8; size]?;
    let mut key = [7; 32];
    let mut times = Times::new(rt.alloc());
    for _ in 0..RUNS {
        let start = Instant::now(rt)?;
        key = hmac(&key, text.as_slice());
        times.add(rt, start)?;
    }
    times.median()
}

/// This many bytes in this many nanoseconds, in MB/s.
fn rate(size: usize, nanos: u64) -> u64 {
    if nanos == 0 {
        return 0;
    }
    (size as u64).saturating_mul(1000) / nanos
}

/// Prints a line for each length.
pub fn report<R: Clock + Print + AllocGlobal>(rt: &R) -> io::Result<()> {
    for size in [64, 1024, 65536] {
        let encryption = time_encryption(rt, size)?;
        let authentication = time_hmac(rt, size)?;
        let cipher_rate = rate(size, encryption);
        let hmac_rate = rate(size, authentication);
        println!(rt; "{size} bytes: ChaCha20 {cipher_rate} MB/s, HMAC {hmac_rate} MB/s")?;
    }
    Ok(())
}
