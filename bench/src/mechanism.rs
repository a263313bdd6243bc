//! The key encapsulation mechanism sntrup761.

use crate::clock::Times;
use dr_base::Key32;
use kem_laws::Kem;
use ntru_ring::Workspace;
use sntrup761::Sntrup761;
use std::io;
use std::rt::Clock;
use std::time::Instant;

/// How often each thing is measured.
const RUNS: u8 = 21;

/// A seed for each run.
fn seed(run: u8) -> Key32 {
    Key32 { bytes: [run; 32] }
}

/// The median time of a pair of keys, in microseconds.
fn time_pair<R: Clock + AllocGlobal>(rt: &R, work: &mut Workspace) -> io::Result<u64> {
    let mut public = [0; 1158];
    let mut secret = [0; 1763];
    let mut times = Times::new(rt.alloc());
    for run in 0..RUNS {
        let start = Instant::now(rt)?;
        let _made = Sntrup761::pair(work, &seed(run), &mut public, &mut secret);
        times.add(rt, start)?;
    }
    Ok(times.median()? / 1000)
}

/// The median time of an encapsulation, in microseconds.
fn time_encapsulation<R: Clock + AllocGlobal>(
    rt: &R,
    work: &mut Workspace,
    public: &[u8; 1158],
) -> io::Result<u64> {
    let mut ciphertext = [0; 1039];
    let mut times = Times::new(rt.alloc());
    for run in 0..RUNS {
        let start = Instant::now(rt)?;
        let _key = Sntrup761::encap(work, public, &seed(run), &mut ciphertext);
        times.add(rt, start)?;
    }
    Ok(times.median()? / 1000)
}

/// The median time of a decapsulation, in microseconds.
fn time_decapsulation<R: Clock + AllocGlobal>(
    rt: &R,
    work: &mut Workspace,
    secret: &[u8; 1763],
    ciphertext: &[u8; 1039],
) -> io::Result<u64> {
    let mut times = Times::new(rt.alloc());
    for _ in 0..RUNS {
        if Sntrup761::is_secret(secret).is_ok() {
            let start = Instant::now(rt)?;
            let _key = Sntrup761::decap(work, secret, ciphertext);
            times.add(rt, start)?;
        }
    }
    Ok(times.median()? / 1000)
}

/// Prints a line for each.
pub fn report<R: Clock + Print + AllocGlobal>(rt: &R) -> io::Result<()> {
    let mut work = Sntrup761::work(rt.alloc())?;
    let mut public = [0; 1158];
    let mut secret = [0; 1763];
    let mut ciphertext = [0; 1039];
    let _made = Sntrup761::pair(&mut work, &seed(1), &mut public, &mut secret);
    let _key = Sntrup761::encap(&mut work, &public, &seed(2), &mut ciphertext);
    let pair = time_pair(rt, &mut work)?;
    let encapsulation = time_encapsulation(rt, &mut work, &public)?;
    let decapsulation = time_decapsulation(rt, &mut work, &secret, &ciphertext)?;
    println!(rt;
        "sntrup761: a pair {pair} us, an encapsulation {encapsulation} us, a decapsulation {decapsulation} us"
    )
}
