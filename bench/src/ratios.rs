//! Ratios of what is measured side by side in one process, which a machine and its load change little. Each bound is
//! two or three times what the ratio is in a run from the sources, unproved and without optimisation; in a proved build
//! most are narrower. So what takes three times as long as it has to, beside what it stands on, shows here.

use crate::clock::Times;
use crate::ring::element;
use crate::session::{begin, opened};
use crate::turn::time_text;
use client::AREA_SIZE;
use dr_base::{KEPT_LIMIT, Key32, PAGE, Side};
use file_disk::{FileDisk, Sharing};
use kem_laws::{Kem, OpenKem};
use ntru_inverse::{inverse_q, inverse3, quick_inverse_q, quick_inverse3};
use ntru_ring::{R3, Rq, Workspace, planes_of};
use sntrup761::Sntrup761;
use std::fs::{File, OpenOptions};
use std::io::{Error, ErrorKind};
use std::os::unix::fs::FileExt;
use std::rt::{Clock, Files};
use std::time::Instant;
use std::{fs, io};

/// How often each thing is measured.
const RUNS: u8 = 15;

/// How many texts are passed.
const TEXTS: usize = 301;

/// The file that is written.
const FILE: &str = "bench-opened";

/// Says whether one thing takes at most so many tenths of another, both in nanoseconds.
fn fits<R: Print>(rt: &R, what: &str, time: u64, than: u64, tenths: u64) -> io::Result<bool> {
    if time.saturating_mul(10) <= than.saturating_mul(tenths) {
        return Ok(true);
    }
    println!(rt; "bench: {what}: {time} ns are above {tenths} tenths of {than} ns")?;
    Ok(false)
}

/// The median times of an inverse in R/q, and of its quick way alone.
fn time_inverses_q<R: Clock + AllocGlobal>(
    rt: &R,
    work: &mut Workspace,
    f: &Rq,
) -> io::Result<(u64, u64)> {
    let mut whole = Times::new(rt.alloc());
    let mut quick = Times::new(rt.alloc());
    for _ in 0..RUNS {
        let start = Instant::now(rt)?;
        let _inverse = inverse_q(work, f);
        whole.add(rt, start)?;
        let start = Instant::now(rt)?;
        let _inverse = quick_inverse_q(f);
        quick.add(rt, start)?;
    }
    Ok((whole.median()?, quick.median()?))
}

/// The same in R/3.
fn time_inverses3<R: Clock + AllocGlobal>(
    rt: &R,
    work: &mut Workspace,
    g: &R3,
) -> io::Result<(u64, u64)> {
    let mut whole = Times::new(rt.alloc());
    let mut quick = Times::new(rt.alloc());
    for _ in 0..RUNS {
        let start = Instant::now(rt)?;
        let _inverse = inverse3(work, g);
        whole.add(rt, start)?;
        let start = Instant::now(rt)?;
        let _inverse = quick_inverse3(g);
        quick.add(rt, start)?;
    }
    Ok((whole.median()?, quick.median()?))
}

/// The median times of a pair of keys, of an encapsulation, and of a product with a small factor.
fn time_pairs<R: Clock + AllocGlobal>(
    rt: &R,
    work: &mut Workspace,
    f: &Rq,
    g: &R3,
) -> io::Result<(u64, u64, u64)> {
    let mut public = [0; 1158];
    let mut secret = [0; 1763];
    let mut ciphertext = [0; 1039];
    let mut pairs = Times::new(rt.alloc());
    let mut capsules = Times::new(rt.alloc());
    let mut products = Times::new(rt.alloc());
    for run in 0..RUNS {
        let seed = Key32 { bytes: [run; 32] };
        let start = Instant::now(rt)?;
        let _made = Sntrup761::pair(work, &seed, &mut public, &mut secret);
        pairs.add(rt, start)?;
        let start = Instant::now(rt)?;
        let _key = Sntrup761::encap(work, &public, &seed, &mut ciphertext);
        capsules.add(rt, start)?;
        let start = Instant::now(rt)?;
        let _product = f.mul_small(&planes_of(g));
        products.add(rt, start)?;
    }
    Ok((pairs.median()?, capsules.median()?, products.median()?))
}

/// Reads a file whole, page by page.
fn read_bare<R: Files<File = File>>(rt: &R) -> io::Result<()> {
    let file = OpenOptions::new().read(true).open(rt, FILE)?;
    let mut page = [0; PAGE];
    for at in 0..AREA_SIZE / PAGE as u64 {
        file.read_exact_at(&mut page, at * PAGE as u64)?;
    }
    Ok(())
}

/// The median times of opening a client on a file, and of a bare read of the file.
fn time_openings<R: Clock + AllocGlobal + Files<File = File>>(rt: &R) -> io::Result<(u64, u64)> {
    let mut disk = FileDisk::new(rt, FILE, AREA_SIZE, 0, Sharing::InTurn);
    begin::<OpenKem, FileDisk<R>>(rt.alloc(), Side::First, &mut disk)?;
    drop(disk);
    let mut openings = Times::new(rt.alloc());
    let mut reads = Times::new(rt.alloc());
    for _ in 0..RUNS {
        let start = Instant::now(rt)?;
        let mut disk = FileDisk::new(rt, FILE, AREA_SIZE, 0, Sharing::InTurn);
        let _client = opened::<OpenKem, FileDisk<R>>(rt.alloc(), &mut disk)?;
        openings.add(rt, start)?;
        drop(disk);
        let start = Instant::now(rt)?;
        read_bare(rt)?;
        reads.add(rt, start)?;
    }
    fs::remove_file(rt, FILE)?;
    Ok((openings.median()?, reads.median()?))
}

/// The ratios of the mechanism.
fn mechanism_fits<R: Clock + Print + AllocGlobal>(rt: &R) -> io::Result<bool> {
    let mut work = Sntrup761::work(rt.alloc())?;
    let g = element();
    let f = g.lift();
    let (whole, quick) = time_inverses_q(rt, &mut work, &f)?;
    let in_q = fits(rt, "an inverse in R/q over its quick way", whole, quick, 30)?;
    let (whole, quick) = time_inverses3(rt, &mut work, &g)?;
    let in_three = fits(rt, "an inverse in R/3 over its quick way", whole, quick, 30)?;
    let (pair, capsule, product) = time_pairs(rt, &mut work, &f, &g)?;
    let pairs = fits(rt, "a pair over a product", pair, product, 450)?;
    let capsules = fits(rt, "an encapsulation over a product", capsule, product, 34)?;
    Ok(in_q && in_three && pairs && capsules)
}

/// Prints a line for each ratio that is too wide, or that all fit.
pub fn report<R: Clock + Print + AllocGlobal + Files<File = File>>(rt: &R) -> io::Result<()> {
    let mechanism = mechanism_fits(rt)?;
    let bare = time_text::<OpenKem, R>(rt, &mut (), 0, TEXTS)?;
    let kept = time_text::<OpenKem, R>(rt, &mut (), KEPT_LIMIT, TEXTS)?;
    let texts = fits(rt, "a text beside all kept keys over one beside none", kept, bare, 30)?;
    let (opening, read) = time_openings(rt)?;
    let openings = fits(rt, "an opening over a bare read of the file", opening, read, 1800)?;
    if mechanism && texts && openings {
        println!(rt; "bench: the ratios fit")?;
    }
    Ok(())
}
