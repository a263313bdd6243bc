//! The ring's arithmetic.

ghost use Rattle.std.specs.Prelude.{All};
ghost use Rattle.ntru_ring.specs.Reduction.{IsWithin};

use crate::clock::Times;
use ntru_inverse::{inverse_q, inverse3};
use ntru_ring::{R3, Rq, Workspace, planes_of};
use std::io;
use std::rt::Clock;
use std::time::Instant;

/// How often each thing is measured.
const RUNS: usize = 21;

/// An element without a pattern: a number is drawn for each coefficient.
pub fn element() -> R3 {
    let mut coefficients = [0i16; 761];
    let mut state: u32 = 1;
    'places: for k in 0..761 {
        state = state.wrapping_mul(1664525).wrapping_add(1013904223);
        coefficients[k] = ((state >> 24) % 3) as i16 - 1;
    }
    R3::new(&coefficients)
}

/// The median time of an inverse in R/q, in microseconds.
fn time_inverse_q<R: Clock + AllocGlobal>(rt: &R, work: &mut Workspace, f: &Rq) -> io::Result<u64> {
    let mut times = Times::new(rt.alloc());
    for _ in 0..RUNS {
        let start = Instant::now(rt)?;
        let _inverse = inverse_q(work, f);
        times.add(rt, start)?;
    }
    Ok(times.median()? / 1000)
}

/// The median time of an inverse in R/3.
fn time_inverse3<R: Clock + AllocGlobal>(rt: &R, work: &mut Workspace, g: &R3) -> io::Result<u64> {
    let mut times = Times::new(rt.alloc());
    for _ in 0..RUNS {
        let start = Instant::now(rt)?;
        let _inverse = inverse3(work, g);
        times.add(rt, start)?;
    }
    Ok(times.median()? / 1000)
}

/// The median time of a product in R/q, each of the one before.
fn time_product<R: Clock + AllocGlobal>(rt: &R, f: &Rq) -> io::Result<u64> {
    let mut product = *f;
    let mut times = Times::new(rt.alloc());
    for _ in 0..RUNS {
        let start = Instant::now(rt)?;
        product = product.mul(f);
        times.add(rt, start)?;
    }
    Ok(times.median()? / 1000)
}

/// The median time of a product in R/q with a small factor, whose planes are made for it, each of the one before.
fn time_small_product<R: Clock + AllocGlobal>(rt: &R, f: &Rq, g: &R3) -> io::Result<u64> {
    let mut product = *f;
    let mut times = Times::new(rt.alloc());
    for _ in 0..RUNS {
        let start = Instant::now(rt)?;
        product = product.mul_small(&planes_of(g));
        times.add(rt, start)?;
    }
    Ok(times.median()? / 1000)
}

/// The median time of a product in R/3, each of the one before.
fn time_product3<R: Clock + AllocGlobal>(rt: &R, g: &R3) -> io::Result<u64> {
    let mut product = *g;
    let mut times = Times::new(rt.alloc());
    for _ in 0..RUNS {
        let start = Instant::now(rt)?;
        product = product.mul(g);
        times.add(rt, start)?;
    }
    Ok(times.median()? / 1000)
}

/// Prints a line for each.
pub fn report<R: Clock + Print + AllocGlobal>(rt: &R) -> io::Result<()> {
    let g = element();
    let f = g.lift();
    let mut work = Workspace::new(rt.alloc())?;
    let in_q = time_inverse_q(rt, &mut work, &f)?;
    let in_three = time_inverse3(rt, &mut work, &g)?;
    let product = time_product(rt, &f)?;
    let small = time_small_product(rt, &f, &g)?;
    let three = time_product3(rt, &g)?;
    println!(rt; "an inverse in R/q: {in_q} us, in R/3: {in_three} us")?;
    println!(rt;
        "a product in R/q: {product} us, with a small factor: {small} us, in R/3: {three} us"
    )
}
