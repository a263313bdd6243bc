//! What a token of a guarded box takes in memory: a request judged by its guard, beside its tag alone.

use crate::clock::Times;
use dr_base::Key32;
use relay_guard::{Guard, Role, Token, token_tag};
use std::io;
use std::rt::Clock;
use std::time::Instant;

/// How often each thing is measured.
const RUNS: usize = 31;

/// How many requests are judged in a row.
const REQUESTS: u64 = 64;

/// Where each owner's and poster's key is this byte.
const KEY: u8 = 7;

fn key() -> Key32 {
    Key32 { bytes: [KEY; 32] }
}

/// The median times of judging a request with these bytes behind its name, and of making its tag, in nanoseconds.
fn time_judging<R: Clock + AllocGlobal>(
    rt: &R,
    role: Role,
    head: &[u8],
    rest: &[u8],
) -> io::Result<(u64, u64)> {
    let mut judged = Times::new(rt.alloc());
    let mut tagged = Times::new(rt.alloc());
    let mut guard = Guard::new(key(), key());
    let mut first: u64 = 1;
    for _ in 0..RUNS {
        let mut tags = [[0; 32]; REQUESTS as usize];
        let start = Instant::now(rt)?;
        for at in 0..tags.len() {
            tags[at] = token_tag(&key(), first.wrapping_add(at as u64), head, b"a", rest);
        }
        tagged.add(rt, start)?;
        let mut denied: u64 = 0;
        let start = Instant::now(rt)?;
        for at in 0..tags.len() {
            let token = Token {
                counter: first.wrapping_add(at as u64),
                tag: &tags[at],
            };
            if guard.judge(role, &Some(token), head, b"a", rest).is_err() {
                denied = denied.wrapping_add(1);
            }
        }
        judged.add(rt, start)?;
        if denied > 0 {
            return Err(io::Error::from(io::ErrorKind::InvalidData));
        }
        first = first.wrapping_add(REQUESTS);
    }
    Ok((judged.median()? / REQUESTS, tagged.median()? / REQUESTS))
}

/// Prints a line.
pub fn report<R: Clock + Print + AllocGlobal>(rt: &R) -> io::Result<()> {
    let number = 1_u64.to_be_bytes();
    let (fetch, fetch_tag) = time_judging(rt, Role::Owner, b"\x02\x01", b"")?;
    let (ack, ack_tag) = time_judging(rt, Role::Owner, b"\x03\x01", &number)?;
    let (post, post_tag) = time_judging(rt, Role::Poster, b"\x01\x01", &[7; 1000])?;
    println!(rt;
        "a token judged: of a fetch {fetch} ns, an acknowledgement {ack} ns, a post of 1000 bytes {post} ns; its tag alone {fetch_tag}, {ack_tag}, {post_tag} ns"
    )
}
