//! The relay in memory: posts answered, and frames read out of a stream in pieces.

ghost use Rattle.std.specs.Prelude.{◌<◌};

use crate::clock::Times;
use relay_core::{BoxSpec, Relay};
use relay_wire::{FRAME_LIMIT, FrameReader, Name, Packet, Request, parse_request, write_request};
use std::alloc::Global;
use std::io;
use std::rt::Clock;
use std::time::Instant;

/// How often each thing is measured.
const RUNS: usize = 31;

/// How many posts a box keeps.
const POSTS: u64 = 64;

/// How many frames the stream has.
const FRAMES: u64 = 1000;

/// The frame that posts a packet of 1,000 bytes to the box `a`; nothing could be wrong with it.
fn post(alloc: Global) -> io::Result<Vec<u8>> {
    let mut frame = vec![in alloc; 0; FRAME_LIMIT]?;
    let mut len = 0;
    let bytes = [7; 1000];
    if let (Some(name), Some(packet)) = (Name::new(b"a"), Packet::new(&bytes)) {
        len = write_request(&Request::post(name.lent(), packet), frame.as_mut_slice());
    }
    frame.truncate(len);
    Ok(frame)
}

/// Reads a frame, answers it and writes the reply; answers how many bytes that has.
fn answer(
    relay: &mut Relay,
    reader: &mut FrameReader,
    bytes: &[u8],
    out: &mut [u8; FRAME_LIMIT],
) -> usize {
    reader.clear();
    let _taken = reader.feed(bytes);
    let Some(frame) = reader.next() else {
        return 0;
    };
    match parse_request(&frame) {
        Ok(request) => relay.answer(&request, out).0,
        Err(_) => 0,
    }
}

/// The median time of a post that is read, answered and written, in nanoseconds.
fn time_posts<R: Clock + AllocGlobal>(rt: &R, frame: &[u8]) -> io::Result<u64> {
    let alloc = rt.alloc();
    let mut times = Times::new(alloc);
    let Some(name) = Name::new(b"a") else {
        return Ok(0);
    };
    let mut relay = Relay::new(alloc, &[BoxSpec { name: name.copied(), keys: None }])?;
    let mut reader = FrameReader::new(alloc)?;
    let mut out = [0; FRAME_LIMIT];
    let mut number: u64 = 0;
    for _ in 0..RUNS {
        let start = Instant::now(rt)?;
        for _ in 0..POSTS {
            let _len = answer(&mut relay, &mut reader, frame, &mut out);
        }
        times.add(rt, start)?;
        for _ in 0..POSTS {
            number = number.wrapping_add(1);
            let _acked = relay.answer(&Request::ack(name.lent(), number), &mut out);
        }
    }
    Ok(times.median()? / POSTS)
}

/// Takes the frames out of a piece, and answers how many there were.
fn take_frames(reader: &mut FrameReader, piece: &[u8]) -> u64 {
    let mut rest = piece;
    let mut frames: u64 = 0;
    for _ in 0..=piece.len() {
        if !reader.fits(rest.len()) {
            break;
        }
        let taken = reader.feed(rest);
        rest = &rest[taken..];
        if reader.next().is_none() {
            break;
        }
        frames = frames.wrapping_add(1);
    }
    frames
}

/// The median time of reading a stream in pieces of a size, in microseconds.
fn time_pieces<R: Clock + AllocGlobal>(rt: &R, stream: &[u8], size: usize) -> io::Result<u64>
    requires { 0 < size }
{
    let mut times = Times::new(rt.alloc());
    let mut reader = FrameReader::new(rt.alloc())?;
    let mut frames: u64 = 0;
    for _ in 0..RUNS {
        let start = Instant::now(rt)?;
        for piece in stream.chunks(size) {
            frames = frames.wrapping_add(take_frames(&mut reader, piece));
        }
        times.add(rt, start)?;
    }
    Ok(times.median()? / 1000 + frames / (1 << 60))
}

/// The median time of copying the stream, in microseconds.
fn time_copy<R: Clock + AllocGlobal>(rt: &R, stream: &[u8]) -> io::Result<u64> {
    let mut times = Times::new(rt.alloc());
    let mut copy = vec![in rt.alloc(); 0; stream.len()]?;
    for _ in 0..RUNS {
        let start = Instant::now(rt)?;
        copy.copy_from_slice(stream);
        times.add(rt, start)?;
    }
    let last = u64::from(copy.last().copied().unwrap_or(0));
    Ok(times.median()? / 1000 + last / 256)
}

/// A stream of many frames.
fn stream_of(alloc: Global, frame: &[u8]) -> io::Result<Vec<u8>> {
    let mut stream = Vec::new(alloc);
    for _ in 0..FRAMES {
        stream.extend_from_slice(frame)?;
    }
    Ok(stream)
}

/// Prints a line for the reading of a stream.
fn report_stream<R: Clock + Print + AllocGlobal>(rt: &R, stream: &[u8]) -> io::Result<()> {
    let one = time_pieces(rt, stream, 1)?;
    let seven = time_pieces(rt, stream, 7)?;
    let large = time_pieces(rt, stream, 1448)?;
    let copy = time_copy(rt, stream)?;
    let len = stream.len();
    println!(rt;
        "{FRAMES} frames of {len} bytes: in pieces of 1, 7, 1448 bytes {one}, {seven}, {large} us; copied in {copy} us"
    )
}

/// Prints a line for each.
pub fn report<R: Clock + Print + AllocGlobal>(rt: &R) -> io::Result<()> {
    let frame = post(rt.alloc())?;
    let posts = time_posts(rt, frame.as_slice())?;
    println!(rt; "a post of 1000 bytes: read, answered and written in {posts} ns")?;
    let stream = stream_of(rt.alloc(), frame.as_slice())?;
    report_stream(rt, stream.as_slice())
}
