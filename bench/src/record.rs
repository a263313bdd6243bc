//! The record of a client with full boxes, written and read.

use crate::clock::Times;
use crate::party::seed_of;
use bodies::Format;
use boxes::{Inbox, Outbox, TEXT_KIND};
use dr_base::{INBOX_LIMIT, Key32, OUTBOX_LIMIT, Position, Side, TEXT_LIMIT};
use kem_laws::Kem;
use ratchet::{PacketRoom, Session};
use session_record::{Change, RECORD_LIMIT, RelayKeys, decode, encode};
use sntrup761::Sntrup761;
use std::alloc::Global;
use std::io;
use std::io::{Error, ErrorKind};
use std::rt::Clock;
use std::time::Instant;

/// How often each thing is measured.
const RUNS: usize = 201;

/// Says this many texts of the greatest length, whose packets stay in the outbox.
fn fill_outbox<K: Kem>(session: &mut Session<K>, work: &mut K::Work, outbox: &mut Outbox) {
    let mut room = PacketRoom::new();
    for _ in 0..OUTBOX_LIMIT {
        if let Ok(asked) = session.send_check(TEXT_KIND, &[5; TEXT_LIMIT]) {
            let seed = seed_of(asked, 3);
            if let Ok(draft) =
                session.draft_send(work, TEXT_KIND, &[5; TEXT_LIMIT], seed, &mut room)
            {
                let _pushed = outbox.push(draft.position(), draft.packet());
                draft.accept(session);
            }
        }
    }
}

/// Puts as many texts of the peer's into the inbox as it holds.
fn fill_inbox(inbox: &mut Inbox) {
    for index in 1..=INBOX_LIMIT as u32 {
        let _pushed = inbox.push(Position { epoch: 0, index }, TEXT_KIND, &[6; TEXT_LIMIT]);
    }
}

/// Writes the record, where the buffer has room for any, and answers its length.
fn write<K: Kem>(client: &Full<K>, out: &mut [u8]) -> usize {
    if out.len() < RECORD_LIMIT {
        return 0;
    }
    let part = client.session.part();
    let keys = Some(&client.keys);
    encode(&part, &client.inbox, &client.outbox, &Change::Same, keys, out)
}

/// A client with full boxes.
#[derive(Drop)]
struct Full<K: Kem> {
    session: Session<K>,
    inbox: Inbox,
    outbox: Outbox,
    keys: RelayKeys,
}

/// Fills both boxes of a client, if the key has a pair.
fn filled_client<K: Kem>(alloc: Global, work: &mut K::Work) -> io::Result<Full<K>> {
    let mut inbox = Inbox::new(alloc)?;
    let mut outbox = Outbox::new(alloc)?;
    let key = Key32 { bytes: [7; 32] };
    let Ok(mut session) = Session::<K>::begin(work, Side::First, Format::Plain, &key) else {
        return Err(Error::from(ErrorKind::InvalidData));
    };
    fill_outbox(&mut session, work, &mut outbox);
    fill_inbox(&mut inbox);
    Ok(Full {
        session,
        inbox,
        outbox,
        keys: RelayKeys::of(&key),
    })
}

/// The median time of writing a record, in nanoseconds, and its length.
fn time_write<K: Kem, R: Clock + AllocGlobal>(
    rt: &R,
    client: &Full<K>,
    out: &mut [u8],
) -> io::Result<(u64, usize)> {
    let mut len = 0;
    let mut times = Times::new(rt.alloc());
    for _ in 0..RUNS {
        let start = Instant::now(rt)?;
        len = write(client, out);
        times.add(rt, start)?;
    }
    Ok((times.median()?, len))
}

/// Reads a record into boxes of its own, and adds the time that this takes.
fn read_once<K: Kem, R: Clock + AllocGlobal>(
    rt: &R,
    text: &[u8],
    times: &mut Times,
) -> io::Result<()> {
    let mut texts = Inbox::new(rt.alloc())?;
    let mut packets = Outbox::new(rt.alloc())?;
    let start = Instant::now(rt)?;
    let is_read = decode::<K>(text, &mut texts, &mut packets).is_ok();
    times.add(rt, start)?;
    if is_read {
        Ok(())
    } else {
        Err(Error::from(ErrorKind::InvalidData))
    }
}

/// The median time of reading a record, in nanoseconds.
fn time_read<K: Kem, R: Clock + AllocGlobal>(rt: &R, text: &[u8]) -> io::Result<u64> {
    let mut times = Times::new(rt.alloc());
    for _ in 0..RUNS {
        read_once::<K, R>(rt, text, &mut times)?;
    }
    times.median()
}

/// The median times of writing a record and of reading it, in nanoseconds, and its length.
fn time_record<K: Kem, R: Clock + AllocGlobal>(
    rt: &R,
    work: &mut K::Work,
) -> io::Result<(u64, u64, usize)> {
    let client = filled_client::<K>(rt.alloc(), work)?;
    let mut out = vec![in rt.alloc(); 0; RECORD_LIMIT]?;
    let (written, len) = time_write(rt, &client, &mut out)?;
    let read = time_read::<K, R>(rt, out.get(..len).unwrap_or_default())?;
    Ok((written, read, len))
}

/// Prints a line.
pub fn report<R: Clock + Print + AllocGlobal>(rt: &R) -> io::Result<()> {
    let mut work = Sntrup761::work(rt.alloc())?;
    let (written, read, len) = time_record::<Sntrup761, R>(rt, &mut work)?;
    let (written, read) = (written / 1000, read / 1000);
    println!(rt; "a record of {len} bytes: written in {written} us, read in {read} us")
}
