//! A guarded box and one without a guard, by a trace of an independent implementation.

use dr_base::Key32;
use hex::decode;
use relay_core::{BoxKeys, BoxSpec, RECORD_LIMIT, Relay, answer_frame};
use relay_guard::token_tag;
use relay_wire::{FRAME_LIMIT, FrameReader, Name};
use std::alloc::{AllocError, Global};
use std::test::Fail;

/// The keys of the owner and of the poster are 32 bytes of these values each, and the last one is
/// another's.
const O: u8 = 0x11;
const P: u8 = 0x22;
const X: u8 = 0;

/// The key and the counter of a request's token, the request, the reply, and which box changed.
type Row = (
    Option<(u8, u64)>,
    &'static str,
    &'static str,
    Option<usize>,
);

/// The key whose bytes all have this value.
fn key_of(byte: u8) -> Key32 {
    Key32 { bytes: [byte; 32] }
}

/// A relay with the box `a`, which is guarded, and the box `b`.
pub(crate) fn relay_of(alloc: Global) -> Result<Option<Relay>, AllocError> {
    let (Some(a), Some(b)) = (Name::new(b"a"), Name::new(b"b")) else {
        return Ok(None);
    };
    let keys = BoxKeys {
        owner: key_of(O),
        poster: key_of(P),
    };
    let specs = [
        BoxSpec {
            name: a,
            keys: Some(keys),
        },
        BoxSpec {
            name: b,
            keys: None,
        },
    ];
    Ok(Some(Relay::new(alloc, &specs)?))
}

/// The frame of a request in hex, behind a token under this key and with this counter, if there is
/// one; nothing where it isn't hex.
fn frame_of(
    alloc: Global,
    token: Option<(u8, u64)>,
    request: &str,
) -> Result<Option<Vec<u8>>, AllocError> {
    let Ok(request) = decode(alloc, request) else {
        return Ok(None);
    };
    let size = request.len() + if token.is_some() { 41 } else { 0 };
    let mut frame = Vec::new(alloc);
    frame.extend_from_slice(&(size as u16).to_be_bytes())?;
    if let Some((key, counter)) = token {
        let tag = token_tag(&key_of(key), counter, &request, &[], &[]);
        frame.push(4)?;
        frame.extend_from_slice(&counter.to_be_bytes())?;
        frame.extend_from_slice(&tag)?;
    }
    frame.extend_from_slice(&request)?;
    Ok(Some(frame))
}

/// Whether a relay gives this reply to a frame, and says that the box at this place changed.
pub(crate) fn answers(
    alloc: Global,
    relay: &mut Relay,
    frame: &[u8],
    reply: &[u8],
    changed: Option<usize>,
) -> Result<bool, AllocError> {
    let mut reader = FrameReader::new(alloc)?;
    let mut out = vec![in alloc; 0; FRAME_LIMIT]?;
    let _taken = reader.feed(frame);
    let Some(frame) = reader.next() else {
        return Ok(false);
    };
    let answered = answer_frame(relay, &frame, &mut out);
    Ok(&out[..answered.len] == reply && answered.changed == changed)
}

/// The same of a row.
fn is_answered(alloc: Global, relay: &mut Relay, row: Row) -> Result<bool, AllocError> {
    let (token, request, reply, changed) = row;
    let Some(frame) = frame_of(alloc, token, request)? else {
        return Ok(false);
    };
    match decode(alloc, reply) {
        Ok(reply) => answers(alloc, relay, &frame, &reply, changed),
        Err(_) => Ok(false),
    }
}

/// Whether the record of the box at a place is this one, in hex.
fn has_record(
    alloc: Global,
    relay: &Relay,
    place: usize,
    record: &str,
) -> Result<bool, AllocError> {
    let mut out = vec![in alloc; 0; RECORD_LIMIT]?;
    let len = relay.write_box(place, &mut out);
    match decode(alloc, record) {
        Ok(record) => Ok(&out[..len] == record.as_slice()),
        Err(_) => Ok(false),
    }
}

#[test]
fn a_guarded_box_and_another(rt: HostRuntime) -> Result<(), Fail> {
    let rows: [Row; 31] = [
        (None, "020161", "000a89010000000000000000", None),
        (Some((O, 1)), "020161", "000183", Some(0)),
        (Some((O, 1)), "020161", "000a89030000000000000001", None),
        (Some((O, 0)), "020161", "000a89030000000000000001", None),
        (Some((X, 2)), "020161", "000a89020000000000000000", None),
        (Some((P, 2)), "020161", "000a89020000000000000000", None),
        (Some((P, 1)), "01016107", "0009810000000000000001", Some(0)),
        (Some((O, 2)), "01016107", "000a89020000000000000000", None),
        (Some((P, 1)), "01016108", "000a89030000000000000001", None),
        (Some((P, 5)), "01016108", "0009810000000000000002", Some(0)),
        (Some((P, 5)), "01016108", "000a89030000000000000005", None),
        (Some((P, 4)), "01016109", "000a89030000000000000005", None),
        (Some((O, 2)), "020161", "000a82000000000000000107", Some(0)),
        (Some((O, 3)), "0301610000000000000001", "000184", Some(0)),
        (Some((O, 3)), "020161", "000a89030000000000000003", None),
        (Some((O, 4)), "0301610000000000000001", "0009870000000000000001", Some(0)),
        (Some((O, 9)), "0301610000000000000002", "000184", Some(0)),
        (Some((O, 10)), "0301610000000000000063", "0009870000000000000063", Some(0)),
        (Some((O, 10)), "0301610000000000000063", "000a8903000000000000000a", None),
        (None, "020162", "000183", None),
        (Some((X, 0)), "020162", "000183", None),
        (None, "010162aa", "0009810000000000000001", Some(1)),
        (Some((O, 1)), "010162bb", "0009810000000000000002", Some(1)),
        (Some((P, 7)), "0301620000000000000001", "000184", Some(1)),
        (Some((X, 7)), "020163", "000186", None),
        (None, "020163", "000186", None),
        (Some((O, 11)), "020161", "000183", Some(0)),
        (Some((O, u64::MAX - 1)), "020161", "000183", Some(0)),
        (Some((O, u64::MAX)), "020161", "000183", Some(0)),
        (Some((O, u64::MAX)), "020161", "000a8903ffffffffffffffff", None),
        (Some((O, 5)), "020161", "000a8903ffffffffffffffff", None),
    ];
    let relay = relay_of(rt.alloc())?;
    assert!(rt; relay.is_some());
    if let Some(mut relay) = relay {
        for row in rows {
            assert!(rt; is_answered(rt.alloc(), &mut relay, row)?);
        }
        let record = "0201620000000000000000020100000000000000020001bb";
        assert!(rt; has_record(rt.alloc(), &relay, 1, record)?);
    }
    Ok(())
}
