//! What a relay replies to each wrong token and each body that is no request, by rows of an
//! independent implementation.

use crate::guarded::{answers, relay_of};
use hex::decode;
use relay_core::Relay;
use std::alloc::{AllocError, Global};
use std::test::Fail;

/// Whether a body stands behind a token, the body, and the reply's frame.
type Row = (bool, &'static str, &'static str);

/// The frame of a body, behind a token with counter 1 and a tag of 32 bytes 77, if there is one.
fn frame_of(alloc: Global, behind: bool, body: &[u8]) -> Result<Vec<u8>, AllocError> {
    let size = body.len() + if behind { 41 } else { 0 };
    let mut frame = Vec::new(alloc);
    frame.extend_from_slice(&(size as u16).to_be_bytes())?;
    if behind {
        frame.extend_from_slice(b"\x04\0\0\0\0\0\0\0\x01")?;
        frame.extend_from_slice(&[0x77; 32])?;
    }
    frame.extend_from_slice(body)?;
    Ok(frame)
}

/// Whether a relay gives the reply of a row. Only the box `b` without a guard may change.
fn is_answered(alloc: Global, relay: &mut Relay, row: Row) -> Result<bool, AllocError> {
    let (behind, body, reply) = row;
    let (Ok(body), Ok(reply)) = (decode(alloc, body), decode(alloc, reply)) else {
        return Ok(false);
    };
    let frame = frame_of(alloc, behind, &body)?;
    let changed = if reply[2] == 0x81 { Some(1) } else { None };
    answers(alloc, relay, &frame, &reply, changed)
}

#[test]
fn faults_are_told(rt: HostRuntime) -> Result<(), Fail> {
    let rows: [Row; 36] = [
        (false, "04", "00028804"),
        (false, "0400", "00028804"),
        (false, "0400000000000000", "00028804"),
        (false, "040000000000000001", "00028804"),
        (false, "04000000000000000177", "00028804"),
        (
            false,
            "04000000000000000177777777777777777777777777777777777777777777777777777777777777",
            "00028804",
        ),
        (true, "", "00028804"),
        (true, "00", "00028804"),
        (true, "04", "00028804"),
        (true, "05", "00028804"),
        (true, "81", "00028804"),
        (true, "ff", "00028804"),
        (true, "01", "00028803"),
        (true, "02", "00028803"),
        (true, "03", "00028803"),
        (
            true,
            "04000000000000000177777777777777777777777777777777777777777777777777777777777777\
             77",
            "00028804",
        ),
        (true, "0200", "00028803"),
        (
            true,
            "02297878787878787878787878787878787878787878787878787878787878787878787878787878\
             787878",
            "00028803",
        ),
        (true, "020261", "00028803"),
        (true, "020141", "00028803"),
        (true, "01015f07", "00028803"),
        (true, "010161", "00028804"),
        (true, "02016100", "00028804"),
        (true, "03016100000000000000", "00028804"),
        (true, "030161000000000000000000", "00028804"),
        (true, "030141000000000000000000", "00028803"),
        (true, "020161", "000a89020000000000000000"),
        (true, "020163", "000186"),
        (true, "020162", "000183"),
        (true, "01016207", "0009810000000000000001"),
        (
            false,
            "05000000000000000177777777777777777777777777777777777777777777777777777777777777\
             77020161",
            "00028802",
        ),
        (false, "020163", "000186"),
        (false, "020161", "000a89010000000000000000"),
        (false, "01016107", "000a89010000000000000000"),
        (false, "0301610000000000000000", "000a89010000000000000000"),
        (false, "03016100000000000000", "00028804"),
    ];
    let relay = relay_of(rt.alloc())?;
    assert!(rt; relay.is_some());
    if let Some(mut relay) = relay {
        for row in rows {
            assert!(rt; is_answered(rt.alloc(), &mut relay, row)?);
        }
    }
    Ok(())
}
