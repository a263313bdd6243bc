//! Records that are filled up to what a version allows, and above it.

ghost use Rattle.std.specs.Prelude.{◌≤◌, length};
ghost use Rattle.dr_base.specs.declared.limits.TheConstants.{PACKET_LIMIT};

use crate::conversation::{begin, say};
use crate::record::BEGUN;
use bodies::Format;
use boxes::{Inbox, Outbox};
use dr_base::{PACKET_LIMIT, Side};
use kem_laws::OpenKem;
use ratchet::Session;
use session_record::{Change, RECORD_LIMIT, encode};
use std::alloc::{AllocError, Global};
use std::test::Fail;

/// What a plain side keeps, in a version, of which this stands after the side and the format.
fn of_side(alloc: Global, version: u8, side: u8, rest: &[u8]) -> Result<Vec<u8>, AllocError> {
    let mut text = Vec::from_slice(alloc, &[version, side])?;
    if version > 2 {
        text.push(1)?;
    }
    text.extend_from_slice(rest)?;
    Ok(text)
}

/// What First keeps at the beginning, in a version, up to the kept keys; 600 texts may be missing.
fn begun(alloc: Global, version: u8) -> Result<Vec<u8>, AllocError> {
    let mut text = of_side(alloc, version, 1, &BEGUN[2..122])?;
    text.extend_from_slice(&600_u32.to_be_bytes())?;
    Ok(text)
}

/// Where a version has them, no texts that wait, and no keys of the session's boxes.
fn close(text: &mut Vec<u8>, version: u8) -> Result<(), AllocError> {
    if version > 3 {
        text.push(0)?;
    }
    if version > 4 {
        text.push(0)?;
    }
    Ok(())
}

/// The record with so many kept keys.
fn with_kept(alloc: Global, version: u8, n: u16) -> Result<Vec<u8>, AllocError> {
    let mut text = begun(alloc, version)?;
    text.extend_from_slice(&n.to_be_bytes())?;
    for i in 0..n {
        let index = i + 1;
        text.extend_from_slice(&[0; 4])?;
        text.extend_from_slice(&u32::from(index).to_be_bytes())?;
        text.extend_from_slice(&[(index % 256) as u8; 32])?;
    }
    text.extend_from_slice(&[0; 2])?;
    close(&mut text, version)?;
    Ok(text)
}

/// Puts a text of so many a, after its kind, where a version has one, and its length.
fn put_text(text: &mut Vec<u8>, version: u8, n: u16) -> Result<(), AllocError> {
    if version > 3 {
        text.push(0)?;
    }
    text.extend_from_slice(&n.to_be_bytes())?;
    for _ in 0..n {
        text.push(b'a')?;
    }
    Ok(())
}

/// The record with so many empty texts.
fn with_entries(alloc: Global, version: u8, n: u16) -> Result<Vec<u8>, AllocError> {
    let mut text = begun(alloc, version)?;
    text.extend_from_slice(&[0, 0, (n % 256) as u8])?;
    for i in 0..n {
        text.extend_from_slice(&[0; 4])?;
        text.extend_from_slice(&u32::from(i + 1).to_be_bytes())?;
        put_text(&mut text, version, 0)?;
    }
    text.push(0)?;
    close(&mut text, version)?;
    Ok(text)
}

/// The record with one text of so many bytes.
fn with_text(alloc: Global, version: u8, n: u16) -> Result<Vec<u8>, AllocError> {
    let mut text = begun(alloc, version)?;
    text.extend_from_slice(&[0, 0, 1, 0, 0, 0, 0, 0, 0, 0, 1])?;
    put_text(&mut text, version, n)?;
    text.push(0)?;
    close(&mut text, version)?;
    Ok(text)
}

/// How long the end of a record is where one text waits: their number and a position, and a byte
/// that says that there are no keys of the session's boxes.
const END: usize = 1 + 8 + 1;

/// The record of a plain session of Second's that said one text, with one packet and without the
/// text that waits, in a version.
fn encoded(
    alloc: Global,
    session: &Session<OpenKem>,
    packet: &[u8],
    version: u8,
) -> Result<Vec<u8>, AllocError>
    requires { length packet.now ≤ PACKET_LIMIT }
{
    let inbox = Inbox::new(alloc)?;
    let outbox = Outbox::new(alloc)?;
    let mut text = vec![in alloc; 0; RECORD_LIMIT]?;
    let change = Change::Said { packet };
    let len = encode(&session.part(), &inbox, &outbox, &change, None, &mut text);
    match text.get(3..len.saturating_sub(END)) {
        Some(rest) => {
            let mut text = of_side(alloc, version, 2, rest)?;
            close(&mut text, version)?;
            Ok(text)
        }
        None => Ok(Vec::new(alloc)),
    }
}

/// The record with the packet of what a session says first.
fn with_said(
    alloc: Global,
    session: &mut Session<OpenKem>,
    first: &[u8],
    version: u8,
) -> Result<Vec<u8>, Fail> {
    let packet = say(session, first, 0)?;
    Ok(encoded(alloc, session, packet.as_slice(), version)?)
}

/// What Second keeps once it said so many x at the beginning, in a version.
fn with_packet(alloc: Global, version: u8, n: u16) -> Result<Vec<u8>, Fail> {
    let first = vec![in alloc; b'x'; usize::from(n)]?;
    let mut session = begin(Side::Second, Format::Plain, 0)?;
    with_said(alloc, &mut session, &first, version)
}

/// What Second keeps once it said a text at the beginning, in a version, with this packet in place
/// of that of its text.
pub(crate) fn with_other(alloc: Global, version: u8, packet: &[u8]) -> Result<Vec<u8>, Fail> {
    if packet.len() > PACKET_LIMIT {
        return Ok(Vec::new(alloc));
    }
    let mut session = begin(Side::Second, Format::Plain, 0)?;
    let _own = say(&mut session, b"hi", 0)?;
    Ok(encoded(alloc, &session, packet, version)?)
}

/// What a record is filled with: kept keys, empty texts, a text, a packet.
#[derive(Clone, Copy)]
pub(crate) enum With {
    Kept,
    Entries,
    Text,
    Packet,
}

/// The record in a version with so many of these, or with one of so many bytes.
pub(crate) fn filled(alloc: Global, with: With, version: u8, n: u16) -> Result<Vec<u8>, Fail> {
    match with {
        With::Kept => Ok(with_kept(alloc, version, n)?),
        With::Entries => Ok(with_entries(alloc, version, n)?),
        With::Text => Ok(with_text(alloc, version, n)?),
        With::Packet => with_packet(alloc, version, n),
    }
}
