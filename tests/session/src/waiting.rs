//! Texts that wait for a receipt.

use crate::conversation::{Packet, begin, say, take};
use bodies::Format;
use dr_base::{Position, Side};
use kem_laws::OpenKem;
use ratchet::Session;
use session_model::Refusal;
use std::test::Fail;

/// A side at the beginning, where both seal receipts.
pub(crate) fn receipts_of(side: Side) -> Result<Session<OpenKem>, Fail> {
    Ok(begin(side, Format::Receipts, 0)?)
}

/// Says so many texts, at least one, and answers the packet of the last one.
pub(crate) fn say_many(second: &mut Session<OpenKem>, n: u32) -> Result<Packet, Refusal> {
    for _ in 1..n {
        let _packet = say(second, b"a", 0)?;
    }
    say(second, b"a", 0)
}

/// First takes the packets 0.i of these indices, in their order.
pub(crate) fn take_all(first: &mut Session<OpenKem>, indices: &[u32]) -> Result<(), Fail> {
    for index in indices {
        let mut second = receipts_of(Side::Second)?;
        let packet = say_many(&mut second, *index)?;
        let _text = take(first, &packet)?;
    }
    Ok(())
}

/// Whether the texts that wait are those of epoch 0 from an index to another, but for some.
pub(crate) fn awaits(session: &Session<OpenKem>, from: u32, to: u32, but: &[u32]) -> bool {
    let part = session.part();
    let positions = part.head.awaiting.positions();
    let mut rest = positions.iter();
    let mut is_right = true;
    for index in from..=to {
        if !but.iter().any(|gone| *gone == index) {
            let told = Position { epoch: 0, index };
            is_right = is_right && rest.next() == Some(&told);
        }
    }
    is_right && rest.next().is_none()
}

/// Whether the last 64 of 65 texts wait.
fn gives_up_the_oldest() -> Result<bool, Fail> {
    let mut second = receipts_of(Side::Second)?;
    let _last = say_many(&mut second, 65)?;
    Ok(awaits(&second, 2, 65, &[]))
}

#[test]
fn the_last_64_texts_wait(rt: HostRuntime) -> Result<(), Fail> {
    assert!(rt; gives_up_the_oldest()?);
    Ok(())
}
