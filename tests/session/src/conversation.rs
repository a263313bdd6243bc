//! A conversation over the stand-in.

ghost use Rattle.std.specs.Prelude.{◌≡◌, ◌≤◌, length, is_some};

use arrayvec::ArrayVec;
use bodies::{Format, TEXT_KIND};
use dr_base::{Key32, PACKET_LIMIT, Position, Side, TEXT_LIMIT, in_room};
use kem_laws::{NoPair, OpenKem};
use packet::parse;
use ratchet::{NoPairFor, OpeningRoom, PacketRoom, Session};
use session_model::Refusal;
use std::test::Fail;

/// A seed of equal bytes, if one is asked for.
fn seed_of(asked: bool, byte: u8) -> Option<Key32>
    ensures { is_some result ≡ asked }
{
    if asked {
        Some(Key32 { bytes: [byte; 32] })
    } else {
        None
    }
}

/// A packet in room of its own.
pub(crate) type Packet = ArrayVec<u8, PACKET_LIMIT>;

/// A text in room of its own.
pub(crate) type Text = ArrayVec<u8, TEXT_LIMIT>;

/// Says a text, and answers its packet.
pub(crate) fn say(
    session: &mut Session<OpenKem>,
    text: &[u8],
    byte: u8,
) -> Result<Packet, Refusal> {
    let asked = session.send_check(TEXT_KIND, text)?;
    let seed = seed_of(asked, byte);
    let mut room = PacketRoom::new();
    match session.draft_send(&mut (), TEXT_KIND, text, seed, &mut room) {
        Err(NoPairFor { seed: _ }) => Err(Refusal::NoPair),
        Ok(draft) => {
            let packet = in_room(draft.packet());
            draft.accept(session);
            Ok(packet)
        }
    }
}

/// Takes the bytes of a packet, and answers its text.
pub(crate) fn take_bytes(session: &mut Session<OpenKem>, packet: &[u8]) -> Result<Text, Refusal> {
    let mut room = OpeningRoom::new();
    match parse(packet, 64) {
        Err(fault) => Err(Refusal::Malformed(fault)),
        Ok(view) => match session.draft_receive(&mut (), &view, &mut room) {
            Err(refusal) => Err(refusal.into()),
            Ok(draft) => {
                let text = in_room(draft.text());
                draft.accept(session);
                Ok(text)
            }
        },
    }
}

/// Takes a packet, and answers its text.
pub(crate) fn take(session: &mut Session<OpenKem>, packet: &Packet) -> Result<Text, Refusal> {
    take_bytes(session, packet.as_slice())
}

/// A side at the beginning, under the key of 32 times a byte.
pub(crate) fn begin(side: Side, format: Format, byte: u8) -> Result<Session<OpenKem>, NoPair> {
    Session::begin(&mut (), side, format, &Key32 { bytes: [byte; 32] })
}

/// What both sides begin with.
fn sessions() -> Result<(Session<OpenKem>, Session<OpenKem>), NoPair> {
    let first = begin(Side::First, Format::Plain, 7)?;
    let second = begin(Side::Second, Format::Plain, 7)?;
    Ok((first, second))
}

/// Whether the text that one side says is the one that the other takes.
fn passes(
    from: &mut Session<OpenKem>,
    to: &mut Session<OpenKem>,
    text: &[u8],
    byte: u8,
) -> Result<bool, Refusal> {
    let packet = say(from, text, byte)?;
    Ok(take(to, &packet)?.as_slice() == text)
}

/// Whether the later of two texts of First's is taken before the first, and each once.
fn passes_late(
    first: &mut Session<OpenKem>,
    second: &mut Session<OpenKem>,
) -> Result<bool, Refusal> {
    let late = say(first, b"late", 1)?;
    let soon = say(first, b"soon", 0)?;
    let are_taken = take(second, &soon)?.as_slice() == b"soon".as_slice()
        && take(second, &late)?.as_slice() == b"late".as_slice();
    let spent = Refusal::Spent(Position { epoch: 1, index: 1 });
    Ok(are_taken && take(second, &late).err() == Some(spent))
}

#[test]
fn texts_come_once_and_in_every_order(rt: HostRuntime) -> Result<(), Fail> {
    let (mut first, mut second) = sessions()?;
    assert!(rt; passes(&mut second, &mut first, b"hello", 0)?);
    assert!(rt; passes_late(&mut first, &mut second)?);
    assert!(rt; passes(&mut second, &mut first, b"answer", 2)?);
    Ok(())
}

/// How many texts a packet says that its side's last epoch has.
fn previous_of(packet: &Packet) -> Option<u32> {
    match parse(packet.as_slice(), 64) {
        Ok(view) => Some(view.previous()),
        Err(_) => None,
    }
}

/// Whether both sides' texts are taken, where each was said before the other's came.
fn cross(first: &mut Session<OpenKem>, second: &mut Session<OpenKem>) -> Result<bool, Refusal> {
    let a = say(first, b"a", 1)?;
    let b = say(second, b"b", 0)?;
    Ok(
        take(second, &a)?.as_slice() == b"a".as_slice()
            && take(first, &b)?.as_slice() == b"b".as_slice(),
    )
}

#[test]
fn texts_that_cross_are_counted(rt: HostRuntime) -> Result<(), Fail> {
    let (mut first, mut second) = sessions()?;
    assert!(rt; cross(&mut first, &mut second)?);
    // the packet 2.1, before which Second said one text
    let c = say(&mut second, b"c", 2)?;
    assert!(rt; previous_of(&c) == Some(1));
    assert!(rt; take(&mut first, &c)?.as_slice() == b"c".as_slice());
    Ok(())
}

#[test]
fn what_has_no_pair_is_handed_back(rt: HostRuntime) -> Result<(), Fail> {
    let (mut first, mut second) = sessions()?;
    assert!(rt; passes(&mut second, &mut first, b"hello", 0)?);
    assert!(rt; say(&mut first, b"lost", 255).err() == Some(Refusal::NoPair));
    assert!(rt; passes(&mut first, &mut second, b"answer", 1)?);
    Ok(())
}
