//! Both sides of a conversation in memory: what one side says and the other takes.

ghost use Rattle.std.specs.Prelude.{◌≡◌, is_some};

use bodies::{Format, TEXT_KIND};
use boxes::{Inbox, Outbox};
use cka::agreement_length;
use dr_base::{Key32, Side};
use kem_laws::Kem;
use packet::parse;
use ratchet::{OpeningRoom, PacketRoom, Session};
use std::alloc::{AllocError, Global};
use std::io;
use std::io::{Error, ErrorKind};

/// One side: its session and its boxes.
#[derive(Drop)]
pub struct Party<K: Kem> {
    pub session: Session<K>,
    pub inbox: Inbox,
    pub outbox: Outbox,
}

/// The rooms in which texts are said and taken.
#[derive(Drop)]
pub struct Rooms {
    pub packet: PacketRoom,
    pub opening: OpeningRoom,
}

impl Rooms {
    /// Makes them.
    pub fn new() -> Rooms {
        Rooms {
            packet: PacketRoom::new(),
            opening: OpeningRoom::new(),
        }
    }
}

/// A seed of equal bytes, if one is asked for.
pub fn seed_of(asked: bool, byte: u8) -> Option<Key32>
    ensures { is_some result ≡ asked }
{
    if asked {
        Some(Key32 { bytes: [byte; 32] })
    } else {
        None
    }
}

/// A side at the beginning of a conversation, if the key has a pair.
fn begun<K: Kem>(
    alloc: Global,
    work: &mut K::Work,
    side: Side,
    format: Format,
) -> Result<Option<Party<K>>, AllocError> {
    let inbox = Inbox::new(alloc)?;
    let outbox = Outbox::new(alloc)?;
    match Session::begin(work, side, format, &Key32 { bytes: [7; 32] }) {
        Err(_) => Ok(None),
        Ok(session) => Ok(Some(Party {
            session,
            inbox,
            outbox,
        })),
    }
}

/// A side says a text: its packet stands in the outbox.
pub fn say<K: Kem>(
    party: &mut Party<K>,
    work: &mut K::Work,
    text: &[u8],
    byte: u8,
    room: &mut PacketRoom,
) {
    let Ok(asked) = party.session.send_check(TEXT_KIND, text) else {
        return;
    };
    let seed = seed_of(asked, byte);
    if let Ok(draft) = party.session.draft_send(work, TEXT_KIND, text, seed, room) {
        let _pushed = party.outbox.push(draft.position(), draft.packet());
        draft.accept(&mut party.session);
    }
}

/// A side takes a packet, and is done with its text.
fn take<K: Kem>(party: &mut Party<K>, work: &mut K::Work, packet: &[u8], room: &mut OpeningRoom) {
    let Ok(view) = parse(packet, agreement_length::<K>()) else {
        return;
    };
    if let Ok(draft) = party.session.draft_receive(work, &view, room) {
        let _pushed = party
            .inbox
            .push(draft.position(), draft.kind(), draft.text());
        draft.accept(&mut party.session);
        let _done = party.inbox.drop_first(1);
    }
}

/// One side says a text, the other takes its packet, and both boxes are emptied.
pub fn pass<K: Kem>(
    from: &mut Party<K>,
    to: &mut Party<K>,
    work: &mut K::Work,
    (text, byte): (&[u8], u8),
    rooms: &mut Rooms,
) {
    say(from, work, text, byte, &mut rooms.packet);
    if let Some((_, packet)) = from.outbox.at(0) {
        take(to, work, packet, &mut rooms.opening);
    }
    let _sent = from.outbox.drop_first(1);
}

/// Both sides at the beginning of a conversation, in one format.
pub fn parties<K: Kem>(
    alloc: Global,
    work: &mut K::Work,
    format: Format,
) -> io::Result<(Party<K>, Party<K>)> {
    let first = begun(alloc, work, Side::First, format)?;
    let second = begun(alloc, work, Side::Second, format)?;
    match (first, second) {
        (Some(first), Some(second)) => Ok((first, second)),
        _ => Err(Error::from(ErrorKind::InvalidData)),
    }
}
