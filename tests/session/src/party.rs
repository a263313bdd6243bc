//! A side with its boxes.

use crate::conversation::{Packet, say, take};
use crate::versions::has_digest;
use bodies::Format;
use boxes::{Inbox, Outbox, TEXT_KIND};
use dr_base::{Key32, Position, Side};
use kem_laws::OpenKem;
use ratchet::Session;
use session_record::{Change, RECORD_LIMIT, RelayKeys, encode};
use std::alloc::{AllocError, Global};
use std::test::Fail;

/// A side: its session with the keys of its boxes at a relay, and its boxes.
#[derive(Drop)]
pub(crate) struct Party {
    pub(crate) session: Session<OpenKem>,
    pub(crate) keys: RelayKeys,
    pub(crate) inbox: Inbox,
    pub(crate) outbox: Outbox,
}

impl Party {
    /// A side at the beginning, with empty boxes.
    pub(crate) fn begin(
        alloc: Global,
        side: Side,
        format: Format,
        key: &Key32,
    ) -> Result<Party, Fail> {
        Ok(Party {
            session: Session::begin(&mut (), side, format, key)?,
            keys: RelayKeys::of(key),
            inbox: Inbox::new(alloc)?,
            outbox: Outbox::new(alloc)?,
        })
    }

    /// Says a text, which gets this position, with these bytes where some are drawn.
    pub(crate) fn says(
        &mut self,
        position: (u32, u32),
        text: &[u8],
        byte: u8,
    ) -> Result<Packet, Fail> {
        let (epoch, index) = position;
        let packet = say(&mut self.session, text, byte)?;
        self.outbox
            .push(Position { epoch, index }, packet.as_slice())?;
        Ok(packet)
    }

    /// Takes the packet of this position.
    pub(crate) fn takes(&mut self, position: (u32, u32), packet: &Packet) -> Result<(), Fail> {
        let (epoch, index) = position;
        let text = take(&mut self.session, packet)?;
        self.inbox
            .push(Position { epoch, index }, TEXT_KIND, text.as_slice())?;
        Ok(())
    }

    /// Its record, with these keys.
    fn record(&self, alloc: Global, keys: Option<&RelayKeys>) -> Result<Vec<u8>, AllocError> {
        let mut text = vec![in alloc; 0; RECORD_LIMIT]?;
        let part = self.session.part();
        let len = encode(
            &part,
            &self.inbox,
            &self.outbox,
            &Change::Same,
            keys,
            &mut text,
        );
        text.truncate(len);
        Ok(text)
    }

    /// Whether its record has this SHA-256.
    pub(crate) fn has_record(&self, alloc: Global, sha256: &str) -> Result<bool, Fail> {
        let text = self.record(alloc, Some(&self.keys))?;
        has_digest(alloc, &text, sha256)
    }

    /// Whether its record in version 4 has this SHA-256.
    pub(crate) fn has_fourth(&self, alloc: Global, sha256: &str) -> Result<bool, Fail> {
        let mut text = self.record(alloc, None)?;
        if let Some(version) = text.first_mut() {
            *version = 4;
        }
        let _none = text.pop();
        has_digest(alloc, &text, sha256)
    }

    /// Whether its packets have these SHA-256.
    pub(crate) fn has_packets(&self, alloc: Global, sha256: &[&str]) -> Result<bool, Fail> {
        let mut is_right = self.outbox.len() as usize == sha256.len();
        for i in 0..sha256.len() {
            match self.outbox.at(i) {
                Some((_position, packet)) => {
                    is_right = is_right && has_digest(alloc, packet, sha256[i])?;
                }
                None => return Ok(false),
            }
        }
        Ok(is_right)
    }
}
