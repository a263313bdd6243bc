//! What receipts say by how many texts are missing, and which texts wait then, by rows of an
//! independent implementation.

use crate::conversation::{Packet, say, take};
use crate::receipts::{Said, at, said};
use crate::record::recorded;
use crate::versions::has_digest;
use crate::waiting::{awaits, receipts_of, say_many, take_all};
use boxes::{Inbox, Outbox};
use dr_base::Side;
use kem_laws::OpenKem;
use ratchet::Session;
use session_model::Refusal;
use session_record::decode;
use std::alloc::Global;
use std::test::Fail;

/// What the receipt says that a session's part sends, as its record has it.
fn receipt_of(alloc: Global, session: &Session<OpenKem>) -> Result<Said, Fail> {
    let text = recorded(alloc, session)?;
    let mut inbox = Inbox::new(alloc)?;
    let mut outbox = Outbox::new(alloc)?;
    let (part, _keys) = decode::<OpenKem>(&text, &mut inbox, &mut outbox)?;
    Ok(said(&part.receipt()))
}

/// How many texts Second says, which of them First takes, the SHA-256 of the packet that First
/// answers, the index of its receipt's bound and how many positions that lists, and the oldest text
/// that waits before and those that don't wait any more after.
type Row = (
    u32,
    &'static [u32],
    &'static str,
    (u32, usize),
    u32,
    &'static [u32],
);

/// Whether what waits before First's answer is taken, and after it, is as told.
fn wait_as_told(second: &mut Session<OpenKem>, answer: &Packet, row: Row) -> Result<bool, Refusal> {
    let (n, _taken, _sha256, _receipt, oldest, gone) = row;
    let _last = say_many(second, n)?;
    let is_before = awaits(second, oldest, n, &[]);
    let _text = take(second, answer)?;
    Ok(is_before && awaits(second, oldest, n, gone))
}

/// Whether First's answer, and what waits then, is as told.
fn is_told(alloc: Global, row: Row) -> Result<bool, Fail> {
    let (_n, taken, sha256, (bound, listed), _oldest, _gone) = row;
    let mut first = receipts_of(Side::First)?;
    take_all(&mut first, taken)?;
    let receipt = receipt_of(alloc, &first)?;
    let answer = say(&mut first, b"c", 1)?;
    let mut second = receipts_of(Side::Second)?;
    Ok(
        receipt == Some((at(0, bound), listed))
            && has_digest(alloc, answer.as_slice(), sha256)?
            && wait_as_told(&mut second, &answer, row)?,
    )
}

#[test]
fn receipts_say_what_is_missing(rt: HostRuntime) -> Result<(), Fail> {
    let rows: [Row; 13] = [
        (
            1,
            &[],
            "c140d48ec14b4fc7fe45e0c8e78e41c417d10b6b62603835a554a637d9b7d17f",
            (0, 0),
            1,
            &[],
        ),
        (
            1,
            &[1],
            "a16c1d377ba351b4f8dc4d530a4ae8b9d31beb0a4f3d43609d28c6fdb2869556",
            (1, 0),
            1,
            &[1],
        ),
        (
            2,
            &[2],
            "8d74ae001b133e2e4cf772980c4caca8cb902e1d1ee66cf37c077bd675fd2f6b",
            (2, 1),
            1,
            &[2],
        ),
        (
            2,
            &[1, 2],
            "f59dea1885be99152eff0948293be2a7edb6c2017fe87c8614810194f8c90715",
            (2, 0),
            1,
            &[1, 2],
        ),
        (
            32,
            &[32],
            "2829b41f5fbbb957704a5bb985ad198395bfb995f6e23a5e3528273acd9585b6",
            (32, 31),
            1,
            &[32],
        ),
        (
            33,
            &[33],
            "15460e1297346bc71dac53871b4b52d440d8dced78520020a88e225da10ce282",
            (33, 32),
            1,
            &[33],
        ),
        (
            34,
            &[34],
            "f0babaeade10c366a99872f88a7a6dff786569c1932278d12635d8f8ff97b12d",
            (32, 32),
            1,
            &[],
        ),
        (
            35,
            &[35],
            "f0babaeade10c366a99872f88a7a6dff786569c1932278d12635d8f8ff97b12d",
            (32, 32),
            1,
            &[],
        ),
        (
            36,
            &[36],
            "f0babaeade10c366a99872f88a7a6dff786569c1932278d12635d8f8ff97b12d",
            (32, 32),
            1,
            &[],
        ),
        (
            40,
            &[36, 40],
            "f0babaeade10c366a99872f88a7a6dff786569c1932278d12635d8f8ff97b12d",
            (32, 32),
            1,
            &[],
        ),
        (
            40,
            &[5, 40],
            "b8e551f98d820ada4469ef65fe977294935c3aa909c61a1a4a9320b6f4e1d28f",
            (33, 32),
            1,
            &[5],
        ),
        (
            40,
            &[40, 1, 2, 3],
            "95944a0f4e7008b2799524ba91b8354a0d6295ee9d160193a17b417d6e0106f8",
            (35, 32),
            1,
            &[1, 2, 3],
        ),
        (
            66,
            &[66],
            "f0babaeade10c366a99872f88a7a6dff786569c1932278d12635d8f8ff97b12d",
            (32, 32),
            3,
            &[],
        ),
    ];
    for row in rows {
        assert!(rt; is_told(rt.alloc(), row)?);
    }
    Ok(())
}
