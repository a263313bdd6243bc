//! Packets of later versions, of an independent implementation: who takes them, and which version
//! of a record holds them.

use crate::conversation::{begin, take_bytes};
use crate::filled::with_other;
use crate::record::is_damaged;
use crate::versions::has_digest;
use bodies::Format;
use dr_base::Side;
use hex::decode;
use packet::{Kind, Malformed};
use session_model::Refusal;
use std::alloc::Global;
use std::test::Fail;

/// The packet 0.1 of the text `hi` in version 2.
const PADDED: &str =
    "0270e0f9cd1a5863238d67aecce0c032e500000000000000000000000100000100118d47c470ccae0472fe697ab3\
    ea3690a69c3086a940bd774a69bf29c0c3f667868a2f054649aa566246d7704df012b80db57f335eefa2384e3636\
    a1e88eb0304b9428db33e10311764d57c9aa49ccbf6e30161aa9d8634ec70c8a702de1d7e9c76e94ba4b86fd08c6\
    dace5e1101e95ba2435f3c933ec4f7aba60426b3217f4f3bec5963eca998c22b5959d43fb6ba1bcd333af5a0934a\
    7297c434188b52696f8a55c7091b406fe4ae9b7048b4f24068641d5e69aef181103383085f3f05a8b2485e5d365b\
    af795379f6adfa352acee5f5ad6ee5dccdf61518f93b1f48454c324a459c4e2c4b7370bef7f3925998b0960d1f55\
    a7aaf440471935f771608bcb46f65c7d4aa4c8f46677de7c8495a9025bbff7f94ae08d66fb95c2cecaf60ee595";

/// The packet 0.1 of the text `hi` in version 3.
const RECEIPTS: &str =
    "0370e0f9cd1a5863238d67aecce0c032e500000000000000000000000100000100118b2fad18a5ae0472fe697ab3\
    ea3690a69c3086a940bd774a69bf29c0c3f667868a2f054649aa566246d7704df012b80db57f335eefa2384e3636\
    a1e88eb0304b9428db33e10311764d57c9aa49ccbf6e30161aa9d8634ec70c8a702de1d7e9c76e94ba4b86fd08c6\
    dace5e1101e95ba2435f3c933ec4f7aba60426b3217f4f3bec5963eca998c22b5959d43fb6ba1bcd333af5a0934a\
    7297c434188b52696f8a55c7091b406fe4ae9b7048b4f24068641d5e69aef181103383085f3f05a8b2485e5d365b\
    af795379f6adfa352acee5f5ad6ee5dccdf61518f93b1f48454c324a459c4e2c4b7370bef7f3925998b0960d1f55\
    a7aaf440471935f771608bcb466dd28f8300cbf0edf0fca4cb26ab8fdf0ebcd105a5d48bc6b84ba21812784611";

/// The version of a record, the packet in its outbox, the SHA-256 of the record, and where it is
/// damaged, if it is.
type Row = (u8, &'static str, &'static str, Option<usize>);

/// Whether a row's record has its SHA-256, and its damage.
fn is_told(alloc: Global, row: Row) -> Result<bool, Fail> {
    let (version, packet, sha256, at) = row;
    let text = with_other(alloc, version, &decode(alloc, packet)?)?;
    Ok(has_digest(alloc, &text, sha256)? && is_damaged(alloc, &text, at)?)
}

#[test]
fn records_hold_the_packets_of_their_version(rt: HostRuntime) -> Result<(), Fail> {
    let rows: [Row; 8] = [
        (
            1,
            PADDED,
            "7ee89e8bf6ca29aba9a228d445b9d121738687af7874bddec93e45cca177e810",
            Some(132),
        ),
        (
            1,
            RECEIPTS,
            "64eaf10928d31480922ce68ec42541c114abf80a1daa26495151c408c6e38d4a",
            Some(132),
        ),
        (
            2,
            PADDED,
            "d4d0edfdf3803cb25ebcaed45c38021eb51ea416314fda45aba59874159f87de",
            Some(132),
        ),
        (
            2,
            RECEIPTS,
            "5d8218936f144995f1b9c1d76cb79b0e362212e62676640b1188973b9118174b",
            Some(132),
        ),
        (
            3,
            PADDED,
            "c83bbae58fd6ca5ae55c5c754ac17af13d995d84990964bf26c45898b35d9b66",
            None,
        ),
        (
            3,
            RECEIPTS,
            "0ed8a3012c9e8c41a10f2d710c8a5c7a36851e8340bf7c48bb92949ed2bc7cd4",
            Some(133),
        ),
        (
            4,
            PADDED,
            "13150fd26cab7cc2b3d52df3c133eac20a6dde4062302133434dfa2d5c7d1e72",
            None,
        ),
        (
            4,
            RECEIPTS,
            "2d0bf3cc0d66962b7620e14d9c7b6cf2a5d8f9ed79e6c462e93bd510883eedb8",
            None,
        ),
    ];
    for row in rows {
        assert!(rt; is_told(rt.alloc(), row)?);
    }
    Ok(())
}

/// Whether First takes the text `hi` out of a packet, whatever it seals itself.
fn is_taken(alloc: Global, format: Format, packet: &str) -> Result<bool, Fail> {
    let packet = decode(alloc, packet)?;
    let mut first = begin(Side::First, format, 0)?;
    Ok(take_bytes(&mut first, &packet)?.as_slice() == b"hi".as_slice())
}

#[test]
fn packets_of_each_version_are_taken(rt: HostRuntime) -> Result<(), Fail> {
    for format in [Format::Plain, Format::Padded, Format::Receipts] {
        assert!(rt; is_taken(rt.alloc(), format, PADDED)?);
        assert!(rt; is_taken(rt.alloc(), format, RECEIPTS)?);
    }
    Ok(())
}

/// A packet that says it is of version 4.
fn of_version_4(alloc: Global) -> Result<Vec<u8>, Fail> {
    let mut packet = decode(alloc, RECEIPTS)?;
    if let Some(version) = packet.first_mut() {
        *version = 4;
    }
    Ok(packet)
}

/// Whether First refuses a packet of version 4.
fn is_refused(alloc: Global) -> Result<bool, Fail> {
    let packet = of_version_4(alloc)?;
    let mut first = begin(Side::First, Format::Receipts, 0)?;
    let fault = Malformed {
        at: 0,
        kind: Kind::Version,
    };
    Ok(take_bytes(&mut first, &packet).err() == Some(Refusal::Malformed(fault)))
}

/// Whether a record of a version with a packet of version 4 is damaged at this packet.
fn is_damage(alloc: Global, version: u8, at: usize) -> Result<bool, Fail> {
    let text = with_other(alloc, version, &of_version_4(alloc)?)?;
    Ok(is_damaged(alloc, &text, Some(at))?)
}

#[test]
fn packets_of_version_4_are_refused(rt: HostRuntime) -> Result<(), Fail> {
    assert!(rt; is_refused(rt.alloc())?);
    for (version, at) in [(1, 132), (2, 132), (3, 133), (4, 133)] {
        assert!(rt; is_damage(rt.alloc(), version, at)?);
    }
    Ok(())
}
