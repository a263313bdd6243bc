//! Records of the first versions, of an independent implementation: what they are written as, and
//! what the first byte of a record says, and the format.

use crate::record::{is_damaged, rewritten};
use hex::decode;
use session_record::is_newest;
use sha2::{Digest, Sha256};
use std::alloc::Global;
use std::test::Fail;

/// What First keeps after some texts.
pub(crate) const FIRST: &str =
    "01017992cd5f4ac8394bf3744ac50eb9f28667a6a5f78efba36acc5e81f3219174142de180ed40c79b959963389e\
    d8019461000000030303030303030303030303030303030303030303030303030303030303030303f2e642f85e31\
    36bb0e4fbe5be762c080f60968fa15c54152b62a7454b2e321b0d8041f7991d732ea98ec0ad6308ce15b8d99264b\
    78eddef1b47a7c3f8b6a10dff21b6cc7570a5daa12d29147d5d47d83dfb9cbe243dd9319d27bb6503eb465120000\
    0001000000015d5f1c2cc211c097b62e56f92ceba7649304d5093b87e12ece80794837a69c620000000100020000\
    000000000001b8784b816479975311a7bf0a5540c69f776176698799498caa7a6ba5f7b87fdf0000000000000002\
    94bc646910b29b95ac28cec5dd28e026f2f8c135392f390d256425afcc0c388f0100000002000000010001650200\
    82017992cd5f4ac8394bf3744ac50eb9f2860000000100000000000000010040030610bfe3b906afc878a84f0087\
    ea6c20e112a5218a7510d0d37c0bbe796f1a2d44de7f90a0095da077abf0a056f7e7224e97f9738020b784e1fa5a\
    8fba32b60001493d7ac87a12120e9d9c35d0930e0568d5a00014da6b4362de65759b71dbe53d240082017992cd5f\
    4ac8394bf3744ac50eb9f2860000000300000001000000010040f2e642f85e3136bb0e4fbe5be762c080f60968fa\
    15c54152b62a7454b2e321b0d8041f7991d732ea98ec0ad6308ce15b8d99264b78eddef1b47a7c3f8b6a10df0001\
    4610f6a8b5d5253cf519e8a7f45a5e72766089d1bb47b4eb255127c7a07a523e29";

/// What Second keeps then.
pub(crate) const SECOND: &str =
    "01027992cd5f4ac8394bf3744ac50eb9f2861ad54e3cc0ded4c85f47c37f7ec3b266a38b509a6029fec0cf4be88a\
    de5acc800000000202020202020202020202020202020202020202020202020202020202020202028222949357eb\
    f260b3578c9918e5d37a22bd10ae357ef2086f691bbaf0d68a83d3d6f6b75cfec808069133863e94fcaf6e45d67d\
    ccbc050f1c951e63a84c7f8d5d5f1c2cc211c097b62e56f92ceba7649304d5093b87e12ece80794837a69c620000\
    0001000000036f61ac4c496e10f33dac7578458f4825aaace0b989d8285df6fdb45dfcbabfb30000000100000100\
    00000100000001000164040042017992cd5f4ac8394bf3744ac50eb9f28600000000000000000000000100000001\
    0b725432184de246dbf10cae33f9ea06307e8c10b8ce7d7202a09667253de0c0370042017992cd5f4ac8394bf374\
    4ac50eb9f286000000000000000000000002000000016f7c46669cffc086a2c73b6a7cc0f05e8845a0dd1c094326\
    c8fb5e54b37018f3f20042017992cd5f4ac8394bf3744ac50eb9f286000000000000000000000003000000017471\
    570c913aec6dc6dbd0cdb1f45b53db521d20bc864fcc019d5372aefcbbe4d00082017992cd5f4ac8394bf3744ac5\
    0eb9f28600000002000000030000000100408222949357ebf260b3578c9918e5d37a22bd10ae357ef2086f691bba\
    f0d68a83d3d6f6b75cfec808069133863e94fcaf6e45d67dccbc050f1c951e63a84c7f8d0001a7eae5931dffb5e7\
    df0cf3efe2f4116ec7f17f729bb7634385d3595f9e482242c9";

/// Whether a text has this SHA-256, in hex.
pub(crate) fn has_digest(alloc: Global, text: &[u8], sha256: &str) -> Result<bool, Fail> {
    Ok(Sha256::digest(text).as_slice() == decode(alloc, sha256)?.as_slice())
}

/// What is put after the side: a format, or nothing.
type Format = &'static [u8];

/// A record, in hex, with another first byte, and with what is put after its side.
fn with_format(alloc: Global, record: &str, byte: u8, format: Format) -> Result<Vec<u8>, Fail> {
    let old = decode(alloc, record)?;
    let mut text = Vec::from_slice(alloc, &[byte])?;
    if let Some(side) = old.get(1..2) {
        text.extend_from_slice(side)?;
    }
    text.extend_from_slice(format)?;
    if let Some(rest) = old.get(2..) {
        text.extend_from_slice(rest)?;
    }
    Ok(text)
}

/// Whether a text has one SHA-256, and what it is written as the other, which is written as it is.
fn is_renewed(alloc: Global, text: &[u8], old: &str, new: &str) -> Result<bool, Fail> {
    match rewritten(alloc, text)? {
        Some(again) => Ok(
            has_digest(alloc, text, old)?
                && has_digest(alloc, &again, new)?
                && rewritten(alloc, &again)? == Some(again),
        ),
        None => Ok(false),
    }
}

/// Whether a record, in hex, has the SHA-256 of each of the first three versions, and in each of
/// them is written in the fifth, with the last SHA-256.
fn are_renewed(alloc: Global, record: &str, sha256: [&str; 4]) -> Result<bool, Fail> {
    let formats: [Format; 3] = [b"", b"", b"\x01"];
    let mut is_right = true;
    for i in 0..3 {
        let text = with_format(alloc, record, i as u8 + 1, formats[i])?;
        is_right = is_right && is_renewed(alloc, &text, sha256[i], sha256[3])?;
    }
    Ok(is_right)
}

#[test]
fn old_records_are_written_in_the_newest_version(rt: HostRuntime) -> Result<(), Fail> {
    let rows = [
        (
            FIRST,
            [
                "427c752bd17e7c4c113e359707d3bacedf23640e5524e32ca21b71c9ab260332",
                "ceb479bf50bbec4323627b5eb238c1a1b9a03e5b25719a7ba6ec40eab30a7179",
                "e5a40f3339811ae67a200cbda4d86df0201de9c0a3701d05b70269973a5c9eb0",
                "2fbe14223e3ea0d726847349bdf1e119ebbb7bfac8e63a80b90f6ae46351df86",
            ],
        ),
        (
            SECOND,
            [
                "9fa58e2cd116976a3a7a003c6c1f24eac04c445342aebaae5e997d0a8beb8eb8",
                "91e5cc38d5ede5be187eb03505730e1f900bd3faa5d592e70f2f4e7bc3248d0d",
                "b4a0f3469ba53b8a5cddca84c328601dbd5e6e818e8dd15a9d3937c15ae1a7e3",
                "e3a41a37d570f15bd8a8362c0eccb295f3617622cbfd1ccfc33503c6ff80a46d",
            ],
        ),
    ];
    for (record, sha256) in rows {
        assert!(rt; are_renewed(rt.alloc(), record, sha256)?);
    }
    Ok(())
}

/// Whether First's record with another first byte, and with what is put after its side, is damaged
/// at this place, or nowhere, and in the newest version where that byte is 5.
fn is_told(alloc: Global, byte: u8, format: Format, at: Option<usize>) -> Result<bool, Fail> {
    let text = with_format(alloc, FIRST, byte, format)?;
    Ok(is_newest(&text) == (byte == 5) && is_damaged(alloc, &text, at)?)
}

#[test]
fn the_first_byte_tells_the_version(rt: HostRuntime) -> Result<(), Fail> {
    // the first byte, what is put after the side, and where the damage is
    let rows: [(u8, Format, Option<usize>); 21] = [
        (0, b"", Some(0)),
        (1, b"", None),
        (2, b"", None),
        (3, b"", Some(2)),
        (4, b"", Some(2)),
        (5, b"", Some(2)),
        (6, b"", Some(0)),
        (255, b"", Some(0)),
        (0, b"\x01", Some(0)),
        (1, b"\x01", Some(86)),
        (2, b"\x01", Some(86)),
        (3, b"\x01", None),
        (4, b"\x01", Some(321)),
        (5, b"\x01", Some(321)),
        (6, b"\x01", Some(0)),
        (255, b"\x01", Some(0)),
        // the other formats of version 3
        (3, b"\x00", Some(2)),
        (3, b"\x02", None),
        (3, b"\x03", Some(2)),
        (3, b"\x04", Some(2)),
        (3, b"\xff", Some(2)),
    ];
    for (byte, format, at) in rows {
        assert!(rt; is_told(rt.alloc(), byte, format, at)?);
    }
    Ok(())
}
