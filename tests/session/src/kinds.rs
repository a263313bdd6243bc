//! The kinds of the texts in an inbox, by an independent implementation.

use crate::record::{fifth_of, is_damaged, rewritten};
use hex::decode;
use std::alloc::Global;
use std::test::Fail;

/// What First keeps after some texts, of which two stand in its inbox.
const RECORD: &str =
    "0401017992cd5f4ac8394bf3744ac50eb9f28667a6a5f78efba36acc5e81f3219174142de180ed40c79b95996338\
    9ed8019461000000030303030303030303030303030303030303030303030303030303030303030303f2e642f85e\
    3136bb0e4fbe5be762c080f60968fa15c54152b62a7454b2e321b0d8041f7991d732ea98ec0ad6308ce15b8d9926\
    4b78eddef1b47a7c3f8b6a10dff21b6cc7570a5daa12d29147d5d47d83dfb9cbe243dd9319d27bb6503eb4651200\
    00000100000001b5dc5491ad935b885246248b0076b610752583a6c5fc9a5270db7f522ee52d0600000002000200\
    00000000000001b8784b816479975311a7bf0a5540c69f776176698799498caa7a6ba5f7b87fdf00000000000000\
    0294bc646910b29b95ac28cec5dd28e026f2f8c135392f390d256425afcc0c388f02000000020000000100000165\
    000000020000000200000167020082017992cd5f4ac8394bf3744ac50eb9f2860000000100000000000000010040\
    030610bfe3b906afc878a84f0087ea6c20e112a5218a7510d0d37c0bbe796f1a2d44de7f90a0095da077abf0a056\
    f7e7224e97f9738020b784e1fa5a8fba32b60001493d7ac87a12120e9d9c35d0930e0568d5a00014da6b4362de65\
    759b71dbe53d240082017992cd5f4ac8394bf3744ac50eb9f2860000000300000001000000010040f2e642f85e31\
    36bb0e4fbe5be762c080f60968fa15c54152b62a7454b2e321b0d8041f7991d732ea98ec0ad6308ce15b8d99264b\
    78eddef1b47a7c3f8b6a10df00014610f6a8b5d5253cf519e8a7f45a5e72766089d1bb47b4eb255127c7a07a523e\
    290200000001000000010000000300000001";

/// Bytes that are put at places.
type Patch = &'static [(usize, u8)];

/// Whether the record with a patch is damaged at this place, or read.
fn is_told(alloc: Global, patch: Patch, at: Option<usize>) -> Result<bool, Fail> {
    let mut text = decode(alloc, RECORD)?;
    for (place, byte) in patch {
        if let Some(old) = text.get_mut(*place) {
            *old = *byte;
        }
    }
    Ok(is_damaged(alloc, &text, at)?)
}

/// Whether the record is written in version 5.
fn is_kept(alloc: Global) -> Result<bool, Fail> {
    let text = decode(alloc, RECORD)?;
    Ok(rewritten(alloc, &text)? == Some(fifth_of(alloc, &text)?))
}

#[test]
fn kinds_are_looked_at(rt: HostRuntime) -> Result<(), Fail> {
    let rows: [(Patch, Option<usize>); 7] = [
        (&[(318, 0)], None),
        (&[(318, 1)], Some(318)),
        (&[(330, 1)], Some(330)),
        (&[(318, 2), (330, 2)], Some(318)),
        (&[(330, 255)], Some(330)),
        (&[(330, 2), (2, 4)], Some(2)),
        (&[(309, 3)], Some(334)),
    ];
    for (patch, at) in rows {
        assert!(rt; is_told(rt.alloc(), patch, at)?);
    }
    assert!(rt; is_kept(rt.alloc())?);
    Ok(())
}
