//! Records of version 5 of an independent implementation: the keys of a session's boxes at a relay,
//! with which they end.

use crate::fourth::{FIRST_WAITING, fourth};
use crate::record::{fifth_of, is_damaged, rewritten};
use crate::versions::has_digest;
use dr_base::{Key32, Side};
use hex::decode;
use session_record::RelayKeys;
use std::alloc::Global;
use std::test::Fail;

/// The keys of the session, which First keeps.
const KEYS: &str =
    "fc6a656e33daf69269f538e5696348ca2c5c391338277232b56fd721ec5e0a3f88d95d6b34587bd40b6e049b\
    ee474c97ec367ba6c5347de44b49592f706fcecb46b604aab1ad1a4a1b57fed1fca1bd3779088a64ed7f1a13\
    6afa063c8c597f753071be63c256993728f76daa436e125146a20ab4b245a8fa7f7e22031955d2d6";

/// Where a byte stands that says whether there are keys.
const FLAG: usize = 604;

/// What First keeps without its keys.
fn without_keys(alloc: Global) -> Result<Vec<u8>, Fail> {
    let old = fourth(alloc, Side::First, FIRST_WAITING)?;
    Ok(fifth_of(alloc, &old)?)
}

/// What First keeps with its keys.
fn with_keys(alloc: Global) -> Result<Vec<u8>, Fail> {
    let mut text = without_keys(alloc)?;
    if let Some(flag) = text.get_mut(FLAG) {
        *flag = 1;
    }
    text.extend_from_slice(&decode(alloc, KEYS)?)?;
    Ok(text)
}

/// Whether a text has this SHA-256, and is written as it is.
fn is_whole(alloc: Global, text: &[u8], sha256: &str) -> Result<bool, Fail> {
    match rewritten(alloc, text)? {
        Some(again) => Ok(has_digest(alloc, text, sha256)? && again.as_slice() == text),
        None => Ok(false),
    }
}

#[test]
fn records_of_version_5_are_read_and_written(rt: HostRuntime) -> Result<(), Fail> {
    let keyed = "2ec29d193e7cd431c33d02f22f71f2e16d49d9b5ee87952229bc37286f71a541";
    assert!(rt; is_whole(rt.alloc(), &with_keys(rt.alloc())?, keyed)?);
    let without = "163ce6169b9e1b244c4d4ee94e80040705454676f0d9fb5e77d998932b3200e4";
    assert!(rt; is_whole(rt.alloc(), &without_keys(rt.alloc())?, without)?);
    Ok(())
}

/// A place, the byte that is written over it, how long the text is then, and where it is damaged.
type Row = (usize, u8, usize, Option<usize>);

/// Whether a text is damaged as a row has it.
fn is_told(alloc: Global, mut text: Vec<u8>, row: Row) -> Result<bool, Fail> {
    let (place, byte, len, at) = row;
    if let Some(old) = text.get_mut(place) {
        *old = byte;
    }
    if text.len() < len {
        text.push(0)?;
    }
    text.truncate(len);
    Ok(is_damaged(alloc, &text, at)?)
}

#[test]
fn the_keys_stand_last(rt: HostRuntime) -> Result<(), Fail> {
    let keyed: [Row; 14] = [
        (FLAG, 0, 733, Some(605)),
        (FLAG, 1, 733, None),
        (FLAG, 2, 733, Some(FLAG)),
        (FLAG, 255, 733, Some(FLAG)),
        (0, 5, 734, Some(733)),
        (0, 5, 732, Some(605)),
        (0, 5, 637, Some(605)),
        (0, 5, 605, Some(605)),
        (0, 5, FLAG, Some(FLAG)),
        (732, 0, 733, None),
        (0, 4, 733, Some(FLAG)),
        (0, 4, FLAG, None),
        (0, 6, 733, Some(0)),
        (0, 0, 733, Some(0)),
    ];
    for row in keyed {
        assert!(rt; is_told(rt.alloc(), with_keys(rt.alloc())?, row)?);
    }
    let without: [Row; 5] = [
        (0, 5, 605, None),
        (0, 5, 606, Some(605)),
        (FLAG, 1, 605, Some(605)),
        (0, 4, 605, Some(FLAG)),
        (0, 4, FLAG, None),
    ];
    for row in without {
        assert!(rt; is_told(rt.alloc(), without_keys(rt.alloc())?, row)?);
    }
    Ok(())
}

/// Keys as bytes, one after the other.
fn bytes_of(alloc: Global, keys: &RelayKeys) -> Result<Vec<u8>, Fail> {
    let mut bytes = Vec::from_slice(alloc, &keys.first_owner.bytes)?;
    bytes.extend_from_slice(&keys.first_poster.bytes)?;
    bytes.extend_from_slice(&keys.second_owner.bytes)?;
    bytes.extend_from_slice(&keys.second_poster.bytes)?;
    Ok(bytes)
}

/// Whether a shared key gives these keys.
fn gives(alloc: Global, key: [u8; 32], keys: &str) -> Result<bool, Fail> {
    let given = bytes_of(alloc, &RelayKeys::of(&Key32 { bytes: key }))?;
    Ok(given.as_slice() == decode(alloc, keys)?.as_slice())
}

#[test]
fn keys_follow_from_the_shared_key(rt: HostRuntime) -> Result<(), Fail> {
    let rows = [
        (
            0x00,
            "e6a0fe18c0ea7be6a44404a7f6d3943e82e5133afcf383d714b2376e7f8988c56c3205d74658\
             b62091511b7567b670af23c244ce4d49967023c7cb4ea05a934f551cf9694de5f7555508dc5f\
             0945b1b49bc14d1211553cdbdb0bc7b993390536714e125b813f00b01df9b010cb7c62169918\
             5591f0f92bb8948c7340a332e864",
        ),
        (
            0x01,
            "b1d213b0e78ef7895bb6aef87a05d6c22b5f33f331fa2578ea80c7d30adcec6305aa66288108\
             a9c8e655663d4bc4b040698e03b595be694584b7a176c5984df9f54b8a931aef47a04fbcb117\
             d18db75c9d525b13e65c643b5a156b677f5504d8d4eab45bd0673ce0b79a53db3af0bfc7f789\
             496268651cba26147e28a9926dcd",
        ),
        (
            0xff,
            "d8b726a33e57b2a648ad6d2cfbf22b393705398ecc07e2f185d1b6e9b1b6ffa0b34db665a1f5\
             d1593a4d1c8ecfab429a131f860ff1fce4774413e62c0ce80bf75f02ce87d8d3b71e6ce24137\
             c3a1e64589829c8aef043ff14e2f5cbe1017587a8ead5d93def4327f66042448e8107096db83\
             6ea1d543f09ba78c313fd54e7c07",
        ),
    ];
    for (byte, keys) in rows {
        assert!(rt; gives(rt.alloc(), [byte; 32], keys)?);
    }
    Ok(())
}
