//! Packets whose tag is right and whose body is wrong in its receipt or its kind: they change
//! nothing. The tags are by another implementation.

use crate::conversation::{Packet, say, take, take_bytes};
use crate::record::recorded;
use crate::waiting::{awaits, receipts_of, say_many, take_all};
use dr_base::{Side, put, put_u16};
use hex::decode;
use kem_laws::OpenKem;
use ratchet::Session;
use session_model::Refusal;
use std::alloc::Global;
use std::test::Fail;

/// What First's packet 1.1 seals, whose receipt lists 0.1 up to the bound 0.2.
const BODY: &[u8] =
    b"\x01\x00\x00\x00\x00\x00\x00\x00\x02\x01\x00\x00\x00\x00\x00\x00\x00\x01\x00c";

/// A body, padded.
fn padded(body: &[u8]) -> [u8; 256] {
    let mut room = [0; 256];
    if body.len() <= 254 {
        let at_body = put_u16(&mut room, 0, body.len() as u16);
        let _end = put(&mut room, at_body, body);
    }
    room
}

/// The packet of another body in place of `BODY`, under the same key, with this tag. Encrypted
/// bytes differ where the bytes differ.
fn forged(packet: &Packet, body: &[u8], tag: &[u8]) -> [u8; 385] {
    let mut bytes = [0; 385];
    if packet.len() != 385 || tag.len() != 32 {
        return bytes;
    }
    let _end = put(&mut bytes, 0, packet.as_slice());
    let (old, new) = (padded(BODY), padded(body));
    for i in 0..256 {
        bytes[97 + i] ^= old[i] ^ new[i];
    }
    let _end = put(&mut bytes, 353, tag);
    bytes
}

/// First's answer once it took 0.2.
fn answer() -> Result<Packet, Fail> {
    let mut first = receipts_of(Side::First)?;
    take_all(&mut first, &[2])?;
    Ok(say(&mut first, b"c", 1)?)
}

/// Whether a session refuses a packet for what it seals, and stays.
fn refuses(alloc: Global, second: &mut Session<OpenKem>, packet: &[u8]) -> Result<bool, Fail> {
    let before = recorded(alloc, second)?;
    let refusal = take_bytes(second, packet).err();
    Ok(refusal == Some(Refusal::BadPadding) && recorded(alloc, second)? == before)
}

/// Whether Second, of which two texts wait, takes the answer, and one waits then.
fn opens(second: &mut Session<OpenKem>, answer: &Packet) -> Result<bool, Refusal> {
    let is_before = awaits(second, 1, 2, &[]);
    let text = take(second, answer)?;
    Ok(is_before && text.as_slice() == b"c".as_slice() && awaits(second, 1, 2, &[2]))
}

/// Whether Second refuses the packet of a body, in hex, with a tag, and opens the answer then.
fn is_told(alloc: Global, body: &str, tag: &str) -> Result<bool, Fail> {
    let answer = answer()?;
    let wrong = forged(&answer, &decode(alloc, body)?, &decode(alloc, tag)?);
    let mut second = receipts_of(Side::Second)?;
    let _last = say_many(&mut second, 2)?;
    Ok(refuses(alloc, &mut second, &wrong)? && opens(&mut second, &answer)?)
}

#[test]
fn wrong_bodies_change_nothing(rt: HostRuntime) -> Result<(), Fail> {
    // a body, and the tag of its packet
    let rows = [
        (
            "",
            "3d30530feec5afb95c4497c46dda69200ddff5b4866bd59c3b4ff23febb3c48a",
        ),
        (
            "00",
            "20ce7ee28aaa16b08cdc4aa6b82e529b3626f1a85b31562e8d24de4808ac8278",
        ),
        (
            "0001",
            "4a8bc9181a0e50f5062d14b5990053a16f33b2d78ffc5639288b217a452da38d",
        ),
        (
            "0002",
            "55382c2140df956d13d188f3c5e0e51ef5b3bcf7a3541d9dd05325995c035813",
        ),
        (
            "0200",
            "d449893c0520ce4724ffff8558439e480fe0d27c448f5a3835dcb755e4975ebd",
        ),
        (
            "ff00",
            "3e88e441bd272f874c5d75714d4ca54ee45df4ed49fcc81e16bb6c62f1ea0705",
        ),
        (
            "0100",
            "82d84c2cba36bfde642d54645d22098497a45082f0f5325e16fe23ceccee954c",
        ),
        (
            "01000000000000000200",
            "13a41a012b9ae48e02550e4865e43f5e705b33a589927cfb10a03c1b9578558d",
        ),
        (
            "010000000000000002",
            "0a1f9f4786289bd497bf0f0a1dfab754a4ba2b9a9c17eaa44342ca6019e2ae15",
        ),
        (
            "0100000001000000020000",
            "fee788a92d3343c638d1d695ad65d3de51dd48e7f34c3cca9b813ff8035fa1bd",
        ),
        (
            "01000000000000000201000000000000000300",
            "34cbc56d46f68cc720dd05af42297e4b5307d9f0d9dc8c0dae164941a97ec06e",
        ),
        (
            "01000000000000000201000000000000000000",
            "c15e4d34a42253b8f8813f111a2f0be0f31dc654340fdf1baabbed71b9ebf288",
        ),
        (
            "01000000000000000201000000010000000100",
            "a7c20e2d40531dfbdaf62e4256a4dc2ef877bddcc93419497ae689a51f9dccc6",
        ),
        (
            "010000000000000009020000000000000003000000000000000100",
            "a53b641479880a0c71051adcc12510b7107e57af4ba5741e2cd09196d34a846f",
        ),
        (
            "010000000000000009020000000000000003000000000000000300",
            "f8a5978ca2c04d72544b3975ac0cc012ef293b5c630214d2601fe2b80752c5b9",
        ),
        (
            "010000000200000001020000000000000003000000010000000100",
            "a06cb7bcad86f04850a4190977af5adfb7021b43eecd656b675d793f1db8d5ae",
        ),
        (
            "010000000200000001020000000200000001000000000000000300",
            "a5ad202c94d7e1455045b5d0f6eb974bf6ae74289994cf0e87ad0087f56c49bc",
        ),
        (
            "010000000000000028020000000000000001",
            "ecdb030297df6ae00a4e008bde5c087d9e9eb7a3c1becd223ec73cbd7faf3b60",
        ),
    ];
    for (body, tag) in rows {
        assert!(rt; is_told(rt.alloc(), body, tag)?);
    }
    Ok(())
}
