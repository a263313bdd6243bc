//! The tags of a relay's tokens, by another implementation, and the rules in their order.

use dr_base::Key32;
use relay_guard::{Guard, Role, Token, token_tag};

// a fetch of the box `a`, a post of the byte 7 to it, and an acknowledgement of its packet 1
const FETCH: &[u8] = &[2, 1, b'a'];
const POST: &[u8] = &[1, 1, b'a', 7];
const ACK: &[u8] = &[3, 1, b'a', 0, 0, 0, 0, 0, 0, 0, 1];

// the keys of the vectors
fn key_of(role: Role) -> Key32 {
    match role {
        Role::Owner => Key32 { bytes: [0x11; 32] },
        Role::Poster => Key32 { bytes: [0x22; 32] },
    }
}

// the value of a hex digit in lowercase
fn digit(byte: u8) -> u8 {
    match byte {
        b'0'..=b'9' => byte.wrapping_sub(b'0'),
        _ => byte.wrapping_sub(b'a').wrapping_add(10),
    }
}

// the bytes of 64 hex digits
fn bytes_of(hex: &[u8; 64]) -> [u8; 32] {
    let mut bytes = [0; 32];
    for i in 0..32 {
        bytes[i] = digit(hex[2 * i]).wrapping_mul(16).wrapping_add(digit(hex[2 * i + 1]));
    }
    bytes
}

/// Whether the tag of a request is this one, in whichever pieces the request comes.
fn is_tag(role: Role, counter: u64, request: &[u8], expected: &[u8; 32]) -> bool {
    let key = key_of(role);
    let (head, rest) = request.split_at(2);
    let (name, more) = rest.split_at(1);
    token_tag(&key, counter, head, name, more) == *expected
        && token_tag(&key, counter, request, &[], &[]) == *expected
}

#[test]
fn tags_of_fetches(rt: HostRuntime) {
    let rows: [(u64, &[u8; 64]); 6] = [
        (
            0,
            b"00ff65129410f230100fc0b427737872a09eac7a8e9d061e7917f826836e97cb",
        ),
        (
            1,
            b"0325e0a9282db128566f816b9d4faeaf5c4fbd56c8c4b58c2e9bf20d0b5faedf",
        ),
        (
            255,
            b"8916d96d3f98af5446e20499b07e88146cb6f7727b97e873b54cfdd7960755a3",
        ),
        (
            256,
            b"14859797cc8bc87a6de9e50cb8531055a3f875a1635bf0eef2a54f8a2b7ac482",
        ),
        (
            4_294_967_296,
            b"5a0428683ee4736cfef11adfe963cc4b380692bba9f87aa4c871a74feef7f9d2",
        ),
        (
            u64::MAX,
            b"5945671d608180683871ce720bb3748d106fa48d323016a0c05ed26512f59862",
        ),
    ];
    for (counter, tag) in &rows {
        assert!(rt; is_tag(Role::Owner, *counter, FETCH, &bytes_of(tag)));
    }
}

#[test]
fn tags_of_posts(rt: HostRuntime) {
    let rows: [(u64, &[u8; 64]); 6] = [
        (
            0,
            b"3fd27ecb50ec04549ec113a9e91e2bbc617b745f70a6859d00d4c19d119b23c6",
        ),
        (
            1,
            b"301a0582530e2bc66037998dca0968c5c213801d3e77cbee9af5117616240197",
        ),
        (
            255,
            b"e724a82ce32bc633a29d1368e631d9ffa2bb1ce94649b2e3916b3e4fc2a25591",
        ),
        (
            256,
            b"002fdf892e96da1787e4c62ea5b0f95927dd2152fa3f20561cc94266b44fa97b",
        ),
        (
            4_294_967_296,
            b"9940e34b388737c659186f3a783cd99c39f9775311aa627870c958547c9f926e",
        ),
        (
            u64::MAX,
            b"664b93dc02098d5c56fbed9b8a6c35f6d169a7565fc3219bfbb4b546267dc9c1",
        ),
    ];
    for (counter, tag) in &rows {
        assert!(rt; is_tag(Role::Poster, *counter, POST, &bytes_of(tag)));
    }
}

#[test]
fn tags_of_acknowledgements(rt: HostRuntime) {
    let rows: [(u64, &[u8; 64]); 6] = [
        (
            0,
            b"dff968ead9d012e06bd2a806e15cd66ea25d16e045b4e37cdaca9f703a7ea9a1",
        ),
        (
            1,
            b"cd775128c541134d1f5418ea3d817381778bec915df97f779ba7d8e0bf399273",
        ),
        (
            255,
            b"7314ae063322ccaa608ea6740f6ed619c72041bd0f6e508b33d3f6480437cf0f",
        ),
        (
            256,
            b"590710bc281dccb35f87c63b0c54e2142d476559924518d037f0e6ff7ac8fad4",
        ),
        (
            4_294_967_296,
            b"444e387c411adb93187ab54faa85ed266b935d0321e59a352fdbbb6b3461f3ac",
        ),
        (
            u64::MAX,
            b"5a1dbefaec011b68e4b77dbbdddbdeef771204cdc37b3f995b2df7f0fdd5d415",
        ),
    ];
    for (counter, tag) in &rows {
        assert!(rt; is_tag(Role::Owner, *counter, ACK, &bytes_of(tag)));
    }
}

// what a guard says of a request: 0 where it is served, else the rule, and the last counter
fn judged(guard: &mut Guard, role: Role, token: Option<(u64, Role)>, request: &[u8]) -> (u8, u64) {
    let verdict = match token {
        None => guard.judge(role, &None, request, &[], &[]),
        Some((counter, tagged)) => {
            let tag = token_tag(&key_of(tagged), counter, request, &[], &[]);
            let token = Token { counter, tag: &tag };
            guard.judge(role, &Some(token), request, &[], &[])
        }
    };
    match verdict {
        Ok(()) => (0, 0),
        Err(denied) => (denied.rule, denied.last),
    }
}

#[test]
fn rules_in_their_order(rt: HostRuntime) {
    let mut guard = Guard::new(key_of(Role::Owner), key_of(Role::Poster));
    let (owner, poster) = (Role::Owner, Role::Poster);
    assert_eq!(rt; judged(&mut guard, owner, None, FETCH), (1, 0));
    assert_eq!(rt; judged(&mut guard, owner, Some((0, owner)), FETCH), (3, 0));
    assert_eq!(rt; judged(&mut guard, owner, Some((5, poster)), FETCH), (2, 0));
    assert_eq!(rt; judged(&mut guard, owner, Some((5, owner)), FETCH), (0, 0));
    assert_eq!(rt; judged(&mut guard, owner, Some((5, owner)), FETCH), (3, 5));
    assert_eq!(rt; judged(&mut guard, owner, Some((4, poster)), FETCH), (2, 0));
    assert_eq!(rt; judged(&mut guard, owner, Some((6, owner)), ACK), (0, 0));
    // each key has a counter of its own
    assert_eq!(rt; judged(&mut guard, poster, Some((1, poster)), POST), (0, 0));
    assert_eq!(rt; judged(&mut guard, poster, Some((1, poster)), POST), (3, 1));
    assert_eq!(rt; judged(&mut guard, poster, Some((u64::MAX, poster)), POST), (0, 0));
    assert_eq!(rt; judged(&mut guard, poster, Some((u64::MAX, poster)), POST), (3, u64::MAX));
    assert_eq!(rt; judged(&mut guard, owner, Some((7, owner)), FETCH), (0, 0));
}
