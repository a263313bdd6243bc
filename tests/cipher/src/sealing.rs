//! The values are those of Python's modules `hashlib` and `hmac`, and of `cryptography` for
//! ChaCha20.

ghost use Rattle.std.specs.Prelude.{◌<◌};

use crate::counted::COUNTED;
use dr_base::Key32;
use etm_aead::{BadTag, OpenKey, SealKey};

// What goes along in the clear.
const AD: [u8; 33] = [
    1, 0, 1, 2, 3, 4, 5, 6, 7, 8, 9, 10, 11, 12, 13, 14, 15, 0, 0, 0, 0, 0, 0, 0, 0, 0, 0, 0, 1, 0,
    0, 0, 2,
];

// The ciphertext and the tag of `hi`.
const CIPHERTEXT: [u8; 2] = [0xb0, 0x10];

const TAG: [u8; 32] = [
    0x3b, 0xa4, 0x47, 0xe1, 0xac, 0x14, 0x28, 0xdd, 0x42, 0x79, 0x35, 0x67, 0x03, 0x5a, 0x84, 0xd0,
    0x63, 0x17, 0x61, 0xe3, 0x10, 0xb2, 0xcf, 0x31, 0x0d, 0x2b, 0x8f, 0xfc, 0x4b, 0xf9, 0xc3, 0x52,
];

// The tag of an empty text.
const EMPTY_TAG: [u8; 32] = [
    0xec, 0x67, 0xd2, 0x10, 0x89, 0x2f, 0xac, 0x09, 0x15, 0x3b, 0xef, 0x9c, 0xc4, 0x5f, 0x34, 0xf8,
    0x74, 0xae, 0x32, 0x11, 0x1d, 0xb0, 0x72, 0x9e, 0x06, 0x53, 0x38, 0xc5, 0xb2, 0xd8, 0xfb, 0x0d,
];

fn seal_key() -> SealKey {
    SealKey::from_message(Key32 { bytes: COUNTED })
}

fn open_key() -> OpenKey {
    OpenKey::from_message(Key32 { bytes: COUNTED })
}

#[test]
fn seals(rt: HostRuntime) {
    let mut text = *b"hi";
    assert!(rt; seal_key().seal(&AD, &mut text) == TAG);
    assert!(rt; text == CIPHERTEXT);
    assert!(rt; seal_key().seal(&AD, &mut []) == EMPTY_TAG);
}

#[test]
fn opens(rt: HostRuntime) {
    let mut text = CIPHERTEXT;
    assert!(rt; open_key().open(&AD, &mut text, &TAG) == Ok(()));
    assert!(rt; text == *b"hi");
    assert!(rt; open_key().open(&AD, &mut [], &EMPTY_TAG) == Ok(()));
}

// The bytes with one bit changed.
fn flipped<const N: usize>(mut bytes: [u8; N], at: usize) -> [u8; N]
    requires { at < N }
{
    bytes[at] ^= 1;
    bytes
}

// One bit of the tag, of the ciphertext, and of what goes along in the clear.
#[test]
fn refuses_a_flipped_bit(rt: HostRuntime) {
    let rows = [
        (AD, CIPHERTEXT, flipped(TAG, 31)),
        (AD, flipped(CIPHERTEXT, 1), TAG),
        (flipped(AD, 32), CIPHERTEXT, TAG),
    ];
    for (ad, ciphertext, tag) in rows {
        let mut text = ciphertext;
        assert!(rt; open_key().open(&ad, &mut text, &tag) == Err(BadTag));
        assert!(rt; text == ciphertext);
    }
}
