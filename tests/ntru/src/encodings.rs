//! Rows worked by hand, and rows of an implementation of the specification in another language.

use ntru_codec::{
    BadSmall, decode, encode, rounded_decode, rounded_encode, rq_decode, rq_encode, small_decode,
    small_encode,
};

#[test]
fn lists(rt: HostRuntime) {
    let mut out = [9; 5];
    assert!(rt; encode(&[0, 1], &[4591, 4591], &mut out) == 4);
    assert!(rt; out == [0xef, 0x11, 0, 0, 9]);
    let mut values = [0; 2];
    decode(&[0xef, 0x11, 0, 0], &[4591, 4591], &mut values);
    assert!(rt; values == [0, 1]);

    assert!(rt; encode(&[4590], &[4591], &mut out) == 2);
    assert!(rt; out == [0xee, 0x11, 0, 0, 9]);

    let limits = [1, 16383, 2, 256, 16383];
    assert!(rt; encode(&[0, 16382, 1, 255, 5], &limits, &mut out) == 5);
    assert!(rt; out == [0xff, 0xfd, 0xff, 0x02, 0x00]);
}

#[test]
fn small_zero(rt: HostRuntime) {
    let mut bytes = [0x55; 191];
    bytes[190] = 1;
    if let Ok(a) = small_decode(&bytes) {
        assert!(rt; a.coefficients == [0; 761]);
        assert!(rt; small_encode(&a) == bytes);
    } else {
        assert!(rt; false);
    }
}

#[test]
fn small_bad(rt: HostRuntime) {
    for (at, byte) in [(5, 0xff), (190, 0x05), (190, 0x03), (0, 0x57), (189, 0xc0)] {
        let mut bytes = [0x55; 191];
        bytes[190] = 1;
        bytes[at] = byte;
        assert!(rt; small_decode(&bytes).err() == Some(BadSmall { at }));
    }
}

// the bytes as one number, modulo 2^32
fn checksum(bytes: &[u8]) -> u32 {
    let mut sum: u32 = 0;
    for byte in bytes {
        sum = sum.wrapping_mul(31).wrapping_add(u32::from(*byte));
    }
    sum
}

#[test]
fn element(rt: HostRuntime) {
    let mut bytes = [0; 1158];
    for i in 0..1158 {
        bytes[i] = ((i * i + 3 * i) % 251) as u8;
    }
    let a = rq_decode(&bytes);
    assert!(rt; &a.coefficients[..4] == &[192, 1616, 1128, -1010][..]);
    assert!(rt; &a.coefficients[757..] == &[1517, -66, 1990, 1356][..]);
    assert!(rt; checksum(&rq_encode(&a)) == 3_617_342_803);
}

#[test]
fn rounded_element(rt: HostRuntime) {
    let mut bytes = [0; 1007];
    for i in 0..1007 {
        bytes[i] = ((i * i + 3 * i) % 251) as u8;
    }
    let a = rounded_decode(&bytes);
    assert!(rt; &a.coefficients[..4] == &[1389, 285, -276, -204][..]);
    assert!(rt; &a.coefficients[757..] == &[765, -741, -1491, 1113][..]);
    assert!(rt; checksum(&rounded_encode(&a)) == 4_030_667_014);
}
