//! Values of an independent implementation.

use crate::vectors::{CIPHERTEXT, PUBLIC, SECRET};
use dr_base::{Key32, array_at};
use kem_laws::Kem;
use sha2::{Digest, Sha512};
use sntrup761::Sntrup761;
use std::test::Fail;

// Hash_b of two texts, by its first 32 bytes.
fn hash_of(b: u8, first: &[u8], second: &[u8]) -> [u8; 32] {
    let mut hasher = Sha512::new();
    hasher.update(&[b]);
    hasher.update(first);
    hasher.update(second);
    array_at(&hasher.finalize(), 0)
}

#[test]
fn changed_last_bytes(rt: HostRuntime) -> Result<(), Fail> {
    let mut work = Sntrup761::work(rt.alloc())?;
    let mut public = [0; 1158];
    let mut secret = [0; 1763];
    let mut ciphertext = [0; 1039];
    let seed = Key32 { bytes: [0; 32] };
    let other = Key32 { bytes: [1; 32] };
    assert!(rt; Sntrup761::pair(&mut work, &seed, &mut public, &mut secret).is_ok());
    assert!(rt; Sntrup761::is_secret(&secret).is_ok());
    Sntrup761::encap(&mut work, &public, &other, &mut ciphertext);
    assert!(rt; public == *PUBLIC);
    assert!(rt; secret == *SECRET);
    assert!(rt; ciphertext == *CIPHERTEXT);
    let rho = hash_of(3, &array_at::<191>(&secret, 1540), b"");
    for change in 1..=255u8 {
        let mut changed = ciphertext;
        changed[1038] ^= change;
        let key = Sntrup761::decap(&mut work, &secret, &changed);
        assert!(rt; key.bytes == hash_of(0, &rho, &changed));
    }
    Ok(())
}
