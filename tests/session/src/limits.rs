//! What each version of a record allows, by rows of an independent implementation.

use crate::filled::{With, filled};
use crate::record::is_damaged;
use crate::versions::has_digest;
use std::alloc::Global;
use std::test::Fail;

/// A version, how many or how long, and where the record is damaged, if it is.
type Row = (u8, u16, Option<usize>);

/// So many kept keys.
const KEPT: [Row; 16] = [
    (1, 256, None),
    (1, 257, Some(126)),
    (1, 512, Some(126)),
    (1, 513, Some(126)),
    (2, 256, None),
    (2, 257, None),
    (2, 512, None),
    (2, 513, Some(126)),
    (3, 256, None),
    (3, 257, None),
    (3, 512, None),
    (3, 513, Some(127)),
    (4, 256, None),
    (4, 257, None),
    (4, 512, None),
    (4, 513, Some(127)),
];

/// The SHA-256 of each of these records.
const KEPT_SHA256: [&str; 16] = [
    "1144b719cc6a8e7d37f2e6e2494feacdd6a35423461568aec3b0ef79485690c7",
    "deff041acb243b1baf92dab2b7ca17e5bb3f2c86e9de3376f7288be61cdadce2",
    "6e99cd7091d3c0ba0aae3db90bf67594927dd957b24bbf9aa73f1a082c0bdcdf",
    "7e8d8341a91869293b400e0cfded87391a761107b8a221cc37de0f0ea9900f41",
    "7a79b77df36f9b85206ef4cf6d46e8d7e81ade74c39bfb14cf884d283c64605b",
    "a793947a35a932e02b0fb2819df949c8f45c0af3143131113a7fa3e3ce5e2c15",
    "98ce56d05e0bf18cd2c6b121616e7a296cceb630d5dd266f981d1d1132c5c2d2",
    "11785e8e6809f8ef5860727b196587b0c111541dda3c8f9771801bf6df2b7425",
    "9791c97c55a3e47a2f7841807f309bb41130b381496ab5b3670c1822846d7dd0",
    "0ae5ce05ec62a678c9b6d968a3be2a9f3b7180f9184c201d0fb4b32e53755faf",
    "0c9ed814588dcf7024e612ec025af1fa43fdeff8e179431068a7606d9372e7b6",
    "be56e546da497e5592090a3aedcaf2ceb1d6d599b763e9414f163a399251ac33",
    "20e125e85acea0322716ba62511d8647750a4923b8f93198eb45bf5144a8649f",
    "97621b2f1b5940d1d28a9b7f8254859a2d6ae7e8df5ab23d72fed5fe6778ff74",
    "c6d42274c33b9105f352a98de85aa116d350bd3c4ed68ffb5676ac9810ebfa8f",
    "80e1a106465ede4879be31716cf08b525c0a14405d230293e2cd1d28a9d96e0c",
];

/// So many texts in an inbox, all empty.
const ENTRIES: [Row; 16] = [
    (1, 64, None),
    (1, 65, Some(128)),
    (1, 128, Some(128)),
    (1, 129, Some(128)),
    (2, 64, None),
    (2, 65, None),
    (2, 128, None),
    (2, 129, Some(128)),
    (3, 64, None),
    (3, 65, None),
    (3, 128, None),
    (3, 129, Some(129)),
    (4, 64, None),
    (4, 65, None),
    (4, 128, None),
    (4, 129, Some(129)),
];

/// The SHA-256 of each of these records.
const ENTRIES_SHA256: [&str; 16] = [
    "f7f00785b8b7511cd57ceb850c471bcf4c621ed7663b6ac625a6022c60fea818",
    "f36adef3e04cace899e8c704ff2039e34edb0f376a3752facadbfa7a9e637b87",
    "9b11a955b2ad292a9e497da7b81c84c5d9f6ca87dcf34856829baa18f4ec0f46",
    "7299c1c8ffe30b79bc4165d472730025a948738bc8f71ed372b6192d67eccb36",
    "6001514d6f73b6f456d7dd529278342397aa4cebdc8f555d32009c38ecbd019d",
    "16bb914f53500c7e0b40bbb176f98eb84ab445bd1d3c07666baba78121e1bf5b",
    "f7539970fb27ed40a249881de336ece80d26a9382614fcc965aab387d77c4b9a",
    "d8ddf951553a8a427d4d72c4b73db85485199966bd093f3145419d24d3d41fb9",
    "abcefa35c2c30c3db4635a1afdbf1c6f498a82ce53fe4552d61cffb1f565ec69",
    "40cadcad8f1b6f358198694d776c027525676ad069d8a610ae1ba69ed839bece",
    "ef5dccaa96c1140cc420d689f79cc61ba8a0a1ecc8de22885052105294d670a9",
    "567bdfeb12e99c4f01bd9757f6612820cff2e4de68a7ce575286f425b8e689bf",
    "90dabf4fb6dbbfeef9c256884a6b09e953fa26958076a94fbf5c37660d842d5a",
    "3758bf9ac8cb969c6891f1fe273a22cfe3ee648b7f7977d1722eecf85f6b647f",
    "2fda135b62a44a91db27f9bba6a955a6e984ff92c1394bfaa814a359b92e461d",
    "9f3348668a30288a205c413199d257a0977cf65a88181299aad60db9a3467b4c",
];

/// One text of so many bytes.
const TEXT: [Row; 16] = [
    (1, 1024, None),
    (1, 1025, Some(137)),
    (1, 4096, Some(137)),
    (1, 4097, Some(137)),
    (2, 1024, None),
    (2, 1025, None),
    (2, 4096, None),
    (2, 4097, Some(137)),
    (3, 1024, None),
    (3, 1025, None),
    (3, 4096, None),
    (3, 4097, Some(138)),
    (4, 1024, None),
    (4, 1025, None),
    (4, 4096, None),
    (4, 4097, Some(139)),
];

/// The SHA-256 of each of these records.
const TEXT_SHA256: [&str; 16] = [
    "05fc41c100ed6e526ffc2349c9a4e0a62d62e040fe88ff25ad9331a38c83ff2d",
    "1c35c822ac0cf2bc8fb0b43024724dab388713354db47416419c06e38065d0c0",
    "94437fe4b48e543377e3d195c62e61da2c1fd045e84c6177373a7d82838dece1",
    "9c19bdff0b31a2cf0a748b4f2353a061015615f6c86c8b1f9bf1ca9e438a2b15",
    "9dc77613204862dd733ce44a2f4703f0b9df33f4d522a55f6cf9954d25ad095f",
    "f1bdc976fd7fb466ba3bfd66c29392e20c220a7afa360acda2c30cafbb0d7823",
    "dce9de380f468ef89fac1f03953d3976cc9600a956ff4e4b5813030c7fb8dcab",
    "1ad0425c4933578ee52cf978575a9821f00341b56f1e0ece448a11c76c21a412",
    "fbc1cfc58ad65203bab4620062d3ac18ac43d988f101bce06ff36d2e63a7a6e3",
    "301015a3ea87a591a219cd45dcd23dad7cdaa5dc8cb2d9f0c4b6ec5edb24377c",
    "3ecdcc8dbb373c83854db2b1f94d9e5016685c94e217e3b40d20caedb9d6afa3",
    "031adf24aeb4ba2a6c387a2bbcdf575eedd868fecd0884dcfc0c6f62fb340f4a",
    "dc4b97c6f0728dc0e7efe26709f41bad848412670c1f4bfc157e4d06b5b0ec27",
    "51a28dbdc78837f8d07bb7cc7225ca51aca6f8a9b542a72ebc117e73c119e148",
    "251e955e54275e7944ac1c037afd357e540b5aa3b0ad414f0264eddc7229c979",
    "853820bea036f3c7497f5a7cf9bb03e43096ebafdd460d06fa33fa8745331550",
];

/// One packet in Second's outbox, of a text of so many bytes.
const PACKET: [Row; 12] = [
    (1, 1024, None),
    (1, 1025, Some(132)),
    (1, 4096, Some(132)),
    (2, 1024, None),
    (2, 1025, None),
    (2, 4096, None),
    (3, 1024, None),
    (3, 1025, None),
    (3, 4096, None),
    (4, 1024, None),
    (4, 1025, None),
    (4, 4096, None),
];

/// The SHA-256 of each of these records.
const PACKET_SHA256: [&str; 12] = [
    "8337d56a8d6a2f1ef3313959ae475ae36688c3057b07bc868bd54536b4885b24",
    "2829d765fa811ff9c4eb5a2a768b400a73a109f33c519550b71e9220dae6db83",
    "ba20a6fb79654d8f83be3291124c848f4a033d306c339e7177c637c1ff8bcae7",
    "1024883f2875f0901d794cccf3549dc6aad8871b4e66d14695217e0853660b4d",
    "518babd2a879d00b0a54c8f5de0af04b4dad8368aaaed2a80a86625034fda56c",
    "07fd360e5da41bb309e86d7627f81d776401d2a7f8a087eb8af1d6dfec0e55b8",
    "4bdebc0811446e677d92c2e1feece537532306a22ba38724ded945aa2d9ae6e0",
    "0d19a39c0d195fb919ed5f83d367f6d313a8745947b7336dbf796110dca96910",
    "91bd102ebc56ceef65610406cfb350f20cb9e7f50fc9591917fe2abfcf5b6766",
    "ed6bd3164082f52a9c9b2f8121814dd427d12521caf8a2f0d7d858e521b7f749",
    "c02b0bf1f65e33f70cf761b53a51b7ab660c5d6a9add675a4f25a0b91a6ef70a",
    "d1cc4f3767de3d44544b6f06a5dcdee2c4d61e2c10dc11706d9bc6d21a69d1d0",
];

/// Whether a row's record has its SHA-256, and its damage.
fn is_as_told(alloc: Global, with: With, row: Row, sha256: &str) -> Result<bool, Fail> {
    let (version, n, at) = row;
    let text = filled(alloc, with, version, n)?;
    Ok(has_digest(alloc, &text, sha256)? && is_damaged(alloc, &text, at)?)
}

/// Whether the record of each row is as told.
fn are_as_told(alloc: Global, with: With, rows: &[Row], sha256: &[&str]) -> Result<bool, Fail> {
    for i in 0..rows.len() {
        let Some(digest) = sha256.get(i) else {
            return Ok(false);
        };
        if !is_as_told(alloc, with, rows[i], digest)? {
            return Ok(false);
        }
    }
    Ok(true)
}

#[test]
fn a_version_limits_what_a_record_holds(rt: HostRuntime) -> Result<(), Fail> {
    assert!(rt; are_as_told(rt.alloc(), With::Kept, &KEPT, &KEPT_SHA256)?);
    assert!(rt; are_as_told(rt.alloc(), With::Entries, &ENTRIES, &ENTRIES_SHA256)?);
    assert!(rt; are_as_told(rt.alloc(), With::Text, &TEXT, &TEXT_SHA256)?);
    assert!(rt; are_as_told(rt.alloc(), With::Packet, &PACKET, &PACKET_SHA256)?);
    Ok(())
}
