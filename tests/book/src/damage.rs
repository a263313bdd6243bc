//! Where the damage of tables is found, by rows of an independent implementation.

use crate::tables::{Row, table_of};
use book_store::book_fault;
use dr_base::put;
use hex::decode;
use std::alloc::{AllocError, Global};
use std::test::Fail;

/// A row that is present, one that isn't, and one more, under a table of turn 3.
const ROWS: [Row; 2] = [
    (0, "bob", 4678, &[(0, 1), (3, 1)]),
    (2, "0", 132, &[(0, 1)]),
];

/// The first fault of the table of `ROWS` for a book of so many rows, with these bytes put at
/// their places; nothing where it has none.
fn fault_of(
    alloc: Global,
    rows: u32,
    changes: &[(usize, &str)],
) -> Result<Option<u64>, AllocError> {
    let mut numbers = Vec::with_capacity(alloc, 190)?;
    let Some(mut table) = table_of(alloc, 3, &ROWS)? else {
        return Ok(Some(0));
    };
    for (place, new) in changes {
        match decode(alloc, new) {
            Ok(bytes) => {
                let _end = put(&mut table, *place, &bytes);
            }
            Err(_) => return Ok(Some(0)),
        }
    }
    Ok(book_fault(&table[1..], rows, &mut numbers))
}

#[test]
fn damage_is_found(rt: HostRuntime) -> Result<(), Fail> {
    let rows: [(&[(usize, &str)], u64); 33] = [
        (&[(2, "01")], 2),
        (&[(511, "ff")], 511),
        (&[(512, "00")], 513),
        (&[(512, "02")], 512),
        (&[(512, "ff")], 512),
        (&[(513, "00")], 513),
        (&[(513, "29")], 513),
        (&[(513, "02")], 516),
        (&[(513, "04")], 514),
        (&[(514, "42")], 514),
        (&[(516, "5f")], 514),
        (&[(517, "01")], 517),
        (&[(553, "61")], 553),
        (&[(554, "00000000")], 561),
        (&[(554, "000be001")], 554),
        (&[(554, "ffffffff")], 554),
        (&[(554, "00001000")], 561),
        (&[(558, "0180")], 558),
        (&[(560, "0000")], 560),
        (&[(560, "ffff")], 560),
        (&[(562, "01")], 562),
        (&[(1023, "01")], 1023),
        (&[(1024, "01")], 1025),
        (&[(1033, "01")], 1033),
        (&[(1535, "01")], 1535),
        (&[(1537, "03626f62")], 1538),
        (&[(2048, "01")], 2048),
        (&[(2048, "01016100000000000000000000000000000000000000000000000000000000000000000000000000000000000000")], 2048),
        (&[(2052, "01")], 2052),
        (&[(16895, "01")], 16895),
        (&[(16896, "01")], 16896),
        (&[(20479, "01")], 20479),
        (&[(517, "01"), (1536, "02")], 517),
    ];
    for (changes, at) in rows {
        assert!(rt; fault_of(rt.alloc(), 3, changes)? == Some(at));
    }
    Ok(())
}

// All three rows may be present, and more; two may not, and the damage is where the third is.
#[test]
fn other_numbers_of_rows(rt: HostRuntime) -> Result<(), Fail> {
    let rows: [(u32, Option<u64>); 4] = [(2, Some(1536)), (3, None), (4, None), (32, None)];
    for (count, at) in rows {
        assert!(rt; fault_of(rt.alloc(), count, &[])? == at);
    }
    Ok(())
}
