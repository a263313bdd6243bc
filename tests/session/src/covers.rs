//! What receipts cover, by rows of an independent implementation.

use crate::receipts::at;
use arrayvec::ArrayVec;
use bodies::{Receipt, is_covered};
use dr_base::Position;

/// Whether a receipt covers exactly these of some positions.
fn covers(bound: Position, listed: &[Position], covered: [bool; 7]) -> bool {
    let waiting = [
        at(0, 1),
        at(0, 2),
        at(0, 3),
        at(2, 1),
        at(2, 2),
        at(4, 1),
        at(4, 7),
    ];
    let mut list = ArrayVec::new();
    for position in listed {
        if !list.is_full() {
            list.push(*position);
        }
    }
    let receipt = Some(Receipt {
        bound,
        listed: list,
    });
    let mut is_right = true;
    for i in 0..7 {
        is_right = is_right && is_covered(&receipt, waiting[i]) == covered[i];
    }
    is_right
}

#[test]
fn covers_what_was_opened(rt: HostRuntime) {
    let (o, x) = (false, true);
    let rows: [(Position, &[Position], [bool; 7]); 11] = [
        (at(0, 0), &[], [o, o, o, o, o, o, o]),
        (at(0, 1), &[], [x, o, o, o, o, o, o]),
        (at(0, 2), &[at(0, 1)], [o, x, o, o, o, o, o]),
        (at(0, 9), &[], [x, x, x, o, o, o, o]),
        (at(2, 1), &[], [x, x, x, x, o, o, o]),
        (at(2, 1), &[at(0, 2), at(2, 1)], [x, o, x, o, o, o, o]),
        (at(2, 0), &[], [x, x, x, o, o, o, o]),
        (
            at(4, 6),
            &[at(0, 1), at(0, 3), at(2, 2)],
            [o, x, o, x, o, x, o],
        ),
        (at(4, 7), &[at(4, 7)], [x, x, x, x, x, x, o]),
        (at(8, 1), &[at(4, 1), at(6, 1)], [x, x, x, x, x, o, x]),
        (at(4294967294, 4294967295), &[], [x, x, x, x, x, x, x]),
    ];
    for (bound, listed, covered) in rows {
        assert!(rt; covers(bound, listed, covered));
    }
    assert!(rt; !is_covered(&None, at(0, 1)));
}
