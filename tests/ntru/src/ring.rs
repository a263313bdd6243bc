//! Worked rows of the ring.
ghost use Rattle.ntru_ring.specs.Reduction.{IsWithin};

use ntru_inverse::{quick_inverse_q, quick_inverse3};
use ntru_ring::{R3, Rq, planes_of, r3_of};
use sntrup_core::short_of;
use std::process::Abort;

fn rounds(rt: &impl Abort, from: i16, to: i16)
    requires from { IsWithin 2295 from }
    requires to { IsWithin 2295 to }
{
    assert!(rt; Rq::monomial(7, from).round() == Rq::monomial(7, to));
}

#[test]
fn rounds_to_multiples_of_three(rt: HostRuntime) {
    rounds(&rt, 1, 0);
    rounds(&rt, 2, 3);
    rounds(&rt, -1, 0);
    rounds(&rt, 2293, 2292);
    rounds(&rt, 2294, 2295);
    rounds(&rt, 2295, 2295);
    rounds(&rt, -2294, -2295);
}

#[test]
fn adds_with_a_wrap(rt: HostRuntime) {
    assert!(rt; Rq::monomial(3, 2295).add(&Rq::monomial(3, 1)) == Rq::monomial(3, -2295));
    assert!(rt; R3::monomial(3, 1).add(&R3::monomial(3, 1)) == R3::monomial(3, -1));
}

#[test]
fn multiplies_powers_of_x(rt: HostRuntime) {
    let top = Rq::monomial(760, 1);
    assert!(rt; Rq::monomial(1, 1).mul(&top) == Rq::monomial(1, 1).add(&Rq::monomial(0, 1)));
    assert!(rt; top.mul(&top) == top.add(&Rq::monomial(759, 1)));
    let small = R3::monomial(760, 1);
    assert!(rt; R3::monomial(1, 1).mul(&small) == R3::monomial(1, 1).add(&R3::monomial(0, 1)));
    assert!(rt; small.mul(&small) == small.add(&R3::monomial(759, 1)));
    assert!(rt; small.lift() == top);
    assert!(rt; small.weight() == 1);
}

#[test]
fn subtracts_and_multiplies_rows(rt: HostRuntime) {
    let mut row = Rq::monomial(0, 2295);
    row.subtract_row(&Rq::monomial(0, 1), -1);
    assert!(rt; row == Rq::monomial(0, -2295));
    let mut last = Rq::monomial(760, 1);
    last.subtract_row(&Rq::monomial(760, 2), 3);
    assert!(rt; last == Rq::monomial(760, -5));
    let x = Rq::monomial(1, 1);
    let sum = x.add(&Rq::monomial(0, 1));
    assert!(rt; x.mul_plain(&Rq::monomial(760, 1)) == sum);
    assert!(rt; x.mul_small(&planes_of(&R3::monomial(760, 1))) == sum);
    let minus_x = planes_of(&R3::monomial(1, -1));
    assert!(rt; Rq::monomial(760, 2295).mul_small(&minus_x) == sum.scale(-2295));
}

#[test]
fn keeps_two_bits_for_each_coefficient(rt: HostRuntime) {
    let g = R3::monomial(760, 1).add(&R3::monomial(0, -1));
    let planes = planes_of(&g);
    assert!(rt; planes.nonzero[0] == 1);
    assert!(rt; planes.nonzero[11] == 1 << 56);
    assert!(rt; planes.negative[0] == 1);
    assert!(rt; planes.negative[11] == 0);
    assert!(rt; r3_of(&planes) == g);
    assert!(rt; r3_of(&planes.shift()) == R3::monomial(0, 1));
    assert!(rt; r3_of(&planes.add(&planes)) == R3::monomial(760, -1).add(&R3::monomial(0, 1)));
    assert!(rt; planes.sub(&planes) == planes_of(&R3::zero()));
    assert!(rt; planes.at(760) == 1);
}

#[test]
fn finds_inverses_the_short_way(rt: HostRuntime) {
    for place in 1..4 {
        let g = R3::monomial(place, 1).add(&R3::monomial(0, 1));
        assert!(rt; quick_inverse3(&g).is_some());
        assert!(rt; quick_inverse_q(&g.lift()).is_some());
    }
}

// 761 words without a pattern.
fn words_of(seed: u32) -> [u32; 761] {
    let mut words = [0; 761];
    let mut state = seed.wrapping_mul(2654435761);
    for k in 0..761 {
        state = state.wrapping_mul(1664525).wrapping_add(1013904223);
        let high = state >> 16;
        state = state.wrapping_mul(1664525).wrapping_add(1013904223);
        words[k] = high << 16 | state >> 16;
    }
    words
}

// Whether short elements that are drawn have inverses that are found the short way.
fn finds_each(count: u32) -> bool {
    for seed in 0..count {
        if quick_inverse_q(&short_of(&words_of(seed)).lift()).is_none() {
            return false;
        }
    }
    true
}

#[test]
fn finds_each_drawn_inverse_the_short_way(rt: HostRuntime) {
    assert!(rt; finds_each(200));
}

// Whether the inverse of an element is found the short way, and is right.
fn finds(f: &Rq) -> bool {
    match quick_inverse_q(f) {
        Some(inverse) => f.mul_plain(&inverse) == Rq::monomial(0, 1),
        None => false,
    }
}

#[test]
fn finds_inverses_of_sparse_elements(rt: HostRuntime) {
    let one = Rq::monomial(0, 1);
    let of_x = Rq::monomial(760, 1).add(&Rq::monomial(0, -1));
    assert!(rt; quick_inverse_q(&one) == Some(one));
    assert!(rt; quick_inverse_q(&Rq::monomial(1, 1)) == Some(of_x));
    for place in [2, 63, 380, 759, 760] {
        let power = Rq::monomial(place, 1);
        assert!(rt; finds(&power));
        assert!(rt; finds(&power.add(&one)));
        assert!(rt; finds(&power.add(&Rq::monomial(place / 2, -2295))));
    }
    assert!(rt; quick_inverse_q(&Rq::zero()).is_none());
}
