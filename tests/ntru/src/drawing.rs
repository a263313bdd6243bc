// Worked values.

use sntrup_core::{short_of, small_of};

#[test]
fn elements_of_words(rt: HostRuntime) {
    let mut expected = [0; 761];
    for k in 0..286 {
        expected[k] = -1;
    }
    assert!(rt; short_of(&[0; 761]).coefficients == expected);
    let mut words = [0; 761];
    words[1] = 0x1555_5555;
    words[2] = 0x1555_5556;
    words[3] = 0x3fff_ffff;
    words[4] = 0xc000_0000;
    assert!(rt; &small_of(&words).coefficients[..5] == &[-1, -1, 0, 1, -1][..]);
}
