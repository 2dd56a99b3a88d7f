//! Item 2: both interval codes under a price, once each, or none.

mod sheet;

use sheet::{both, HEAD, RIGHT};

const BEGIN: &str = "DTM+163:1:303'";
const END: &str = "DTM+164:2:303'";

/// The verdicts in both editions where `below` stands behind the first price, which is segment 9.
fn priced(below: &[&str]) -> [(u32, usize, usize); 2] {
    both(&format!("{HEAD}PGI+9'LIN+1++A:Z01'PRI+CAL:1'{}", below.concat()))
}

/// Refused at the interval's node, in both editions.
fn refused(number: u32, segment: usize) -> [(u32, usize, usize); 2] {
    [(number, segment, 21), (number, segment, 19)]
}

#[test]
fn a_pair_or_none() {
    for right in [&[][..], &[BEGIN, END], &[END, BEGIN], &["DTM+1?63:1:303'", END]] {
        assert_eq!(priced(right), [RIGHT, RIGHT], "{right:?}");
        assert_eq!(priced(&[&right.concat(), "LIN+2++B:Z01'PRI+CAL:2'", BEGIN, END]), [RIGHT, RIGHT], "{right:?}");
    }
    assert_eq!(priced(&[BEGIN, END, "PRI+CAL:2'", BEGIN, END]), [RIGHT, (15, 12, 18)]);
}

#[test]
fn one_code_twice() {
    for code in [BEGIN, END] {
        assert_eq!(priced(&[code, code]), refused(25, 11));
        assert_eq!(priced(&[code, code, BEGIN]), refused(25, 11));
        assert_eq!(priced(&[BEGIN, END, "LIN+2++B:Z01'PRI+CAL:2'", code, code]), refused(25, 15));
    }
    for spoilt in ["DTM+163'", "DTM+163:1:610'", "DTM+163:1:303:X'", "DTM+1?63:1:303'"] {
        assert_eq!(priced(&[BEGIN, spoilt]), refused(25, 11), "{spoilt}");
    }
    assert_eq!(priced(&[BEGIN, "DTM+163:\x01:303'"]), [(10, 11, 0); 2]);
    assert_eq!(priced(&[BEGIN, "DTM+163:1:303:\x01'"]), [(10, 11, 0); 2]);
    assert_eq!(priced(&["DTM+163:1'", BEGIN]), refused(17, 10));
}

#[test]
fn a_third() {
    for third in [BEGIN, END, "DTM+163'"] {
        assert_eq!(priced(&[BEGIN, END, third]), refused(15, 12));
        assert_eq!(priced(&[END, BEGIN, third]), refused(15, 12));
    }
}

#[test]
fn one_alone() {
    for code in [BEGIN, END] {
        for closing in ["", "LIN+2++B:Z01'", "LIN+9++A'", "PGI+Z01'"] {
            assert_eq!(priced(&[code, closing]), refused(14, 11), "{closing}");
        }
        assert_eq!(priced(&[code, "PRI+CAL:2'", BEGIN, END]), [(14, 11, 21), (15, 11, 18)]);
        assert_eq!(priced(&[code, "PGI+9'"]), [(15, 11, 15), (15, 11, 14)]);
        for no_node in ["RNG+10+H87:1'", "IMD+C+Z41'", "DTM+165:1:303'", "CUX+2:EUR:8'"] {
            assert_eq!(priced(&[code, no_node]), [(13, 11, 0); 2], "{no_node}");
        }
        assert_eq!(priced(&[BEGIN, END, "LIN+2++B:Z01'PRI+CAL:2'", code]), refused(14, 15));
    }
}
