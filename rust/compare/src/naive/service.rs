//! The service characters of a delivery, sentence by sentence from item 6.

use std::collections::HashSet;

use plain::Reading;

use super::cut::behind_breaks;

/// In UNA's order.
#[derive(Clone, Copy)]
pub struct Service {
    pub component: u8,
    pub element: u8,
    pub mark: u8,
    pub release: u8,
    pub terminator: u8,
}

/// The bytes that a segment may hold.
pub fn is_allowed(byte: u8) -> bool {
    matches!(byte, 32..=126 | 160..=255)
}

/// "Distinct, allowed bytes, and no ASCII letter, digit, blank or minus."
fn can_be_used(five: &[u8]) -> bool {
    let is_distinct = five.iter().collect::<HashSet<_>>().len() == 5;
    let is_excluded = |byte: &u8| matches!(byte, b'A'..=b'Z' | b'a'..=b'z' | b'0'..=b'9' | b' ' | b'-');
    is_distinct && five.iter().copied().all(is_allowed) && !five.iter().any(is_excluded)
}

/// 1, 2, or where the first segment or the breaks before it begin, with the characters: UNA's, or those handed in if there is none.
pub fn front(reading: Reading, d: &[u8]) -> Result<(usize, Service), u32> {
    if d.len() > 1_048_576 {
        return Err(1);
    }
    let begin = behind_breaks(reading, d, 0);
    let rest = &d[begin..];
    let (front, five) = if !rest.starts_with(b"UNA") {
        (0, reading.characters.to_vec())
    } else if rest.len() < 9 || rest[7] != b' ' {
        return Err(2);
    } else {
        (begin + 9, [&rest[3..7], &rest[8..9]].concat())
    };
    if !can_be_used(&five) {
        return Err(2);
    }
    Ok((front, Service { component: five[0], element: five[1], mark: five[2], release: five[3], terminator: five[4] }))
}
