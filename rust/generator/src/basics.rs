//! What faults of all kinds need: a segment by chance, the count put right again, and the fault that every message can have.

use crate::random::Random;
use crate::sheet::Segment;

pub fn any(random: &mut Random, all: &[Segment]) -> usize {
    random.below(all.len())
}

/// A segment with one of these tags, if there is one.
pub fn one_of(random: &mut Random, all: &[Segment], tags: &[&str]) -> Option<usize> {
    let found: Vec<usize> = (0..all.len()).filter(|&at| tags.contains(&all[at].tag)).collect();
    (!found.is_empty()).then(|| found[random.below(found.len())])
}

/// UNT's count put right again, so that the other fault is the only one.
pub fn recount(all: &mut [Segment]) {
    let count = all.len().to_string().into_bytes();
    if let Some(last) = all.last_mut() {
        *last.at(1, 1) = count;
    }
}

/// UNT with a count or reference that is not the message's.
pub fn wrong_end(random: &mut Random, all: &mut [Segment]) {
    let count = all.len();
    let last = all.last_mut().expect("a message ends with UNT");
    match random.below(8) {
        0 => *last.at(1, 1) = (count + 1).to_string().into_bytes(),
        1 => *last.at(1, 1) = (count - 1).to_string().into_bytes(),
        2 => last.at(1, 1).insert(0, b'0'),
        3 => last.at(1, 1).insert(0, b'-'),
        4 => last.at(1, 1).extend_from_slice(b".0"),
        5 => last.at(2, 1).push(b'0'),
        6 => last.at(2, 1).make_ascii_lowercase(),
        _ => last.at(2, 1).insert(0, b'X'),
    }
}
