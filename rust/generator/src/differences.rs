//! Faults at what the two editions do not share. The message is counted right again, so that one edition takes what the
//! other refuses.

use crate::basics::{one_of, recount};
use crate::random::Random;
use crate::sheet::{exact_text, Segment};

/// RFF/Z56 among the references, or RNG behind a price: both kinds of price, since one takes it in either edition.
pub fn only_in_one(random: &mut Random, all: &mut Vec<Segment>) {
    let tag = random.pick(&["RFF", "PRI"]);
    let Some(at) = one_of(random, all, &[tag]) else { return other_edition(random, all) };
    if tag == "RFF" {
        all.insert(at + random.below(2), Segment::new("RFF", &[&[b"Z56", &exact_text(random, 13, false)]]));
    } else {
        let unit = random.pick(&["H87", "DAY", "KWH"]);
        all.insert(at + 1, Segment::new("RNG", &[&[b"10"], &[unit.as_bytes(), b"0", b"12000"]]));
    }
    recount(all);
}

pub fn second_price(random: &mut Random, all: &mut Vec<Segment>) {
    let Some(at) = one_of(random, all, &["PRI"]) else { return other_edition(random, all) };
    all.insert(at, Segment::new("PRI", &[&[b"CAL", b"1.50"]]));
    recount(all);
}

/// An IMD whose optional composite has, lacks or does not need its text.
pub fn description(random: &mut Random, all: &mut Vec<Segment>) {
    let composite: &[&[u8]] = random.pick(&[
        &[][..],
        &[b"Z08"],
        &[b"Z11", b"", b"", b""],
        &[b"Z09", b"", b"", b"Text"],
        &[b"", b"", b"", b"Text"],
        &[b"", b"", b"", b"", b""],
        &[b"", b"", b"", b"", b"X"],
        &[b"", b"", b"", b"", b"", b"X"],
        &[b"Z10", b"", b"", b"", b"X"],
        &[b"", b"", b"", b"Text", b"X"],
        &[b"Z08", b"X"],
        &[b"", b"", b"X"],
    ]);
    let segment = Segment::new("IMD", &[&[b"X"], &[b"Z41"], composite]);
    if let Some(at) = one_of(random, all, &["IMD"]) {
        all[at] = segment;
    } else if let Some(at) = one_of(random, all, &["LIN"]) {
        let has_stem = all.get(at + 1).is_some_and(|next| next.tag == "PIA");
        all.insert(at + 1 + has_stem as usize, segment);
        recount(all);
    }
}

/// The message stays as it is, but names the other edition.
pub fn other_edition(random: &mut Random, all: &mut [Segment]) {
    let Some(at) = one_of(random, all, &["UNH"]) else { return };
    let named = all[at].at(2, 5);
    *named = if named == b"2.0c" { b"2.0d".to_vec() } else { b"2.0c".to_vec() };
}

pub fn unknown_edition(random: &mut Random, all: &mut [Segment]) {
    let Some(at) = one_of(random, all, &["UNH"]) else { return };
    let named = random.pick(&["2.0e", "2.0b", "2.0", "2.0C", "2.0cd", "2.0c ", "2,0c", "1.3a", "c", "2.0c??", "2.0c   "]);
    *all[at].at(2, 5) = named.as_bytes().to_vec();
}
