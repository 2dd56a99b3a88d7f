//! Faults at the interval of a price: one of its two codes alone, one twice, a third. The message is counted right again.

use crate::basics::{recount, wrong_end};
use crate::random::Random;
use crate::sheet::{interval, Segment};

/// Another interval in place of the one that a price has or has not, now and then with one more fault at its end or behind it.
pub fn wrong_interval(random: &mut Random, all: &mut Vec<Segment>) {
    let prices = first_kind_prices(all);
    if prices.is_empty() {
        return wrong_end(random, all);
    }
    let price = prices[random.below(prices.len())];
    let codes: &[&str] = match random.below(8) {
        0..=3 => random.pick(&[&["163"][..], &["164"]]),
        4..=5 => random.pick(&[&["163", "163"][..], &["164", "164"]]),
        6 => random.pick(&[&["163", "163", "164"][..], &["164", "164", "164"]]),
        _ => random.pick(&[&["163", "164", "163"][..], &["164", "163", "163"]]),
    };
    let mut wrong: Vec<Segment> = codes.iter().map(|code| interval(random, code)).collect();
    if random.once_in(6) {
        spoil(random, wrong.last_mut().expect("an interval"));
    }
    if random.once_in(6) {
        wrong.push(behind(random));
    }
    let from = price + 1 + run(all, price + 1, "RNG");
    let to = from + run(all, from, "DTM");
    all.splice(from..to, wrong);
    recount(all);
}

/// The second kind has no interval.
fn first_kind_prices(all: &[Segment]) -> Vec<usize> {
    let mut is_first = false;
    let mut prices = Vec::new();
    for (at, segment) in all.iter().enumerate() {
        match segment.tag {
            "PGI" => is_first = segment.get(1, 1) == b"9",
            "PRI" if is_first => prices.push(at),
            _ => {}
        }
    }
    prices
}

fn run(all: &[Segment], from: usize, tag: &str) -> usize {
    all[from..].iter().take_while(|segment| segment.tag == tag).count()
}

/// A fault that comes before or after those of the interval as a whole.
fn spoil(random: &mut Random, segment: &mut Segment) {
    match random.below(5) {
        0 => segment.at(1, 2).clear(),
        1 => *segment.at(1, 3) = b"610".to_vec(),
        2 => *segment.at(1, 4) = b"X".to_vec(),
        3 => *segment.at(1, 2) = vec![b'2'; 36],
        _ => segment.at(1, 2).push(31),
    }
}

/// What ends the price and may itself be refused.
fn behind(random: &mut Random) -> Segment {
    Segment::raw(random.pick(&[
        &b"PRI+CAL:1'"[..],
        b"PRI+CAL:X'",
        b"PGI+9'",
        b"PGI+Z01'",
        b"RNG+10+H87:1'",
        b"IMD+C+Z41'",
        b"DTM+137:1:303'",
        b"LIN'",
        b"UNZ+1+1'",
    ]))
}
