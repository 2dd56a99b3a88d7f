//! One fault in a right message. Each refusal number has several ways; a way may now and then miss, which is no harm:
//! the readers decide what the message gets.

use crate::basics::{any, one_of, recount, wrong_end};
use crate::differences::{description, only_in_one, other_edition, second_price, unknown_edition};
use crate::intervals::wrong_interval;
use crate::random::Random;
use crate::sheet::{exact_text, Segment};

/// The numbers a fault can be made for. 12 needs the end of the delivery.
pub const FAULTS: [u32; 14] = [10, 11, 13, 14, 15, 17, 18, 19, 20, 21, 22, 23, 24, 25];

pub fn damage(random: &mut Random, all: &mut Vec<Segment>, number: u32) {
    match number {
        10 => byte_not_allowed(random, all),
        11 => wrong_tag(random, all),
        13 => wrong_place(random, all),
        14 => leave_out(random, all),
        15 => repeat(random, all),
        17 => empty(random, all),
        18 => fill(random, all),
        19 => misform(random, all),
        20 => wrong_code(random, all),
        21 => wrong_end(random, all),
        22 => wrong_number(random, all),
        23 => agree(random, all),
        25 => wrong_interval(random, all),
        _ => no_end(random, all),
    }
}

fn written(random: &mut Random, segment: &Segment) -> Vec<u8> {
    let mut bytes = Vec::new();
    segment.write(random, 0, &mut bytes);
    bytes
}

fn byte_not_allowed(random: &mut Random, all: &mut [Segment]) {
    let at = any(random, all);
    let mut bytes = written(random, &all[at]);
    // A fault in the tag of UNH or UNT would change the message itself, so that comes less often.
    let least = if random.once_in(4) { 0 } else { 3 };
    let place = random.between(least, bytes.len() - 1);
    let byte = random.pick(&[&0u8, &9, &10, &13, &31, &127, &128, &159]);
    match random.below(4) {
        0 => bytes[place] = *byte,
        1 => drop(bytes.splice(place..place, [b'?', *byte])),
        _ => bytes.insert(place, *byte),
    }
    all[at].raw = Some(bytes);
}

fn wrong_tag(random: &mut Random, all: &mut Vec<Segment>) {
    if random.once_in(5) {
        let at = random.between(1, all.len());
        let raw = random.pick(&[&b"'"[..], b"A'", b"AB'", b"\xc4\xd6\xdc+1'", b"A1B+1'", b"?'AB'", b"ABC:'", b"ab'", b"+'"]);
        return all.insert(at, Segment::raw(raw));
    }
    let at = any(random, all);
    let mut bytes = written(random, &all[at]);
    match random.below(6) {
        0 => bytes[2] = bytes[2].to_ascii_lowercase(),
        1 => bytes.insert(3, b'X'),
        2 => bytes.insert(3, b'?'),
        3 => bytes[3] = b':',
        4 => drop(bytes.remove(random.below(3))),
        _ => bytes[random.below(3)] = *random.pick(&[&b'1', &b' ', &b'+', &b'a', &b'?', &b'\'']),
    }
    all[at].raw = Some(bytes);
}

fn wrong_place(random: &mut Random, all: &mut Vec<Segment>) {
    match random.below(8) {
        0 => {
            let at = random.between(1, all.len() - 1);
            all.insert(at, Segment::raw(random.pick(&[&b"FTX+AAA'"[..], b"UNB+UNOC'", b"QTY+1'", b"UNA:+.? '", b"ABC'"])));
        }
        1 => {
            if let Some(at) = one_of(random, all, &["DTM", "RFF", "NAD", "PGI"]) {
                *all[at].at(1, 1) = random.pick(&[&b""[..], b"XX", b"163", b"Z13", b"z01", b"MR", b"10", b"137"]).to_vec();
            }
        }
        2 => {
            let (one, other) = (random.between(1, all.len() - 1), random.between(1, all.len() - 1));
            all.swap(one, other);
        }
        3 => {
            let (from, to) = (any(random, all).max(1), random.between(1, all.len() - 1));
            let moved = all.remove(from);
            all.insert(to.min(all.len()), moved);
        }
        4 => other_edition(random, all),
        5..=6 => only_in_one(random, all),
        _ => {
            let (from, to) = (any(random, all).max(1), random.between(1, all.len()));
            let copy = all[from].clone();
            all.insert(to, copy);
        }
    }
}

fn leave_out(random: &mut Random, all: &mut Vec<Segment>) {
    if random.once_in(2) {
        return wrong_interval(random, all);
    }
    let tags: &[&str] = random.pick(&[&["BGM"][..], &["DTM"], &["RFF"], &["NAD"], &["COM"], &["LIN"], &["PRI"], &["PRI", "LIN"]]);
    let Some(at) = one_of(random, all, tags) else {
        drop(all.remove(random.between(1, 5.min(all.len() - 2))));
        return;
    };
    let tag = all[at].tag;
    if random.once_in(2) {
        drop(all.remove(at));
    } else {
        // A run of them, as in CTA without any COM.
        let end = (at..all.len()).find(|&end| all[end].tag != tag).unwrap_or(all.len());
        let begin = (0..at).rev().find(|&begin| all[begin].tag != tag).map_or(0, |begin| begin + 1);
        all.drain(begin..end);
    }
}

fn repeat(random: &mut Random, all: &mut Vec<Segment>) {
    if random.once_in(4) {
        return second_price(random, all);
    }
    let at = random.between(1, all.len() - 2);
    let times = match all[at].tag {
        "COM" => random.between(1, 6),
        "PRI" => *random.pick(&[&1, &99, &100, &101]),
        "DTM" => random.between(1, 3),
        _ => 1,
    };
    for _ in 0..times {
        let copy = all[at].clone();
        all.insert(at, copy);
    }
}

/// A component that stands, with its element, both from 1.
fn standing(random: &mut Random, segment: &Segment) -> Option<(usize, usize)> {
    let found: Vec<(usize, usize)> = segment
        .elements
        .iter()
        .enumerate()
        .flat_map(|(element, parts)| (1..=parts.len()).map(move |component| (element + 1, component)))
        .filter(|&(element, component)| !segment.get(element, component).is_empty())
        .collect();
    (!found.is_empty()).then(|| found[random.below(found.len())])
}

fn empty(random: &mut Random, all: &mut Vec<Segment>) {
    if random.once_in(3) {
        return description(random, all);
    }
    let at = any(random, all);
    let Some((element, component)) = standing(random, &all[at]) else { return };
    match random.below(4) {
        0 => all[at].elements.truncate(element - 1),
        1 => all[at].elements[element - 1].truncate(component - 1),
        _ => all[at].at(element, component).clear(),
    }
}

fn fill(random: &mut Random, all: &mut Vec<Segment>) {
    if random.once_in(4) {
        return description(random, all);
    }
    let at = any(random, all);
    let segment = &mut all[at];
    let (element, component) = match random.below(4) {
        0 => (segment.elements.len() + random.between(1, 3), random.between(1, 2)),
        1 => {
            let element = random.between(1, segment.elements.len().max(1));
            (element, segment.elements.get(element - 1).map_or(0, Vec::len) + random.between(1, 3))
        }
        _ => (random.between(1, 6), random.between(1, 7)),
    };
    if segment.get(element, component).is_empty() {
        *segment.at(element, component) = random.pick(&[&b"X"[..], b"1", b"303", b"?", b"ANN", b"11"]).to_vec();
    }
}

/// Numbers that a format refuses, and some that stand at its limit.
const NUMBERS: [&[u8]; 29] = [
    b".",
    b".5",
    b"5.",
    b"-",
    b"-.5",
    b"1.2.3",
    b"1,5",
    b" 1",
    b"1 ",
    b"+1",
    b"1e5",
    b"--1",
    b"1-",
    b"-5.",
    b"1234567890123456",
    b"123456789012345",
    b"1234567890",
    b"123456789",
    b"0000000",
    b"000001",
    b"-123456.7890123",
    b"1234567890123456789",
    b"123456789012345678",
    b"27001.",
    b"2700",
    b"270011",
    b"-27001",
    b"27.001",
    b"A",
];

fn misform(random: &mut Random, all: &mut [Segment]) {
    if random.once_in(2) {
        let Some(at) = one_of(random, all, &["LIN", "PRI", "RNG", "UNT", "RFF"]) else { return };
        let (element, component) = match all[at].tag {
            "PRI" => (1, *random.pick(&[&2, &2, &5])),
            "RNG" => (2, random.between(2, 3)),
            "RFF" => (1, 2),
            _ => (1, 1),
        };
        *all[at].at(element, component) = random.pick(&NUMBERS).to_vec();
        return;
    }
    let at = any(random, all);
    let Some((element, component)) = standing(random, &all[at]) else { return };
    let length = *random.pick(&[&4, &5, &7, &9, &15, &18, &35, &36, &70, &71, &256, &257, &512, &513, &600]);
    let is_rich = random.once_in(2);
    *all[at].at(element, component) = exact_text(random, length, is_rich);
}

fn wrong_code(random: &mut Random, all: &mut [Segment]) {
    if random.once_in(4) {
        return unknown_edition(random, all);
    }
    let at = any(random, all);
    let Some((element, component)) = standing(random, &all[at]) else { return };
    let part = all[at].at(element, component);
    match random.below(4) {
        0 => part.make_ascii_lowercase(),
        1 => {
            let place = random.below(part.len());
            part[place] = *random.pick(&[&b'0', &b'1', &b'Z', &b'X', &b'9', &b' ']);
        }
        2 => drop(part.pop()),
        _ => *part = random.pick(&[&b"Z01"[..], b"Z09", b"Z04", b"KWH", b"H87", b"303", b"610", b"10", b"9", b"2.0c", b"1"]).to_vec(),
    }
}

fn wrong_number(random: &mut Random, all: &mut [Segment]) {
    let Some(at) = one_of(random, all, &["LIN"]) else { return wrong_end(random, all) };
    let part = all[at].at(1, 1);
    match random.below(6) {
        0 => part.insert(0, b'0'),
        1 => part.insert(0, b'-'),
        2 => part.extend_from_slice(b".0"),
        3 => part.push(b'0'),
        4 => *part = b"0".to_vec(),
        _ => *part = random.between(1, 9).to_string().into_bytes(),
    }
}

/// A LIN with the PIA and IMD behind it.
fn position(all: &[Segment], at: usize) -> usize {
    1 + all[at + 1..].iter().take_while(|segment| segment.tag == "PIA" || segment.tag == "IMD").count()
}

/// One position is made to agree with another, or nearly so.
fn agree(random: &mut Random, all: &mut Vec<Segment>) {
    let lins: Vec<usize> = (0..all.len()).filter(|&at| all[at].tag == "LIN").collect();
    if lins.len() < 2 {
        return wrong_end(random, all);
    }
    let one = lins[random.below(lins.len() - 1)];
    let later: Vec<usize> = lins.into_iter().filter(|&at| at > one).collect();
    let other = later[random.below(later.len())];
    let number = all[other].get(1, 1).to_vec();
    let mut copy: Vec<Segment> = all[one..one + position(all, one)].to_vec();
    *copy[0].at(1, 1) = number;
    match random.below(6) {
        0 if copy.len() > 1 => drop(copy.pop()),
        1 => *copy[0].at(3, 1) = b"S".to_vec(),
        2 => copy[0].at(3, 1).push(b'?'),
        _ => {}
    }
    let old = position(all, other);
    all.splice(other..other + old, copy);
    recount(all);
}

fn no_end(random: &mut Random, all: &mut Vec<Segment>) {
    match random.below(4) {
        0 => *all.last_mut().expect("a message ends with UNT") = Segment::raw(random.pick(&[&b"UNZ+1+1'"[..], b"UNZ'", b"UNZX'"])),
        1 => all.truncate(random.between(1, all.len() - 1)),
        _ => drop(all.pop()),
    }
}
