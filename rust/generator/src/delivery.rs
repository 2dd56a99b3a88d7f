//! Whole deliveries: messages right and damaged, what stands outside, UNA, pieces, sizes on both sides of the limit.

use crate::breaks::lay_out;
use crate::damage::{damage, FAULTS};
use crate::edition::Edition;
use crate::foreign::{addressed, Delivery};
use crate::kinds::dense;
use crate::random::Random;
use crate::sheet::{message, Shape};

/// The longest delivery that is admitted.
pub const LIMIT: usize = 1_048_576;

/// The delivery of a seed, nearly half of them with line breaks, a third with other service characters.
pub fn delivery(seed: u64) -> Delivery {
    let random = &mut Random::new(seed);
    let d = usual_delivery(random);
    addressed(random, d)
}

fn usual_delivery(random: &mut Random) -> Vec<u8> {
    let d = one_line(random);
    if random.below(20) >= 9 {
        return d;
    }
    let mut d = lay_out(random, d);
    if d.len() > LIMIT {
        d.truncate(LIMIT + random.pick(&[&0, &0, &1, &500]) - random.below(3));
    }
    d
}

fn one_line(random: &mut Random) -> Vec<u8> {
    let mut d = Vec::new();
    front(random, &mut d);
    match random.below(1000) {
        0 => large(random, &mut d),
        1..=2 => near_the_limit(random, &mut d),
        3..=5 => {
            let most = random.between(500, 20_000);
            dense(random, most, &mut d)
        }
        6..=15 => many(random, &mut d),
        16..=130 => noise(random, &mut d),
        131..=150 => {
            let mut bytes = Vec::new();
            mixed(random, &mut bytes);
            bytes.truncate(random.below(bytes.len() + 1));
            d.append(&mut bytes);
        }
        151..=300 => {
            mixed(random, &mut d);
            scratch(random, &mut d);
        }
        _ => mixed(random, &mut d),
    }
    if random.once_in(40) {
        return d;
    }
    end(random, &mut d);
    d
}

fn front(random: &mut Random, d: &mut Vec<u8>) {
    match random.below(40) {
        0..=9 => d.extend_from_slice(b"UNA:+.? '"),
        10 => d.extend_from_slice(random.pick(&[
            &b"UNA:+,? '"[..],
            b"UNA:+.?  ",
            b"UNA+:.? '",
            b"UNA'",
            b"UNA",
            b"UNA:+.? ",
            b"UNA:+.?*'",
            b"UNAUNH+1'",
            b"UNB:+.? '",
        ])),
        _ => {}
    }
}

/// What may stand between messages, and what looks like a beginning or an end of one.
fn outside(random: &mut Random, d: &mut Vec<u8>) {
    if !random.once_in(4) {
        return;
    }
    for _ in 0..random.between(1, 3) {
        d.extend_from_slice(random.pick(&[
            &b"UNB+UNOC:3+1:14+2:14+240619:0800+1'"[..],
            b"UNZ+1+1'",
            b"UNT+7+1'",
            b"'",
            b"U?NH+1+PRICAT:D:20B:UN:2.0d'",
            b" UNH+1'",
            b"UNA:+.? '",
            b"A?'UNH+1'",
            b"\r\n'",
            b"UN'",
            b"??'",
            b"UNZX'",
            b"unh+1'",
            b"BGM+Z32+A1'",
        ]));
    }
}

/// A last part without its terminator, or a terminator taken away.
fn end(random: &mut Random, d: &mut Vec<u8>) {
    match random.below(30) {
        0 => d.extend_from_slice(random.pick(&[
            &b"UNH"[..],
            b"UNZ",
            b"UNT",
            b"U",
            b"UN",
            b"?",
            b"??",
            b"?'",
            b"A?",
            b"UNH+1",
            b"UNT+7+1",
            b"\r\n",
            b"\x00",
            b"BGM+",
        ])),
        1 => drop(d.pop()),
        2 => {
            let last = d.len().saturating_sub(1);
            d.insert(last, b'?');
        }
        3 => d.truncate(d.len() - random.below(d.len().min(40) + 1)),
        _ => {}
    }
}

fn shape(random: &mut Random) -> Shape {
    let positions = match random.below(20) {
        0..=3 => 0,
        4..=14 => random.between(1, 4),
        15..=18 => random.between(5, 20),
        _ => random.between(20, 120),
    };
    let releases = if random.once_in(3) { random.between(3, 30) } else { 0 };
    Shape { edition: Edition::any(random), positions, releases, is_rich: !random.once_in(4), is_z04: random.once_in(8) }
}

/// One message, right or damaged.
fn one_message(random: &mut Random, shape: Shape, is_damaged: bool, d: &mut Vec<u8>) {
    let mut all = message(random, shape);
    if is_damaged {
        // Two faults now and then, since the order of refusals decides between them. The first leaves all segments.
        if random.once_in(5) {
            let number = *random.pick(&[&17, &18, &19, &20, &22]);
            damage(random, &mut all, number);
        }
        let number = *random.pick(&FAULTS.each_ref());
        damage(random, &mut all, number);
    }
    // Now and then UNH is full of releases, so that the edition is spelled with some.
    let in_unh = if random.once_in(12) { 2 } else { shape.releases };
    for (at, segment) in all.iter().enumerate() {
        segment.write(random, if at == 0 { in_unh } else { shape.releases }, d);
    }
}

fn mixed(random: &mut Random, d: &mut Vec<u8>) {
    outside(random, d);
    for _ in 0..random.between(0, 6) {
        let (shape, is_damaged) = (shape(random), random.below(20) < 11);
        one_message(random, shape, is_damaged, d);
        outside(random, d);
    }
}

fn many(random: &mut Random, d: &mut Vec<u8>) {
    for _ in 0..random.between(20, 200) {
        let edition = Edition::any(random);
        let shape = Shape { edition, positions: random.below(3), releases: 0, is_rich: false, is_z04: random.once_in(10) };
        let is_damaged = random.once_in(4);
        one_message(random, shape, is_damaged, d);
    }
}

/// Bytes without a plan, most of them separators and pieces of segments.
fn noise(random: &mut Random, d: &mut Vec<u8>) {
    for _ in 0..random.below(60) {
        match random.below(10) {
            0 => d.push(random.word() as u8),
            1 => d.extend_from_slice(random.pick(&[
                &b"UNH+1+PRICAT:D:20B:UN:2.0d'"[..],
                b"UNH+1+PRICAT:D:20B:UN:2.0c'",
                b"UNH+1+PRICAT:D:20B:UN:2.0?c'",
                b"UNH+1+PRICAT:D:20B:UN'",
            ])),
            2 => d.extend_from_slice(random.pick(&[&b"UNH"[..], b"UNT", b"UNZ", b"'UNH", b"'UNT", b"'UNZ", b"UNA", b"?'UNH"])),
            3 => d.extend_from_slice(random.pick(&[
                &b"BGM+Z32+A1'"[..],
                b"DTM+137:1:303'",
                b"RFF+Z13:27002'",
                b"NAD+MR+1::9'",
                b"NAD+MS+2::9'",
                b"UNT+7+1'",
                b"PGI+9'",
                b"PGI+Z01'",
                b"LIN+1++A:Z09'",
                b"PRI+CAL:1'",
                b"UNT+2+1'",
                b"UNT+3+1'",
                b"CTA+IC+:N'",
                b"COM+1:TE'",
                b"RFF+Z56:1'",
                b"RNG+10+H87:1'",
                b"IMD+C+Z41+Z08'",
            ])),
            4..=7 => d.push(*random.pick(&[&b'\'', &b'+', &b':', &b'?', &b'\'', &b'?'])),
            _ => d.push(*random.pick(&[&b'A', &b'1', &b'U', &b'N', &b'H', &b'T', &b'Z', &b' '])),
        }
    }
}

/// A few bytes changed, added or taken away anywhere.
fn scratch(random: &mut Random, d: &mut Vec<u8>) {
    for _ in 0..random.between(1, 3) {
        if d.is_empty() {
            return;
        }
        let at = random.below(d.len());
        let byte = if random.once_in(3) { random.word() as u8 } else { *random.pick(&[&b'\'', &b'+', &b':', &b'?', &b'0', &b'U']) };
        match random.below(3) {
            0 => d[at] = byte,
            1 => d.insert(at, byte),
            _ => drop(d.remove(at)),
        }
    }
}

/// Large messages with hundreds of positions, sometimes with one fault.
fn large(random: &mut Random, d: &mut Vec<u8>) {
    for _ in 0..random.between(1, 3) {
        let shape = Shape {
            edition: Edition::any(random),
            positions: random.between(100, 1200),
            releases: 0,
            is_rich: random.once_in(2),
            is_z04: random.once_in(4),
        };
        let is_damaged = random.once_in(3);
        one_message(random, shape, is_damaged, d);
    }
}

/// A right message with nothing in it that may be left out.
const SMALLEST: &[u8] = b"UNH+1+PRICAT:D:20B:UN:2.0d'BGM+Z32+1'DTM+137:1:303'RFF+Z13:27002'NAD+MR+1::9'NAD+MS+1::9'UNT+7+1'";

/// A delivery filled up to the limit, just short of it, or just past it.
fn near_the_limit(random: &mut Random, d: &mut Vec<u8>) {
    mixed(random, d);
    let size = LIMIT + *random.pick(&[&0, &1, &2, &9, &1000]) - *random.pick(&[&0, &0, &1, &2, &9]);
    if random.once_in(2) {
        let room = size.saturating_sub(d.len());
        dense(random, room.min(LIMIT), d);
    }
    let mut filler = Vec::new();
    for _ in 0..4 {
        mixed(random, &mut filler);
    }
    if filler.is_empty() || random.once_in(2) {
        filler = random.pick(&[&b"A"[..], SMALLEST, b"'", b"UNZ+1+1'", b"?'"]).to_vec();
    }
    let missing = size.saturating_sub(d.len());
    d.extend(filler.iter().cycle().take(missing).copied().collect::<Vec<u8>>());
    d.truncate(size);
}
