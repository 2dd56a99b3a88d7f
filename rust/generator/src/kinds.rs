//! The kinds of deliveries that are timed.

use crate::breaks::in_lines;
use crate::damage::{damage, FAULTS};
use crate::edition::Edition;
use crate::random::Random;
use crate::sheet::{message, Shape};
use crate::spelling::{spelled, una, USUAL};

pub const KINDS: [&str; 5] = ["valid", "many", "damaged", "z04", "dense"];
/// Those with CR LF after each segment.
pub const LINES: [&str; 4] = ["valid_lines", "many_lines", "damaged_lines", "z04_lines"];
/// With other service characters.
pub const OTHERS: [&str; 1] = ["valid_other"];

/// A delivery of one kind with at most `size` bytes, filled as far as its messages allow.
pub fn kind(name: &str, size: usize, seed: u64) -> Vec<u8> {
    let usual = usual_form(name, size, seed);
    if name.ends_with("_lines") {
        return in_lines(&usual);
    }
    match usual.strip_prefix(&una(USUAL)) {
        Some(sheets) => [&una(*b"*|,!~")[..], &spelled(sheets, *b"*|,!~")].concat(),
        None => usual,
    }
}

/// The same sheets as in `kind`: those of `LINES` without the line breaks, those of `OTHERS` with UNA and the usual characters.
pub fn usual_form(name: &str, size: usize, seed: u64) -> Vec<u8> {
    match name.split_once('_') {
        Some((name, "lines")) => filled(name, size, seed, |message| in_lines(message).len()),
        Some((name, _)) => [&una(USUAL)[..], &filled(name, size - 9, seed, |message| message.len())].concat(),
        None => filled(name, size, seed, |message| message.len()),
    }
}

/// Messages as long as there is room for what each takes.
fn filled(name: &str, size: usize, seed: u64, takes: impl Fn(&[u8]) -> usize) -> Vec<u8> {
    let random = &mut Random::new(seed);
    let mut d = Vec::with_capacity(size);
    if name == "dense" {
        dense(random, size, &mut d);
        return d;
    }
    let mut misses = 0;
    let mut taken = 0;
    while misses < 40 {
        let one = one_message(random, name);
        if taken + takes(&one) <= size {
            taken += takes(&one);
            d.extend_from_slice(&one);
        } else {
            misses += 1;
        }
    }
    d
}

fn one_message(random: &mut Random, name: &str) -> Vec<u8> {
    let positions = match name {
        "many" => random.below(3),
        _ if random.once_in(10) => random.below(6),
        // Long ones stand four or five to 128 KiB, and how much of those lies before a fault is chance.
        "damaged" => random.between(5, 90),
        _ => random.between(50, 900),
    };
    let shape = Shape { edition: Edition::any(random), positions, releases: 0, is_rich: false, is_z04: name == "z04" };
    let mut all = message(random, shape);
    if name == "damaged" && random.below(5) < 4 {
        let number = *random.pick(&FAULTS.each_ref());
        damage(random, &mut all, number);
    }
    let mut bytes = Vec::new();
    all.iter().for_each(|segment| segment.write(random, 0, &mut bytes));
    bytes
}

/// One message with as many different minimal positions as fit into `size` bytes, articles in no order.
pub fn dense(random: &mut Random, size: usize, d: &mut Vec<u8>) {
    const HEAD: &str = "BGM+Z32+1'DTM+137:1:303'RFF+Z13:27002'NAD+MR+1::9'NAD+MS+1::9'PGI+9'";
    const END: usize = b"UNT+999999+1'".len();
    let front = format!("UNH+1+PRICAT:D:20B:UN:{}'{HEAD}", Edition::any(random).code());
    let begin = d.len();
    d.extend_from_slice(front.as_bytes());
    let mut articles: Vec<usize> = (0..most_positions(size, front.len() + END)).collect();
    random.shuffle(&mut articles);
    let count = articles.len() + 8;
    for (at, article) in articles.into_iter().enumerate() {
        d.extend_from_slice(format!("LIN+{}++", at + 1).as_bytes());
        short_name(article, d);
        d.extend_from_slice(b":Z01'");
    }
    d.extend_from_slice(format!("UNT+{count}+1'").as_bytes());
    debug_assert!(d.len() - begin <= size.max(front.len() + END));
}

/// How many positions fit beside `other` bytes: each has its number, its article and eleven bytes around them.
fn most_positions(size: usize, other: usize) -> usize {
    let mut room = size.saturating_sub(other);
    let mut count = 0;
    loop {
        let bytes = 11 + digits(count + 1, 10) + name_length(count);
        if bytes > room {
            return count;
        }
        room -= bytes;
        count += 1;
    }
}

fn digits(number: usize, base: usize) -> usize {
    if number < base {
        1
    } else {
        1 + digits(number / base, base)
    }
}

const NAMES: &[u8; 62] = b"0123456789ABCDEFGHIJKLMNOPQRSTUVWXYZabcdefghijklmnopqrstuvwxyz";

/// Names are all texts of one byte, then of two, and so on.
fn name_length(name: usize) -> usize {
    let (mut rest, mut length, mut all) = (name, 1, NAMES.len());
    while rest >= all {
        rest -= all;
        all *= NAMES.len();
        length += 1;
    }
    length
}

fn short_name(name: usize, d: &mut Vec<u8>) {
    let length = name_length(name);
    let mut rest = name;
    let mut all = NAMES.len();
    for _ in 1..length {
        rest -= all;
        all *= NAMES.len();
    }
    for _ in 0..length {
        d.push(NAMES[rest % NAMES.len()]);
        rest /= NAMES.len();
    }
}
