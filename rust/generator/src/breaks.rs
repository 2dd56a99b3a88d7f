//! Line breaks put into a finished delivery: where they are skipped, and where they are content.

use crate::random::Random;

/// The delivery with CR LF after each segment's end, and after UNA.
pub fn in_lines(d: &[u8]) -> Vec<u8> {
    with_breaks(d, |out| out.extend_from_slice(b"\r\n"))
}

/// The delivery with what `put` adds after each segment's end.
fn with_breaks(d: &[u8], mut put: impl FnMut(&mut Vec<u8>)) -> Vec<u8> {
    let mut out = Vec::with_capacity(d.len() + d.len() / 8);
    let mut is_released = false;
    for &byte in d {
        out.push(byte);
        if !is_released && byte == b'\'' {
            put(&mut out);
        }
        is_released = !is_released && byte == b'?';
    }
    out
}

/// CR and LF in any mix.
fn run(random: &mut Random, most: usize) -> Vec<u8> {
    (0..random.between(1, most)).map(|_| *random.pick(&[&b'\r', &b'\n'])).collect()
}

/// A delivery laid out in lines by chance, now and then with breaks where they do not belong.
pub fn lay_out(random: &mut Random, d: Vec<u8>) -> Vec<u8> {
    let mut d = after_segments(random, d);
    if random.once_in(3) {
        let most = *random.pick(&[&1, &2, &4, &70]);
        d.splice(0..0, run(random, most));
    }
    if random.once_in(3) {
        d.extend(run(random, 4));
    }
    if random.once_in(3) {
        for _ in 0..random.between(1, 4) {
            misplace(random, &mut d);
        }
    }
    d
}

fn after_segments(random: &mut Random, d: Vec<u8>) -> Vec<u8> {
    match random.below(10) {
        0..=2 => in_lines(&d),
        3..=4 => with_breaks(&d, |out| out.push(b'\n')),
        5 => with_breaks(&d, |out| out.push(b'\r')),
        6 => with_breaks(&d, |out| out.extend_from_slice(b"\r\n\r\n")),
        7 => with_breaks(&d, |out| out.extend(run(random, 5))),
        8 => {
            let (times, most) = (random.between(2, 12), *random.pick(&[&2, &2, &6, &200]));
            with_breaks(&d, |out| {
                if random.once_in(times) {
                    out.extend(run(random, most));
                }
            })
        }
        _ => d,
    }
}

/// One place of those that hold a byte, if any does.
fn place_of(random: &mut Random, d: &[u8], bytes: &[u8]) -> Option<usize> {
    let from = random.below(d.len() + 1);
    let is_one = |&at: &usize| bytes.contains(&d[at]);
    (from..d.len()).find(is_one).or((0..from).find(is_one))
}

/// A break that is content, or what ends a run of breaks.
fn misplace(random: &mut Random, d: &mut Vec<u8>) {
    let most = random.between(1, 3);
    let breaks = run(random, most);
    let (at, bytes) = match random.below(9) {
        // Before a terminator, and behind a released one.
        0 => (place_of(random, d, b"'"), breaks),
        1 => (place_of(random, d, b"'"), [b"?'", &breaks[..]].concat()),
        2 => (place_of(random, d, b"'"), [b"??'", &breaks[..]].concat()),
        // Released, or what looks so.
        3 => (place_of(random, d, b"?").map(|at| at + 1), breaks),
        4 => (place_of(random, d, b"\r\n"), b"?".to_vec()),
        // Behind a break, or before one.
        5 => (place_of(random, d, b"\r\n"), random.pick(&[&b" "[..], b"\t", b"\x0b", b"\x0c", b"\x85", b"'", b"\x00", b"A"]).to_vec()),
        // In a tag, or between two elements.
        6 => (place_of(random, d, b"UNHTZABGM"), breaks),
        7 => (place_of(random, d, b"+:"), breaks),
        _ => (Some(random.below(d.len() + 1)), breaks),
    };
    if let Some(at) = at {
        d.splice(at..at, bytes);
    }
}
