//! Deliveries spelled with other service characters: in UNA, or to be handed in; and characters that cannot serve.

use crate::random::Random;

/// In UNA's order, without the reserved one: component separator, element separator, decimal mark, release, terminator.
pub type Characters = [u8; 5];

pub const USUAL: Characters = *b":+.?'";

/// UNA with these characters.
pub fn una(characters: Characters) -> [u8; 9] {
    let [component, element, mark, release, terminator] = characters;
    [b'U', b'N', b'A', component, element, mark, release, b' ', terminator]
}

/// A delivery without UNA, spelled as usual, with other characters: separators, releases and terminators are exchanged everywhere, the
/// mark in components of number format. A data byte that now separates gets a release; a release that is not needed any more stays.
pub fn spelled(d: &[u8], characters: Characters) -> Vec<u8> {
    let [component, element, mark, release, terminator] = characters;
    let mut out = Vec::with_capacity(d.len() + d.len() / 8);
    let mut segment = Segment::at(d, 0);
    let mut is_released = false;
    for (at, &byte) in d.iter().enumerate() {
        let is_data = is_released || !b":+?'".contains(&byte);
        match byte {
            b'.' if segment.is_number() => out.push(mark),
            _ if is_data => {
                if !is_released && [component, element, release, terminator].contains(&byte) {
                    out.push(release);
                }
                out.push(byte);
            }
            b':' => {
                out.push(component);
                segment.component += 1;
            }
            b'+' => {
                out.push(element);
                (segment.element, segment.component) = (segment.element + 1, 1);
            }
            b'?' => out.push(release),
            _ => {
                out.push(terminator);
                segment = Segment::at(d, at + 1);
            }
        }
        is_released = !is_released && byte == b'?';
    }
    out
}

/// How far a segment has been gone through.
struct Segment<'a> {
    tag: &'a [u8],
    element: usize,
    component: usize,
}

impl Segment<'_> {
    /// The segment that begins behind the line breaks at a place.
    fn at(d: &[u8], at: usize) -> Segment<'_> {
        let rest = &d[at..];
        let begin = rest.iter().take_while(|byte| b"\r\n".contains(byte)).count();
        Segment { tag: &rest[begin..(begin + 3).min(rest.len())], element: 0, component: 1 }
    }

    /// Whether the page has a number here. RFF/ACW has a text, but then the mark means nothing.
    fn is_number(&self) -> bool {
        matches!(
            (self.tag, self.element, self.component),
            (b"LIN" | b"UNT", 1, 1) | (b"PRI", 1, 2 | 5) | (b"RNG", 2, 2 | 3) | (b"RFF", 1, 2)
        )
    }
}

/// Five characters that can serve.
pub fn any_characters(random: &mut Random) -> Characters {
    const ASCII: &[u8] = b"!\"#$%&'()*+,./:;<=>?@[\\]^_`{|}~";
    let mut all = match random.below(8) {
        0 => return *b"*|,!~",
        1 => USUAL.to_vec(),
        2 => (160..=255).collect(),
        3 => [&USUAL[..], b"*,\xa0\xff"].concat(),
        4 => [&USUAL[..], &USUAL, ASCII].concat(),
        5 => (160..=255).chain(ASCII.iter().copied()).collect(),
        _ => ASCII.to_vec(),
    };
    random.shuffle(&mut all);
    let mut chosen = Vec::new();
    for byte in all {
        if !chosen.contains(&byte) && chosen.len() < 5 {
            chosen.push(byte);
        }
    }
    // Often the usual ones but for the mark, since then all else is read alike.
    if random.once_in(5) && !b":+?'".contains(&chosen[2]) {
        return [b':', b'+', chosen[2], b'?', b'\''];
    }
    chosen.try_into().expect("five of them")
}

/// Five characters of which one cannot serve, or not beside the others.
pub fn wrong_characters(random: &mut Random, mut characters: Characters) -> Characters {
    let at = random.below(5);
    characters[at] = match random.below(6) {
        0 | 1 => characters[(at + random.between(1, 4)) % 5],
        2 => *random.pick(&[&b'A', &b'Z', &b'a', &b'z', &b'U', &b'N', &b'H', &b'T']),
        3 => *random.pick(&[&b'0', &b'9', &b'1', &b'5']),
        4 => *random.pick(&[&b' ', &b'-']),
        _ => *random.pick(&[&0, &9, &10, &13, &31, &127, &128, &159, &133]),
    };
    characters
}

/// UNA's bytes with a fault: a character that cannot serve, a reserved byte that is no blank, a byte too few or too many.
pub fn wrong_una(random: &mut Random, characters: Characters) -> Vec<u8> {
    let mut bytes = una(characters).to_vec();
    match random.below(8) {
        0 => bytes[7] = *random.pick(&[&b'*', &b'0', &0xa0, &0, &b'\'', &b'-', &b'\n', &31, &33]),
        1 => drop(bytes.remove(random.between(3, 8))),
        2 => bytes.insert(random.between(3, 9), *random.pick(&[&b' ', &b'\n', &b'A', &b':', &b'?'])),
        3 => bytes.truncate(random.between(3, 8)),
        _ => return una(wrong_characters(random, characters)).to_vec(),
    }
    bytes
}
