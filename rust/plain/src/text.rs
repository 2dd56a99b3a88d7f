//! Components once they are cut: decoded text, code keys, numbers.

use crate::cut::Part;

/// No row takes more bytes than this, so a longer text never has to be decoded.
const LONGEST: usize = 512;

/// Up to eight allowed bytes as one number. Zero is not an allowed byte, so different texts have different keys.
pub const fn key(text: &[u8]) -> u64 {
    let mut all = 0;
    let mut at = 0;
    while at < text.len() {
        all |= (text[at] as u64) << (8 * at);
        at += 1;
    }
    all
}

/// The key of a component, releases removed; 0, which no code has, for more than eight bytes.
#[inline(always)]
pub fn key_of(release: u8, d: &[u8], part: &Part) -> u64 {
    let length = part.length();
    if length == 0 || length > 8 {
        return 0;
    }
    if part.releases != 0 {
        return slow_key(release, d, part);
    }
    match d.get(part.from..part.from + 8) {
        // The bytes behind the component are masked off.
        Some(eight) => u64::from_le_bytes(eight.try_into().unwrap()) & (u64::MAX >> (64 - 8 * length)),
        None => key(&d[part.from..part.to]),
    }
}

#[cold]
fn slow_key(release: u8, d: &[u8], part: &Part) -> u64 {
    let mut all = 0;
    for (at, byte) in decoded(release, &d[part.from..part.to]).enumerate() {
        all |= (byte as u64) << (8 * at);
    }
    all
}

/// The bytes of a text with its releases removed.
pub fn decoded(release: u8, text: &[u8]) -> impl Iterator<Item = u8> + '_ {
    let mut rest = text.iter();
    std::iter::from_fn(move || match rest.next() {
        Some(&byte) if byte == release => rest.next().copied(),
        other => other.copied(),
    })
}

/// Room for one decoded component, so that decoding needs no allocation.
pub struct Room([u8; LONGEST]);

impl Room {
    pub fn new() -> Room {
        Room([0; LONGEST])
    }

    /// The component with its releases removed; the delivery's own bytes if it has none.
    #[inline(always)]
    pub fn decode<'a>(&'a mut self, release: u8, d: &'a [u8], part: &Part) -> &'a [u8] {
        if part.releases == 0 {
            return &d[part.from..part.to];
        }
        self.copy(release, &d[part.from..part.to])
    }

    #[cold]
    fn copy(&mut self, release: u8, text: &[u8]) -> &[u8] {
        let mut length = 0;
        for (slot, byte) in self.0.iter_mut().zip(decoded(release, text)) {
            *slot = byte;
            length += 1;
        }
        &self.0[..length]
    }
}

/// A number by the narrower rule of document 01.
#[derive(Clone, Copy, Default)]
pub struct Number {
    pub digits: usize,
    pub amount: i64,
    pub decimals: usize,
    /// Digits alone, the first of them no zero: the form of counts and position numbers.
    pub is_plain: bool,
}

/// An optional `-`, digits, optionally the decimal mark with digits. The amount is meaningless beyond eighteen digits.
#[inline]
pub fn number(decimal: u8, text: &[u8]) -> Option<Number> {
    let (is_negative, rest) = match text {
        [b'-', rest @ ..] => (true, rest),
        _ => (false, text),
    };
    // No branch on a byte: which bytes are digits cannot be foreseen, and each wrong guess costs more than the rest.
    let mut amount: i64 = 0;
    let mut others = 0;
    let mut mark = rest.len();
    for (at, &byte) in rest.iter().enumerate() {
        let digit = byte.wrapping_sub(b'0');
        let is_digit = digit < 10;
        let longer = amount.wrapping_mul(10).wrapping_add(digit as i64);
        amount = if is_digit { longer } else { amount };
        mark = if is_digit { mark } else { at };
        others += !is_digit as usize;
    }
    let amount = if is_negative { amount.wrapping_neg() } else { amount };
    match others {
        0 if !rest.is_empty() => {
            let is_plain = !is_negative && rest[0] != b'0';
            Some(Number { digits: rest.len(), amount, decimals: 0, is_plain })
        }
        1 if rest[mark] == decimal && mark > 0 && mark + 1 < rest.len() => {
            Some(Number { digits: rest.len() - 1, amount, decimals: rest.len() - 1 - mark, is_plain: false })
        }
        _ => None,
    }
}

/// Whether two components are equal, releases removed.
pub fn same(release: u8, d: &[u8], one: &Part, other: &Part) -> bool {
    let (one, other) = (&d[one.from..one.to], &d[other.from..other.to]);
    one == other || decoded(release, one).eq(decoded(release, other))
}
