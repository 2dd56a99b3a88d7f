//! Rule 23: no two positions agree in LIN (without its number), PIA and IMD.
//!
//! While a message is read, each position only gathers a hash of what is compared. Once all else holds, the hashes go
//! into a table that has at least twice as many slots as positions; the segments themselves are compared only where
//! two hashes are equal.

use crate::cut::{head, tag, tag_of, Part, Scanner};
use crate::marks::{Class, Marks};
use crate::segments::{past_breaks, segment_end};

/// One position: the hash of what is compared, the place of its LIN, and what 23 would name. PIA and IMD follow LIN.
#[derive(Clone, Copy)]
pub struct Position {
    pub hash: u64,
    pub lin: u32,
    /// The segment's number times 32, and the node. Small, since a message may have very many positions.
    named: u32,
}

impl Position {
    pub fn new(hash: u64, lin: usize, segment: usize, node: usize) -> Position {
        Position { hash, lin: lin as u32, named: (segment * 32 + node) as u32 }
    }

    pub fn segment(&self) -> usize {
        self.named as usize / 32
    }

    pub fn node(&self) -> usize {
        self.named as usize % 32
    }
}

const MIX: u64 = 0x9e37_79b9_7f4a_7c15;
pub const FIRST_HASH: u64 = 0x5851_f42d_4c95_7f2d;

/// The hash with one more component in it: which one it is, its length and its decoded bytes.
#[inline(always)]
pub fn with_component(hash: u64, which: u8, text: &[u8]) -> u64 {
    let hash = mix(hash, which as u64 | (text.len() as u64) << 8);
    match text.len() {
        0 => hash,
        1..=3 => mix(hash, text[0] as u64 | (text[text.len() / 2] as u64) << 8 | (text[text.len() - 1] as u64) << 16),
        4..=7 => mix(hash, four(text, 0) | four(text, text.len() - 4) << 32),
        8..=16 => mix(mix(hash, eight(text, 0)), eight(text, text.len() - 8)),
        _ => with_long(hash, text),
    }
}

/// Eights from the front, and the last eight bytes, which may overlap.
fn with_long(hash: u64, text: &[u8]) -> u64 {
    let hash = text.chunks_exact(8).fold(hash, |hash, bytes| mix(hash, eight(bytes, 0)));
    mix(hash, eight(text, text.len() - 8))
}

fn four(text: &[u8], at: usize) -> u64 {
    u32::from_le_bytes(text[at..at + 4].try_into().unwrap()) as u64
}

fn eight(text: &[u8], at: usize) -> u64 {
    u64::from_le_bytes(text[at..at + 8].try_into().unwrap())
}

#[inline(always)]
fn mix(hash: u64, word: u64) -> u64 {
    let hash = (hash ^ word).wrapping_mul(MIX);
    hash ^ hash >> 29
}

/// The positions of one message, and the table, which is kept from message to message.
#[derive(Default)]
pub struct Positions {
    pub all: Vec<Position>,
    slots: Vec<u32>,
}

impl Positions {
    /// The first position that agrees with an earlier one.
    pub fn first_agreeing<M: Marks>(&mut self, marks: M, d: &[u8]) -> Option<Position> {
        if self.all.len() < 2 {
            return None;
        }
        let bits = (2 * self.all.len()).next_power_of_two().trailing_zeros();
        self.slots.clear();
        self.slots.resize(1 << bits, 0);
        let (all, slots) = (&self.all, &mut self.slots);
        all.iter().enumerate().find(|&(at, _)| !enter(marks, d, all, slots, bits, at)).map(|(_, position)| *position)
    }
}

/// Puts a position into the table; false if an earlier one agrees. A slot holds a position's number from 1; 0 is an
/// empty slot.
fn enter<M: Marks>(marks: M, d: &[u8], all: &[Position], slots: &mut [u32], bits: u32, at: usize) -> bool {
    let mask = slots.len() - 1;
    let mut slot = (all[at].hash.wrapping_mul(MIX) >> (64 - bits)) as usize;
    while slots[slot] != 0 {
        if agree(marks, d, &all[slots[slot] as usize - 1], &all[at]) {
            return false;
        }
        slot = (slot + 1) & mask;
    }
    slots[slot] = at as u32 + 1;
    true
}

fn agree<M: Marks>(marks: M, d: &[u8], one: &Position, other: &Position) -> bool {
    one.hash == other.hash && agree_in_full(marks, d, one.lin as usize, other.lin as usize)
}

#[cold]
fn agree_in_full<M: Marks>(marks: M, d: &[u8], one: usize, other: usize) -> bool {
    let (one_pia, one_imd) = belonging(marks, d, one);
    let (other_pia, other_imd) = belonging(marks, d, other);
    let same = |one, other, from_element| same_segment(marks, d, one, other, from_element);
    same(Some(one), Some(other), 2) && same(one_pia, other_pia, 1) && same(one_imd, other_imd, 1)
}

/// The places of PIA and IMD behind a LIN, where they stand.
fn belonging<M: Marks>(marks: M, d: &[u8], lin: usize) -> (Option<usize>, Option<usize>) {
    let next = next_segment(marks, d, lin);
    if tag_of(head(d, next)) != tag(b"PIA") {
        return (None, imd_at(d, next));
    }
    (Some(next), imd_at(d, next_segment(marks, d, next)))
}

/// Where the next segment begins. The message has no fault, so a break between two segments is one that is skipped.
fn next_segment<M: Marks>(marks: M, d: &[u8], at: usize) -> usize {
    past_breaks(true, d, segment_end(marks, d, at))
}

fn imd_at(d: &[u8], at: usize) -> Option<usize> {
    Some(at).filter(|&at| tag_of(head(d, at)) == tag(b"IMD"))
}

/// Whether two segments agree from an element on. A missing segment agrees with a missing one alone.
fn same_segment<M: Marks>(marks: M, d: &[u8], one: Option<usize>, other: Option<usize>, from_element: usize) -> bool {
    match (one, other) {
        (Some(one), Some(other)) => contents(marks, d, one, from_element).eq(contents(marks, d, other, from_element)),
        _ => one == other,
    }
}

/// Every decoded byte of a segment with its element and component. Empty components give nothing, so it makes no
/// difference whether they stand or are missing.
fn contents<M: Marks>(marks: M, d: &[u8], at: usize, from_element: usize) -> impl Iterator<Item = (usize, usize, u8)> + use<'_, M> {
    parts(marks, d, at).filter(move |(element, _, _)| *element >= from_element).flat_map(move |(element, component, part)| {
        crate::text::decoded(marks.release(), &d[part.from..part.to]).map(move |byte| (element, component, byte))
    })
}

/// The components behind the tag, with their element and component from 1.
fn parts<M: Marks>(marks: M, d: &[u8], at: usize) -> impl Iterator<Item = (usize, usize, Part)> + use<'_, M> {
    let mut place = at + 4;
    let mut scanner = Scanner::new(marks, d, place);
    let (mut element, mut component) = (1, 0);
    let mut is_over = d.get(place - 1) == Some(&marks.terminator());
    std::iter::from_fn(move || {
        if is_over {
            return None;
        }
        let part = scanner.part(place);
        component += 1;
        let found = (element, component, part);
        place = part.to + 1;
        match part.stop {
            Class::Component => {}
            Class::Element => (element, component) = (element + 1, 0),
            _ => is_over = true,
        }
        Some(found)
    })
}
