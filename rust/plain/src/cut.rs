//! What bytes mean inside a segment, and its parts one after the other. Nothing here knows the guide.

use crate::marks::{Class, Marks};
use crate::segments::is_break_at;

pub const UNA: u32 = tag(b"UNA");
pub const UNH: u32 = tag(b"UNH");
pub const UNT: u32 = tag(b"UNT");
pub const UNZ: u32 = tag(b"UNZ");

/// The three bytes of a tag as one number, as `head` gives them.
pub const fn tag(letters: &[u8; 3]) -> u32 {
    letters[0] as u32 | (letters[1] as u32) << 8 | (letters[2] as u32) << 16
}

/// One component: its bytes, how many releases stand in it, and what ended it at `to`.
#[derive(Clone, Copy)]
pub struct Part {
    pub from: usize,
    pub to: usize,
    pub releases: usize,
    pub stop: Class,
}

impl Part {
    pub fn is_empty(&self) -> bool {
        self.from == self.to
    }

    /// Length with the releases removed.
    pub fn length(&self) -> usize {
        self.to - self.from - self.releases
    }

    /// The delivery ended or a byte is not allowed: the segment gets 12 or 10 whatever else it holds.
    pub fn is_broken(&self) -> bool {
        matches!(self.stop, Class::NotAllowed | Class::End)
    }
}

/// The first four bytes at a place; zeros stand for bytes behind the end.
#[inline(always)]
pub fn head(d: &[u8], at: usize) -> u32 {
    match d.get(at..at.wrapping_add(4)) {
        Some(four) => u32::from_le_bytes([four[0], four[1], four[2], four[3]]),
        None => short_head(d, at),
    }
}

#[cold]
fn short_head(d: &[u8], at: usize) -> u32 {
    let mut four = [0; 4];
    for (slot, byte) in four.iter_mut().zip(d.get(at..).unwrap_or(&[])) {
        *slot = *byte;
    }
    u32::from_le_bytes(four)
}

/// The tag in a head. A tag that is found whole holds no terminator, so it stands inside its segment.
#[inline(always)]
pub fn tag_of(head: u32) -> u32 {
    head & 0x00ff_ffff
}

/// Whether a head may be that of UNH or UNZ, a break, or none at all, since the delivery ends: one test for what seldom comes.
#[inline(always)]
pub fn may_be_no_segment(head: u32) -> bool {
    matches!(head as u8, 0..=b'\r' | b'U')
}

/// Three capital letters followed by an element separator or a terminator.
#[inline(always)]
pub fn is_well_begun<M: Marks>(marks: M, head: u32) -> bool {
    let [a, b, c, fourth] = head.to_le_bytes();
    let is_tag = a.is_ascii_uppercase() && b.is_ascii_uppercase() && c.is_ascii_uppercase();
    is_tag && (fourth == marks.element() || fourth == marks.terminator())
}

/// Finds the bytes that mean something, sixty-four at a time: a bit for every byte whose class is not `Text`.
#[derive(Clone, Copy)]
pub struct Scanner<'a, M> {
    marks: M,
    d: &'a [u8],
    /// Where the current block begins.
    block: usize,
    /// The bytes of the block that were not given yet.
    left: u64,
}

const BLOCK: usize = 64;

impl<'a, M: Marks> Scanner<'a, M> {
    /// A scanner for what stands at `from` or behind it.
    pub fn new(marks: M, d: &'a [u8], from: usize) -> Scanner<'a, M> {
        let block = from - from % BLOCK;
        Scanner { marks, d, block, left: meaning_bits(marks, d, block) & (u64::MAX << (from % BLOCK)) }
    }

    /// The place of the next byte that is no `Text`, or the delivery's end. Each is given once.
    #[inline(always)]
    pub fn next(&mut self) -> usize {
        while self.left == 0 {
            self.block += BLOCK;
            if self.block >= self.d.len() {
                return self.d.len();
            }
            self.left = meaning_bits(self.marks, self.d, self.block);
        }
        let at = self.block + self.left.trailing_zeros() as usize;
        self.left &= self.left - 1;
        at
    }

    /// The place behind the breaks that stand at `at`, which is where the scanner stands, and the scanner there.
    #[inline(always)]
    pub fn past_breaks(mut self, at: usize) -> (usize, Scanner<'a, M>) {
        let mut at = at;
        while is_break_at(self.d, at) {
            at += 1;
        }
        if at - self.block < BLOCK {
            self.left &= u64::MAX << (at - self.block);
            (at, self)
        } else {
            (at, Scanner::new(self.marks, self.d, at))
        }
    }

    /// The component that begins at `from`, which is where the scanner stands.
    #[inline(always)]
    pub fn part(&mut self, from: usize) -> Part {
        let to = self.next();
        match self.class_at(to) {
            Class::Release => {
                // By value, so that a scanner on the usual way can stay in registers.
                let (part, scanner) = self.released_part(from, to);
                *self = scanner;
                part
            }
            stop => Part { from, to, releases: 0, stop },
        }
    }

    /// As `part`, for a component whose first release is at `release`; with the scanner behind it.
    #[inline(never)]
    fn released_part(mut self, from: usize, release: usize) -> (Part, Scanner<'a, M>) {
        let mut to = release;
        let mut releases = 0;
        while self.class_at(to) == Class::Release {
            match self.class_at(to + 1) {
                Class::End => return (Part { from, to: self.d.len(), releases, stop: Class::End }, self),
                Class::NotAllowed => return (Part { from, to: to + 1, releases, stop: Class::NotAllowed }, self),
                Class::Text => {}
                // A released separator is literal: the scanner has to pass it.
                _ => {
                    self.next();
                }
            }
            releases += 1;
            to = self.next();
        }
        (Part { from, to, releases, stop: self.class_at(to) }, self)
    }

    #[inline(always)]
    fn class_at(&self, at: usize) -> Class {
        self.d.get(at).map_or(Class::End, |&byte| self.marks.class(byte))
    }
}

/// A bit for each byte of a block that is no `Text`; none for bytes behind the end.
#[inline(always)]
fn meaning_bits<M: Marks>(marks: M, d: &[u8], block: usize) -> u64 {
    match d.get(block..block + BLOCK) {
        Some(bytes) => bits(marks, bytes.try_into().unwrap()),
        None => last_bits(marks, d, block),
    }
}

/// A blank serves nowhere, so it may stand for the bytes that are missing.
#[cold]
fn last_bits<M: Marks>(marks: M, d: &[u8], block: usize) -> u64 {
    let mut bytes = [b' '; BLOCK];
    let rest = &d[block..];
    bytes[..rest.len()].copy_from_slice(rest);
    bits(marks, &bytes)
}

/// Written so that the compiler compares many bytes at once; the product gathers eight flags into eight bits.
#[inline(always)]
fn bits<M: Marks>(marks: M, bytes: &[u8; BLOCK]) -> u64 {
    const GATHER: u64 = 0x0102_0408_1020_4080;
    let (component, element, terminator, release) = (marks.component(), marks.element(), marks.terminator(), marks.release());
    let mut flags = [0u8; BLOCK];
    for (flag, &byte) in flags.iter_mut().zip(bytes) {
        let is_separator = (byte == component) | (byte == element) | (byte == terminator) | (byte == release);
        *flag = (is_separator | (byte & 0x7f < 32) | (byte == 127)) as u8;
    }
    let mut bits = 0;
    for (at, eight) in flags.chunks_exact(8).enumerate() {
        bits |= u64::from_le_bytes(eight.try_into().unwrap()).wrapping_mul(GATHER) >> 56 << (8 * at);
    }
    bits
}

/// How a segment goes on behind a fault: 12 and 10 come before the fault itself, so its bytes are still looked at.
pub struct Tail {
    pub next: usize,
    pub is_piece: bool,
    pub has_byte_not_allowed: bool,
}

#[cold]
pub fn tail<M: Marks>(marks: M, d: &[u8], from: usize) -> Tail {
    let mut has_byte_not_allowed = false;
    let mut at = from;
    while let Some(&byte) = d.get(at) {
        match marks.class(byte) {
            Class::Terminator => return Tail { next: at + 1, is_piece: false, has_byte_not_allowed },
            Class::NotAllowed => has_byte_not_allowed = true,
            Class::Release => {
                // The released byte is literal, but still has to be an allowed one.
                at += 1;
                if d.get(at).is_some_and(|&byte| marks.class(byte) == Class::NotAllowed) {
                    has_byte_not_allowed = true;
                }
            }
            _ => {}
        }
        at += 1;
    }
    Tail { next: d.len(), is_piece: true, has_byte_not_allowed }
}
