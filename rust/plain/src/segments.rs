//! Cutting: where segments and messages begin and end. Nothing here knows the guide.
//!
//! Between the end of a segment and the next one there may be line breaks if the reading skips them, so the two places are
//! kept apart: `end` is the byte after a segment, and `past_breaks` of it the place where the next one begins.

use crate::cut::{head, tag_of, UNA, UNH, UNT, UNZ};
use crate::marks::{are_valid, Characters, Marks, Syntax, USUAL};
use crate::Reading;

/// The longest delivery that is admitted.
pub const LIMIT: usize = 1_048_576;

/// A delivery that gets neither 1 nor 2.
#[derive(Clone, Copy)]
pub struct Admitted {
    /// From where segments are looked for: behind UNA, or the delivery's start.
    pub front: usize,
    /// UNA's, or those handed in where there is none.
    pub characters: Characters,
    pub skips: bool,
}

/// Refusal 1 or 2, or how the delivery is read.
#[inline]
pub fn admitted(reading: Reading, d: &[u8]) -> Result<Admitted, u32> {
    if d.len() > LIMIT {
        return Err(1);
    }
    let begin = past_breaks(reading.skips, d, 0);
    let (front, characters) = match tag_of(head(d, begin)) {
        UNA => (begin + 9, of_una(&d[begin..]).ok_or(2u32)?),
        _ => (0, reading.characters),
    };
    if characters != USUAL && !are_valid(&characters) {
        return Err(2);
    }
    Ok(Admitted { front, characters, skips: reading.skips })
}

/// The characters of UNA, which `d` begins with.
fn of_una(d: &[u8]) -> Option<Characters> {
    match *d {
        [_, _, _, component, element, decimal, release, b' ', terminator, ..] => Some([component, element, decimal, release, terminator]),
        _ => None,
    }
}

/// Whether CR or LF stands at a place.
#[inline(always)]
pub fn is_break_at(d: &[u8], at: usize) -> bool {
    matches!(d.get(at), Some(b'\r' | b'\n'))
}

/// The place behind the breaks at a place where a segment may begin.
#[inline(always)]
pub fn past_breaks(skips: bool, d: &[u8], at: usize) -> usize {
    let mut at = at;
    while is_break_at(d, at) && skips {
        at += 1;
    }
    at
}

/// The end of the segment before `at`, where only breaks that are skipped may stand between the two.
pub fn before_breaks(d: &[u8], at: usize) -> usize {
    at - d[..at].iter().rev().take_while(|byte| matches!(byte, b'\r' | b'\n')).count()
}

/// The place behind the segment or piece that begins at `at`.
pub fn segment_end<M: Marks>(marks: M, d: &[u8], at: usize) -> usize {
    segment_at(marks, d, at).0
}

/// As `segment_end`, and whether it is a piece.
#[inline(always)]
pub fn segment_at<M: Marks>(marks: M, d: &[u8], at: usize) -> (usize, bool) {
    let mut at = at;
    loop {
        at += text_run(marks, d, at);
        match d.get(at) {
            None => return (d.len(), true),
            Some(&byte) if byte == marks.terminator() => return (at + 1, false),
            Some(_) => at += 2,
        }
    }
}

/// How many bytes from here are neither a release nor a terminator; eight at a time.
#[inline(always)]
fn text_run<M: Marks>(marks: M, d: &[u8], from: usize) -> usize {
    let rest = d.get(from..).unwrap_or(&[]);
    let (terminator, release) = (marks.terminator(), marks.release());
    let mut run = 0;
    for eight in rest.chunks_exact(8) {
        let word = u64::from_le_bytes(eight.try_into().unwrap());
        let found = zero_bytes(word ^ (EACH * terminator as u64)) | zero_bytes(word ^ (EACH * release as u64));
        if found != 0 {
            return run + found.trailing_zeros() as usize / 8;
        }
        run += 8;
    }
    run + rest[run..].iter().take_while(|&&byte| byte != terminator && byte != release).count()
}

const EACH: u64 = 0x0101_0101_0101_0101;

/// The lowest set bit marks the first byte of the word that is zero.
fn zero_bytes(word: u64) -> u64 {
    word.wrapping_sub(EACH) & !word & (EACH << 7)
}

/// The end of the message whose segments up to `end`, the byte after the last of them, are known to be in it.
pub fn rest_of_message<M: Marks>(y: Syntax<M>, d: &[u8], end: usize) -> usize {
    let mut end = end;
    loop {
        let at = past_breaks(y.skips, d, end);
        match tag_of(head(d, at)) {
            _ if at >= d.len() => return end,
            UNH | UNZ => return end,
            UNT => return segment_end(y.marks, d, at),
            _ => end = segment_end(y.marks, d, at),
        }
    }
}

/// Whether no segment is open at `at`, a place from `front` on: breaks aside, `front` or the end of a segment stands before it. Only
/// the run of breaks and that of releases before the terminator have to be looked at.
fn is_between<M: Marks>(y: Syntax<M>, d: &[u8], front: usize, at: usize) -> bool {
    let mut end = at;
    while y.skips && end > front && is_break_at(d, end - 1) {
        end -= 1;
    }
    end == front || (d[end - 1] == y.marks.terminator() && !is_released(y.marks, d, front, end - 1))
}

/// Whether the byte at `at` is made literal: an odd number of release bytes stands right before it.
fn is_released<M: Marks>(marks: M, d: &[u8], front: usize, at: usize) -> bool {
    d[front..at].iter().rev().take_while(|&&byte| byte == marks.release()).count() % 2 == 1
}

/// Whether a message begins at `at`.
pub fn begins_message<M: Marks>(y: Syntax<M>, d: &[u8], front: usize, at: usize) -> bool {
    at >= front && tag_of(head(d, at)) == UNH && is_between(y, d, front, at)
}

/// The first segment that begins at `from` or later, if any.
pub fn segment_from<M: Marks>(y: Syntax<M>, d: &[u8], front: usize, from: usize) -> Option<usize> {
    let from = from.max(front);
    if from >= d.len() {
        return None;
    }
    let end = match is_between(y, d, front, from) {
        true => from,
        false => segment_end(y.marks, d, from + is_released(y.marks, d, front, from) as usize),
    };
    Some(past_breaks(y.skips, d, end)).filter(|&at| at < d.len())
}
