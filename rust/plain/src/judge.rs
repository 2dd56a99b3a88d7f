//! The verdict on one message, in one pass over its bytes.
//!
//! A segment's components are judged while they are cut. A fault ends that pass: the rest of the segment is only
//! looked at for 12 and 10, which come first, and the rest of the message only for its end.

mod components;

use crate::agree::{Position, Positions, FIRST_HASH};
use crate::answers::{Judged, Price, Prices, Verdict};
use crate::cut::{self, Part, Scanner, UNH, UNT, UNZ};
use crate::edition::{Edition, OF_20D};
use crate::guide::{self, bit, AFTER, BELOW, INTERVAL, NEEDED, NODES};
use crate::marks::{Class, Marks, Syntax};
use crate::segments::{before_breaks, is_break_at, rest_of_message};
use crate::text::{self, Number, Room};

/// A fault with the node it names, and the place from which its segment was not looked at yet.
struct Fault {
    number: u32,
    node: usize,
    from: usize,
}

const NO_PART: Part = Part { from: 0, to: 0, releases: 0, stop: Class::End };

/// What is known of the message so far.
struct Sheet<'a, M, P> {
    y: Syntax<M>,
    d: &'a [u8],
    prices: &'a mut P,
    positions: &'a mut Positions,
    /// Known once DE0057 is read; what UNH holds before it is judged alike in both.
    edition: &'static Edition,
    /// The last node placed, and all that occurred in instances still open.
    last: usize,
    seen: guide::Set,
    /// Meant for nodes in `seen` only.
    counts: [u32; NODES],
    /// The code of the last interval.
    interval: u64,
    segment: usize,
    reference: Part,
    last_reference: Part,
    /// Positions are compared unless BGM says Z04.
    compares: bool,
    lins: usize,
    article: Part,
    count: Number,
    amount: Number,
    unit: usize,
    hash: u64,
    room: Room,
}

/// Judges the message that begins at `start`. It stays a function of its own: put into the call that hands out prices it takes a tenth longer.
#[inline(never)]
pub fn judge<M: Marks, P: Prices>(y: Syntax<M>, d: &[u8], start: usize, positions: &mut Positions, prices: &mut P) -> Judged {
    positions.all.clear();
    let mut sheet = Sheet::new(y, d, positions, prices);
    let mut scanner = Scanner::new(y.marks, d, start);
    let mut at = start;
    loop {
        let mut head = cut::head(d, at);
        if sheet.segment != 0 && cut::may_be_no_segment(head) {
            if y.skips && is_break_at(d, at) {
                (at, scanner) = scanner.past_breaks(at);
                head = cut::head(d, at);
            }
            if at == d.len() || matches!(cut::tag_of(head), UNH | UNZ) {
                let end = before_breaks(d, at);
                return Judged { verdict: refused(24, sheet.segment + 1, end, 0), end };
            }
        }
        let tag = cut::tag_of(head);
        sheet.segment += 1;
        match sheet.segment(&mut scanner, at, head) {
            Ok(next) if tag == UNT => return Judged { verdict: sheet.verdict(next), end: next },
            Ok(next) => at = next,
            Err(fault) => return sheet.refuse(at, tag, fault),
        }
    }
}

fn refused(number: u32, segment: usize, place: usize, node: usize) -> Verdict {
    Verdict::Refused { number, segment, place, node }
}

impl<'a, M: Marks, P: Prices> Sheet<'a, M, P> {
    fn new(y: Syntax<M>, d: &'a [u8], positions: &'a mut Positions, prices: &'a mut P) -> Sheet<'a, M, P> {
        Sheet {
            y,
            d,
            prices,
            positions,
            edition: &OF_20D,
            last: 0,
            seen: 0,
            counts: [0; NODES],
            interval: 0,
            segment: 0,
            reference: NO_PART,
            last_reference: NO_PART,
            compares: true,
            lins: 0,
            article: NO_PART,
            count: Number::default(),
            amount: Number::default(),
            unit: 0,
            hash: 0,
            room: Room::new(),
        }
    }

    /// 12 and 10 come before any other fault of a segment; then what follows in the message is passed over.
    #[cold]
    fn refuse(&self, at: usize, tag: u32, fault: Fault) -> Judged {
        let tail = cut::tail(self.y.marks, self.d, fault.from);
        let (number, node) = match (tail.is_piece, tail.has_byte_not_allowed) {
            (true, _) => (12, 0),
            (_, true) => (10, 0),
            _ => (fault.number, self.edition.number(fault.node)),
        };
        let end = if tag == UNT { tail.next } else { rest_of_message(self.y, self.d, tail.next) };
        Judged { verdict: refused(number, self.segment, at, node), end }
    }

    /// All else holds: 23 or accepted.
    fn verdict(&mut self, end: usize) -> Verdict {
        match self.positions.first_agreeing(self.y.marks, self.d) {
            Some(position) => refused(23, position.segment(), position.lin as usize, self.edition.number(position.node())),
            None => Verdict::Accepted { segments: self.segment, end },
        }
    }

    /// Judges one segment and gives the place behind it.
    #[inline(always)]
    fn segment(&mut self, scanner: &mut Scanner<M>, at: usize, head: u32) -> Result<usize, Fault> {
        if !cut::is_well_begun(self.y.marks, head) {
            return Err(Fault { number: 11, node: 0, from: at });
        }
        let first = first_part(self.y.marks, scanner, at, head);
        if first.is_broken() {
            return Err(Fault { number: 10, node: 0, from: first.to });
        }
        let node = self.choose(cut::tag_of(head), &first)?;
        self.put(node, &first)?;
        self.before(node);
        let end = self.components(scanner, node, first)?;
        self.after(node, at, end)?;
        Ok(end + 1)
    }

    /// The node for a tag and code, or 13.
    #[inline(always)]
    fn choose(&self, tag: u32, first: &Part) -> Result<usize, Fault> {
        let nodes = guide::nodes_of(tag, || self.key_of(first)) & AFTER[self.last] & self.edition.nodes;
        if nodes == 0 {
            return Err(Fault { number: 13, node: 0, from: first.to });
        }
        Ok(nodes.trailing_zeros() as usize)
    }

    /// Puts the segment at its node: limits (15), an interval's code once (25), then missing nodes (14).
    #[inline(always)]
    fn put(&mut self, node: usize, first: &Part) -> Result<(), Fault> {
        let from = first.to;
        let count = if self.seen & bit(node) != 0 { self.counts[node] + 1 } else { 1 };
        if count > self.edition.limit[node] {
            return Err(Fault { number: 15, node, from });
        }
        if node == INTERVAL {
            self.interval(count, first)?;
        } else if self.last == INTERVAL && self.counts[INTERVAL] == 1 {
            // Only another interval leaves the price open, so here the innermost instance ends with one.
            return Err(Fault { number: 14, node: INTERVAL, from });
        }
        if NEEDED[self.last][node] & !self.seen != 0 {
            return Err(Fault { number: 14, node: guide::missing(self.last, node, self.seen), from });
        }
        self.counts[node] = count;
        self.seen = self.seen & !BELOW[node] | bit(node);
        self.last = node;
        Ok(())
    }

    /// The first or second interval of a price: not the same code twice.
    fn interval(&mut self, count: u32, first: &Part) -> Result<(), Fault> {
        let code = self.key_of(first);
        let earlier = std::mem::replace(&mut self.interval, code);
        if count > 1 && earlier == self.interval {
            return Err(Fault { number: 25, node: INTERVAL, from: first.to });
        }
        Ok(())
    }

    /// Sets back what the components of a position or price will fill in.
    #[inline(always)]
    fn before(&mut self, node: usize) {
        match node {
            16 | 23 => self.hash = FIRST_HASH,
            19 | 24 => self.unit = 0,
            _ => {}
        }
    }

    /// What a right segment means for the message: 21 and 22, positions and prices.
    #[inline(always)]
    fn after(&mut self, node: usize, at: usize, end: usize) -> Result<(), Fault> {
        match node {
            16 | 23 => self.open_position(node, at, end)?,
            17 | 18 => self.extend_position(),
            19 | 24 => self.hand_out_price(at),
            20 | 25 => self.prices.range(at),
            26 if !self.is_counted_right() => return Err(Fault { number: 21, node, from: end }),
            _ => {}
        }
        Ok(())
    }

    #[inline(always)]
    fn open_position(&mut self, node: usize, at: usize, end: usize) -> Result<(), Fault> {
        self.lins += 1;
        if !self.count.is_plain || self.count.amount != self.lins as i64 {
            return Err(Fault { number: 22, node, from: end });
        }
        if self.compares {
            self.positions.all.push(Position::new(self.hash, at, self.segment, node));
        }
        Ok(())
    }

    /// PIA and IMD belong to the last position; the hash has gone on from LIN's.
    fn extend_position(&mut self) {
        if let Some(position) = self.positions.all.last_mut() {
            position.hash = self.hash;
        }
    }

    #[inline(always)]
    fn hand_out_price(&mut self, at: usize) {
        self.prices.price(&Price {
            position: self.lins,
            article: self.article.from,
            article_length: self.article.to - self.article.from,
            amount: self.amount.amount,
            decimals: self.amount.decimals,
            unit: self.unit,
            place: at,
        });
    }

    /// UNT's count is the count of segments, and its reference UNH's.
    fn is_counted_right(&self) -> bool {
        let is_same = |reference| text::same(self.y.marks.release(), self.d, reference, &self.last_reference);
        self.count.is_plain && self.count.amount == self.segment as i64 && is_same(&self.reference)
    }

    #[inline(always)]
    fn key_of(&self, part: &Part) -> u64 {
        text::key_of(self.y.marks.release(), self.d, part)
    }
}

/// The first component of the first element; a segment of the tag alone has an empty one.
#[inline(always)]
fn first_part<M: Marks>(marks: M, scanner: &mut Scanner<M>, at: usize, head: u32) -> Part {
    // The byte behind the tag.
    scanner.next();
    if head >> 24 == marks.terminator() as u32 {
        return Part { from: at + 3, to: at + 3, releases: 0, stop: Class::Terminator };
    }
    scanner.part(at + 4)
}
