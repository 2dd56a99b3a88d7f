//! Document 01's calls over a lent delivery.

use crate::agree::Positions;
use crate::answers::{Judged, NoPrices, Price, Prices, Verdict};
use crate::cut;
use crate::judge::judge;
use crate::marks::{with_syntax, Marks, Syntax};
use crate::segments::{self, admitted, past_breaks, rest_of_message, segment_end};
use crate::text::decoded;
use crate::Reading;

#[derive(Clone, Copy, PartialEq, Eq, Debug)]
pub struct Survey {
    pub messages: usize,
    pub accepted: usize,
    pub outside: usize,
}

/// The article of a price: refusal number or 0, place from the delivery's start, length with releases.
#[derive(Clone, Copy, PartialEq, Eq, Debug)]
pub struct Article {
    pub number: u32,
    pub place: usize,
    pub length: usize,
}

/// Eight numbers to a price.
pub const WIDTH: usize = 8;

/// Messages, accepted, segments outside; or refusal 1 or 2.
pub fn survey(reading: Reading, d: &[u8]) -> Result<Survey, u32> {
    let admitted = admitted(reading, d)?;
    Ok(with_syntax!(admitted, y => counts(y, d, admitted.front)))
}

fn counts<M: Marks>(y: Syntax<M>, d: &[u8], front: usize) -> Survey {
    let mut at = past_breaks(y.skips, d, front);
    let mut survey = Survey { messages: 0, accepted: 0, outside: 0 };
    let mut positions = Positions::default();
    while at < d.len() {
        if cut::tag_of(cut::head(d, at)) != cut::UNH {
            survey.outside += 1;
            at = past_breaks(y.skips, d, segment_end(y.marks, d, at));
            continue;
        }
        let judged = judge(y, d, at, &mut positions, &mut NoPrices);
        survey.messages += 1;
        survey.accepted += is_accepted(&judged.verdict) as usize;
        at = past_breaks(y.skips, d, judged.end);
    }
    survey
}

/// The next segment for a reader at a place: start, end and whether it is a piece. None on a delivery that is not admitted;
/// a place in UNA or before it is before the first.
pub fn segment_at(reading: Reading, d: &[u8], at: usize) -> Option<(usize, usize, bool)> {
    let admitted = admitted(reading, d).ok()?;
    let start = past_breaks(admitted.skips, d, at.max(admitted.front));
    if start >= d.len() {
        return None;
    }
    let (end, is_piece) = with_syntax!(admitted, y => segments::segment_at(y.marks, d, start));
    Some((start, end, is_piece))
}

pub fn is_accepted(verdict: &Verdict) -> bool {
    matches!(verdict, Verdict::Accepted { .. })
}

/// The first message that begins at `from` or later: its start and end.
pub fn next_message(reading: Reading, d: &[u8], from: usize) -> Option<(usize, usize)> {
    let admitted = admitted(reading, d).ok()?;
    with_syntax!(admitted, y => next_from(y, d, admitted.front, from))
}

fn next_from<M: Marks>(y: Syntax<M>, d: &[u8], front: usize, from: usize) -> Option<(usize, usize)> {
    let mut at = segments::segment_from(y, d, front, from)?;
    while at < d.len() {
        let end = segment_end(y.marks, d, at);
        if cut::tag_of(cut::head(d, at)) == cut::UNH {
            return Some((at, rest_of_message(y, d, end)));
        }
        at = past_breaks(y.skips, d, end);
    }
    None
}

/// The verdict on the message that begins at `at`.
pub fn judge_at(reading: Reading, d: &[u8], at: usize) -> Verdict {
    match judge_with(reading, d, at, &mut NoPrices) {
        Ok(judged) => judged.verdict,
        Err(number) => Verdict::without_place(number),
    }
}

/// 1, 2 and 31, else the judged message.
fn judge_with<P: Prices>(reading: Reading, d: &[u8], at: usize, prices: &mut P) -> Result<Judged, u32> {
    let admitted = admitted(reading, d)?;
    with_syntax!(admitted, y => judge_in(y, d, admitted.front, at, prices))
}

fn judge_in<M: Marks, P: Prices>(y: Syntax<M>, d: &[u8], front: usize, at: usize, prices: &mut P) -> Result<Judged, u32> {
    if !segments::begins_message(y, d, front, at) {
        return Err(31);
    }
    Ok(judge(y, d, at, &mut Positions::default(), prices))
}

/// As `judge_with`, with 30 for a refused message.
fn accept_with<P: Prices>(reading: Reading, d: &[u8], at: usize, prices: &mut P) -> Result<(), u32> {
    if is_accepted(&judge_with(reading, d, at, prices)?.verdict) {
        Ok(())
    } else {
        Err(30)
    }
}

/// The prices from number `k` on, as many as fit whole into `row`: how many were written and how many there are.
pub fn prices(reading: Reading, d: &[u8], at: usize, k: usize, row: &mut [i64]) -> Result<(usize, usize), u32> {
    let mut window = Window { start: at, first: k, room: row.len() / WIDTH, total: 0, kept: Vec::new() };
    accept_with(reading, d, at, &mut window)?;
    for (slot, price) in row.chunks_exact_mut(WIDTH).zip(&window.kept) {
        slot.copy_from_slice(price);
    }
    Ok((window.kept.len(), window.total))
}

/// Prices are kept aside until the message is accepted, since a refused one writes nothing.
struct Window {
    start: usize,
    first: usize,
    room: usize,
    total: usize,
    kept: Vec<[i64; WIDTH]>,
}

impl Prices for Window {
    fn price(&mut self, price: &Price) {
        if self.total >= self.first && self.kept.len() < self.room {
            self.kept.push(numbers(self.start, price));
        }
        self.total += 1;
    }

    fn range(&mut self, place: usize) {
        // The last price is the last one kept only if it was kept at all.
        if self.total > self.first && self.total - self.first == self.kept.len() {
            if let Some(price) = self.kept.last_mut() {
                price[7] = (place - self.start) as i64;
            }
        }
    }
}

/// The eight numbers of a price; its RNG may follow.
fn numbers(start: usize, price: &Price) -> [i64; WIDTH] {
    let article = if price.article_length == 0 { -1 } else { (price.article - start) as i64 };
    [
        price.position as i64,
        article,
        price.article_length as i64,
        price.amount,
        price.decimals as i64,
        price.unit as i64,
        (price.place - start) as i64,
        -1,
    ]
}

/// The article of price number `k`.
pub fn article(reading: Reading, d: &[u8], at: usize, k: usize) -> Article {
    let mut one = One { wanted: k, total: 0, found: None };
    let number = match (accept_with(reading, d, at, &mut one), one.found) {
        (Err(number), _) => number,
        (Ok(()), None) => 32,
        (Ok(()), Some(price)) if price.article_length == 0 => return Article { number: 0, place: at, length: 0 },
        (Ok(()), Some(price)) => return Article { number: 0, place: price.article, length: price.article_length },
    };
    Article { number, place: 0, length: 0 }
}

struct One {
    wanted: usize,
    total: usize,
    found: Option<Price>,
}

impl Prices for One {
    fn price(&mut self, price: &Price) {
        if self.total == self.wanted {
            self.found = Some(*price);
        }
        self.total += 1;
    }

    fn range(&mut self, _: usize) {}
}

/// The part of a delivery from `place` on, `count` bytes as far as they stand, without the release marks in it: into `out`, as many as fit.
/// Gives how many bytes it has; 0 for a delivery that gets 1 or 2. A release that nothing follows in the part is a mark too.
pub fn without_releases(reading: Reading, d: &[u8], place: usize, count: usize, out: &mut [u8]) -> usize {
    let Ok(admitted) = admitted(reading, d) else { return 0 };
    let rest = d.get(place..).unwrap_or(&[]);
    let part = &rest[..count.min(rest.len())];
    let release = with_syntax!(admitted, y => y.marks.release());
    for (slot, byte) in out.iter_mut().zip(decoded(release, part)) {
        *slot = byte;
    }
    decoded(release, part).count()
}
