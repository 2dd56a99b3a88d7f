//! The proved library as the trait that the plain reader has.

use plain::{Article, Library, Reading, Survey, Verdict};

pub struct Proved;

/// The library's own value for a reading.
fn own(reading: Reading) -> schaumtruhe::Reading {
    let own = match reading.skips {
        true => schaumtruhe::Reading::usual(),
        false => schaumtruhe::Reading::strict(),
    };
    own.with_characters(reading.characters)
}

impl Library for Proved {
    fn name(&self) -> &'static str {
        "proved"
    }

    fn survey(&self, reading: Reading, d: &[u8]) -> Result<Survey, u32> {
        let totals = schaumtruhe::survey(own(reading), d);
        match totals.number {
            0 => Ok(Survey { messages: totals.messages, accepted: totals.accepted, outside: totals.outside }),
            number => Err(number),
        }
    }

    fn next_message(&self, reading: Reading, d: &[u8], from: usize) -> Option<(usize, usize)> {
        let next = schaumtruhe::next_message(own(reading), d, from);
        (next.found == 1).then_some((next.start, next.end))
    }

    fn judge_at(&self, reading: Reading, d: &[u8], at: usize) -> Verdict {
        let judged = schaumtruhe::judge_at(own(reading), d, at);
        match judged.number {
            0 => Verdict::Accepted { segments: judged.segment, end: judged.place },
            number => Verdict::Refused { number, segment: judged.segment, place: judged.place, node: judged.node },
        }
    }

    fn prices(&self, reading: Reading, d: &[u8], at: usize, k: usize, row: &mut [i64]) -> Result<(usize, usize), u32> {
        let prices = schaumtruhe::prices(own(reading), d, at, k, row);
        match prices.number {
            0 => Ok((prices.written, prices.total)),
            number => Err(number),
        }
    }

    fn article(&self, reading: Reading, d: &[u8], at: usize, k: usize) -> Article {
        let article = schaumtruhe::article(own(reading), d, at, k);
        Article { number: article.number, place: article.part.as_ptr() as usize - d.as_ptr() as usize, length: article.part.len() }
    }

    fn segment_at(&self, reading: Reading, d: &[u8], at: usize) -> Option<(usize, usize, bool)> {
        let segment = schaumtruhe::segment_at(own(reading), d, at);
        (segment.found == 1).then_some((segment.start, segment.end, segment.piece == 1))
    }

    fn without_releases(&self, reading: Reading, d: &[u8], place: usize, count: usize, out: &mut [u8]) -> usize {
        schaumtruhe::plain(own(reading), d, place, count, out)
    }
}
