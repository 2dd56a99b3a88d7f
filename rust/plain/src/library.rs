//! The calls as a trait, so that another library can be put beside this reader.

use crate::reader::{self, Article, Survey};
use crate::{Reading, Verdict};

pub trait Library {
    fn name(&self) -> &'static str;
    fn survey(&self, reading: Reading, d: &[u8]) -> Result<Survey, u32>;
    fn next_message(&self, reading: Reading, d: &[u8], from: usize) -> Option<(usize, usize)>;
    fn judge_at(&self, reading: Reading, d: &[u8], at: usize) -> Verdict;
    fn prices(&self, reading: Reading, d: &[u8], at: usize, k: usize, row: &mut [i64]) -> Result<(usize, usize), u32>;
    fn article(&self, reading: Reading, d: &[u8], at: usize, k: usize) -> Article;

    /// One step of the segment reader from a place: start, end and whether it is a piece.
    fn segment_at(&self, reading: Reading, d: &[u8], at: usize) -> Option<(usize, usize, bool)>;

    /// A part of the delivery without its release marks, as far as `out` has room, and how many bytes it has.
    fn without_releases(&self, reading: Reading, d: &[u8], place: usize, count: usize, out: &mut [u8]) -> usize;
}

/// This reader.
pub struct Plain;

impl Library for Plain {
    fn name(&self) -> &'static str {
        "plain"
    }

    fn survey(&self, reading: Reading, d: &[u8]) -> Result<Survey, u32> {
        reader::survey(reading, d)
    }

    fn next_message(&self, reading: Reading, d: &[u8], from: usize) -> Option<(usize, usize)> {
        reader::next_message(reading, d, from)
    }

    fn judge_at(&self, reading: Reading, d: &[u8], at: usize) -> Verdict {
        reader::judge_at(reading, d, at)
    }

    fn prices(&self, reading: Reading, d: &[u8], at: usize, k: usize, row: &mut [i64]) -> Result<(usize, usize), u32> {
        reader::prices(reading, d, at, k, row)
    }

    fn article(&self, reading: Reading, d: &[u8], at: usize, k: usize) -> Article {
        reader::article(reading, d, at, k)
    }

    fn segment_at(&self, reading: Reading, d: &[u8], at: usize) -> Option<(usize, usize, bool)> {
        reader::segment_at(reading, d, at)
    }

    fn without_releases(&self, reading: Reading, d: &[u8], place: usize, count: usize, out: &mut [u8]) -> usize {
        reader::without_releases(reading, d, place, count, out)
    }
}
