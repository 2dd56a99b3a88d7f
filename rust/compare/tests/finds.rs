//! The comparison finds a library that is wrong in one call.

use compare::{compare_delivery, Naive, Places, Tallies};
use generator::{una, Random};
use plain::{Article, Library, Plain, Reading, Survey, Verdict};

/// Which call is wrong.
#[derive(Clone, Copy, PartialEq, Debug)]
enum Wrong {
    Nothing,
    Survey,
    NextMessage,
    Verdict,
    Edition,
    OneTwice,
    OneAlone,
    Written,
    RowBehind,
    RowOnRefusal,
    Article,
    Piece,
    LooksBack,
    NeverSkips,
    AlwaysSkips,
    EndBehindBreaks,
    BreaksInSegment,
    BeginsAtBreaks,
    HandedInAnyway,
    PointIsMark,
    ReservedByte,
    UsualRelease,
}

struct Altered(Wrong);

impl Library for Altered {
    fn name(&self) -> &'static str {
        "altered"
    }

    fn survey(&self, reading: Reading, d: &[u8]) -> Result<Survey, u32> {
        let reading = match self.0 {
            Wrong::NeverSkips => Reading::strict(),
            Wrong::AlwaysSkips => Reading::usual(),
            _ => reading,
        };
        let survey = Plain.survey(reading, d)?;
        Ok(Survey { outside: survey.outside + (self.0 == Wrong::Survey) as usize, ..survey })
    }

    fn next_message(&self, reading: Reading, d: &[u8], from: usize) -> Option<(usize, usize)> {
        let (start, end) = Plain.next_message(reading, d, from)?;
        match self.0 {
            Wrong::NextMessage => Some((start, end - 1)),
            // Right for a reader that never comes to a place inside a run of breaks.
            Wrong::BeginsAtBreaks if reading.skips && from > 0 && d[from - 1] == b'\r' && d[from] == b'\n' => {
                Plain.next_message(reading, d, start + 1)
            }
            _ => Some((start, end)),
        }
    }

    fn judge_at(&self, reading: Reading, d: &[u8], at: usize) -> Verdict {
        match self.0 {
            Wrong::Edition => return Plain.judge_at(reading, &as_20d(d), at),
            Wrong::HandedInAnyway => return Plain.judge_at(reading, &with_una(d, |_| una(reading.characters)), at),
            Wrong::PointIsMark => {
                return Plain.judge_at(reading, &with_una(d, |una| [&una[..5], b".", &una[6..]].concat().try_into().unwrap()), at)
            }
            Wrong::ReservedByte => {
                return Plain.judge_at(reading, &with_una(d, |una| [&una[..7], b" ", &una[8..]].concat().try_into().unwrap()), at)
            }
            _ => {}
        }
        match Plain.judge_at(reading, d, at) {
            Verdict::Refused { number: 24, segment, place, node } if self.0 == Wrong::EndBehindBreaks => {
                let breaks = d[place..].iter().take_while(|byte| b"\r\n".contains(byte)).count();
                Verdict::Refused { number: 24, segment, place: place + breaks, node }
            }
            Verdict::Refused { number, segment, place, .. } if self.0 == Wrong::Verdict => {
                Verdict::Refused { number, segment, place, node: 0 }
            }
            Verdict::Refused { number: 25, segment, place, node } if self.0 == Wrong::OneTwice => {
                Verdict::Refused { number: 15, segment, place, node }
            }
            // In 2.0c node 21 is a LIN, which 14 may name as well.
            Verdict::Refused { number: 14, segment, place, node: 21 } if self.0 == Wrong::OneAlone => {
                Verdict::Refused { number: 14, segment, place, node: 19 }
            }
            verdict => verdict,
        }
    }

    fn prices(&self, reading: Reading, d: &[u8], at: usize, k: usize, row: &mut [i64]) -> Result<(usize, usize), u32> {
        let answer = Plain.prices(reading, d, at, k, row);
        match answer {
            Ok((written, total)) if self.0 == Wrong::Written => return Ok((written, total + 1)),
            Ok((written, _)) if self.0 == Wrong::RowBehind && written > 0 && row.len() > written * 8 => row[written * 8] = 0,
            Err(30) if self.0 == Wrong::RowOnRefusal && !row.is_empty() => row[0] = 0,
            _ => {}
        }
        answer
    }

    fn article(&self, reading: Reading, d: &[u8], at: usize, k: usize) -> Article {
        let article = Plain.article(reading, d, at, k);
        Article { length: article.length - (self.0 == Wrong::Article && article.length > 1) as usize, ..article }
    }

    fn segment_at(&self, reading: Reading, d: &[u8], at: usize) -> Option<(usize, usize, bool)> {
        let (start, end, is_piece) = Plain.segment_at(reading, d, at)?;
        match self.0 {
            Wrong::Piece => Some((start, end, false)),
            // Right only for a reader that comes to no place behind a release mark.
            Wrong::LooksBack if start > 0 && d[start - 1] == b'?' => {
                Plain.segment_at(reading, d, start - 1).map(|(_, end, piece)| (start, end, piece))
            }
            Wrong::BreaksInSegment if start > at && b"\r\n".contains(&d[at]) => Some((at, end, is_piece)),
            _ => Some((start, end, is_piece)),
        }
    }

    fn without_releases(&self, reading: Reading, d: &[u8], place: usize, count: usize, out: &mut [u8]) -> usize {
        match self.0 {
            // The place of a part means nothing to a delivery without UNA, but that it has the usual release.
            Wrong::UsualRelease => Plain.without_releases(Reading::strict(), d.get(place..).unwrap_or_default(), 0, count, out),
            _ => Plain.without_releases(reading, d, place, count, out),
        }
    }
}

/// The delivery with another UNA, if it has one at its very start.
fn with_una(d: &[u8], change: impl Fn(&[u8; 9]) -> [u8; 9]) -> Vec<u8> {
    match d.first_chunk::<9>() {
        Some(nine) if nine.starts_with(b"UNA") => [&change(nine)[..], &d[9..]].concat(),
        _ => d.to_vec(),
    }
}

/// The delivery with every 2.0c made a 2.0d.
fn as_20d(d: &[u8]) -> Vec<u8> {
    let mut changed = d.to_vec();
    for at in 3..d.len() {
        if d[..=at].ends_with(b"2.0c") {
            changed[at] = b'd';
        }
    }
    changed
}

/// How many of some deliveries show a difference.
fn differences(other: &dyn Library) -> usize {
    let mut places = Places::new();
    let mut tallies = Tallies::default();
    (0..600)
        .filter(|&seed| {
            let d = generator::delivery(seed);
            d.bytes.len() < 100_000 && compare_delivery(&Plain, other, &d, &mut Random::new(seed), &mut places, &mut tallies).is_err()
        })
        .count()
}

#[test]
fn a_right_library_shows_none() {
    assert_eq!(differences(&Altered(Wrong::Nothing)), 0);
    assert_eq!(differences(&Naive::default()), 0);
}

#[test]
fn a_wrong_call_is_found() {
    use Wrong::*;
    for wrong in [Survey, NextMessage, Verdict, Edition, OneTwice, OneAlone, Written, RowBehind, RowOnRefusal, Article, Piece, LooksBack] {
        assert!(differences(&Altered(wrong)) > 10, "{wrong:?}");
    }
}

#[test]
fn wrong_breaks_are_found() {
    use Wrong::*;
    for wrong in [NeverSkips, AlwaysSkips, EndBehindBreaks, BreaksInSegment, BeginsAtBreaks] {
        assert!(differences(&Altered(wrong)) > 10, "{wrong:?}");
    }
}

#[test]
fn wrong_characters_are_found() {
    use Wrong::*;
    for (wrong, least) in [(HandedInAnyway, 10), (PointIsMark, 10), (ReservedByte, 1), (UsualRelease, 10)] {
        let found = differences(&Altered(wrong));
        assert!(found >= least, "{wrong:?} {found}");
    }
}
