//! All calls on one delivery in both readings, with places and numbers in and out of range, and with characters handed in.

use generator::{Delivery, Random, LIMIT};
use plain::{Library, Reading};

use crate::used::used;
use crate::{Guarded, Tally};

/// Rows are at most so long.
const LONGEST_ROW: usize = 1024;
/// Room for a part without its release marks.
const LONGEST_PART: usize = 256;
/// Of a delivery with more messages only so many are asked for prices, or a long one would take too long.
const MOST_ASKED: usize = 24;

/// Where deliveries and rows stand while they are lent.
pub struct Places {
    delivery: Guarded,
    rows: Rows,
}

/// What is lent to be written to, for the one library and for the other.
struct Rows {
    row: Guarded,
    other_row: Guarded,
    part: Guarded,
    other_part: Guarded,
}

impl Places {
    pub fn new() -> Places {
        let (row, other_row) = (Guarded::new(LONGEST_ROW * 8), Guarded::new(LONGEST_ROW * 8));
        let (part, other_part) = (Guarded::new(LONGEST_PART), Guarded::new(LONGEST_PART));
        Places { delivery: Guarded::new(LIMIT + 65_536), rows: Rows { row, other_row, part, other_part } }
    }
}

impl Default for Places {
    fn default() -> Places {
        Places::new()
    }
}

pub const READINGS: [Reading; 2] = [Reading::usual(), Reading::strict()];
/// One for each of the readings.
pub type Tallies = [Tally; READINGS.len()];

/// Two libraries, the reading and the delivery lent to both.
struct Pair<'a> {
    reading: Reading,
    one: &'a dyn Library,
    other: &'a dyn Library,
    d: &'a [u8],
}

type Outcome = Result<(), String>;

/// Compares all calls, with the characters handed in and, if those are others, with the usual ones too; the difference, if there is one, in words.
pub fn compare_delivery(
    one: &dyn Library,
    other: &dyn Library,
    delivery: &Delivery,
    random: &mut Random,
    places: &mut Places,
    tallies: &mut Tallies,
) -> Outcome {
    let is_at_begin = random.once_in(4);
    let length = delivery.bytes.len();
    let lent = if is_at_begin { places.delivery.at_the_begin(length) } else { places.delivery.at_the_end(length) };
    lent.copy_from_slice(&delivery.bytes);
    let lent = &*lent;
    for (usual, tally) in READINGS.into_iter().zip(tallies) {
        let given = usual.with_characters(delivery.characters);
        let both = [given, usual];
        for &reading in &both[..1 + (given != usual) as usize] {
            let pair = Pair { reading, one, other, d: lent };
            pair.all_calls(random, &mut places.rows, tally).map_err(|difference| format!("{reading:?}: {difference}"))?;
        }
    }
    if lent != delivery.bytes {
        return Err("the delivery was changed".into());
    }
    Ok(())
}

fn equal<T: PartialEq + std::fmt::Debug>(call: std::fmt::Arguments, one: &T, other: &T) -> Outcome {
    if one == other {
        Ok(())
    } else {
        Err(format!("{call} gives {one:?} and {other:?}"))
    }
}

impl Pair<'_> {
    fn all_calls(&self, random: &mut Random, rows: &mut Rows, tally: &mut Tally) -> Outcome {
        tally.delivery(self.reading, self.d);
        self.survey(tally)?;
        let breaks = break_places(random, self.d);
        self.segments(random, &breaks, tally)?;
        let starts = self.messages(tally)?;
        self.next_messages(random, &starts, &breaks, tally)?;
        for at in asked_places(random, self.d.len(), &starts, &breaks) {
            self.verdict(at, tally)?;
            for k in asked_numbers(random, self, at) {
                let (place, length) = self.article(at, k, tally)?;
                self.part(random, place, length, rows, tally)?;
                let length = row_length(random);
                self.prices(at, k, rows.row.numbers(length), rows.other_row.numbers(length), tally)?;
            }
        }
        for _ in 0..4 {
            let (place, length) = any_part(random, self.d.len());
            self.part(random, place, length, rows, tally)?;
        }
        Ok(())
    }

    fn survey(&self, tally: &mut Tally) -> Outcome {
        let (one, other) = (self.one.survey(self.reading, self.d), self.other.survey(self.reading, self.d));
        tally.calls += 1;
        tally.survey(&one);
        equal(format_args!("survey"), &one, &other)
    }

    fn segment_at(&self, at: usize, tally: &mut Tally) -> Result<Option<(usize, usize, bool)>, String> {
        let (one, other) = (self.one.segment_at(self.reading, self.d, at), self.other.segment_at(self.reading, self.d, at));
        tally.calls += 1;
        tally.segment(&one);
        equal(format_args!("segment_at({at})"), &one, &other)?;
        Ok(one)
    }

    /// A walk through all segments, and single steps from places that it need not come to.
    fn segments(&self, random: &mut Random, breaks: &[usize], tally: &mut Tally) -> Outcome {
        let mut at = 0;
        while let Some((_, end, _)) = self.segment_at(at, tally)? {
            at = end;
        }
        for at in edge_places(self.d.len()).iter().chain(breaks) {
            self.segment_at(*at, tally)?;
        }
        let mark = used(self.reading, self.d)[3];
        for _ in 0..12 {
            let place = random.below(self.d.len() + 2);
            // Behind a release mark the reader starts anew: its place is all that it knows.
            let release = self.d.iter().skip(place).position(|&byte| byte == mark);
            self.segment_at(place, tally)?;
            self.segment_at(release.map_or(place, |after| place + after + 1), tally)?;
        }
        Ok(())
    }

    fn next_message(&self, from: usize, tally: &mut Tally) -> Result<Option<(usize, usize)>, String> {
        let (one, other) = (self.one.next_message(self.reading, self.d, from), self.other.next_message(self.reading, self.d, from));
        tally.calls += 1;
        equal(format_args!("next_message({from})"), &one, &other)?;
        Ok(one)
    }

    /// The start of every message, by going from one to the next.
    fn messages(&self, tally: &mut Tally) -> Result<Vec<usize>, String> {
        let mut starts = Vec::new();
        let mut from = 0;
        // Past a number of messages the calls, which may each read from the front, would take too long.
        while starts.len() < 400 {
            let Some((start, end)) = self.next_message(from, tally)? else { break };
            starts.push(start);
            from = end;
        }
        Ok(starts)
    }

    fn next_messages(&self, random: &mut Random, starts: &[usize], breaks: &[usize], tally: &mut Tally) -> Outcome {
        for from in edge_places(self.d.len()).iter().chain(breaks) {
            self.next_message(*from, tally)?;
        }
        for _ in 0..6 {
            let from = random.below(self.d.len() + 2);
            self.next_message(from, tally)?;
        }
        for &start in starts.iter().take(MOST_ASKED) {
            self.next_message(start + 1, tally)?;
            self.next_message(start.wrapping_sub(1), tally)?;
        }
        Ok(())
    }

    fn verdict(&self, at: usize, tally: &mut Tally) -> Outcome {
        let (one, other) = (self.one.judge_at(self.reading, self.d, at), self.other.judge_at(self.reading, self.d, at));
        tally.calls += 1;
        tally.verdict(self.reading, self.d, at, &one);
        equal(format_args!("judge_at({at})"), &one, &other)
    }

    /// Place and length.
    fn article(&self, at: usize, k: usize, tally: &mut Tally) -> Result<(usize, usize), String> {
        let (one, other) = (self.one.article(self.reading, self.d, at, k), self.other.article(self.reading, self.d, at, k));
        tally.calls += 1;
        tally.article(&one);
        equal(format_args!("article({at}, {k})"), &one, &other)?;
        Ok((one.place, one.length))
    }

    /// A part without its release marks, with more or less room than it needs.
    fn part(&self, random: &mut Random, place: usize, length: usize, rows: &mut Rows, tally: &mut Tally) -> Outcome {
        let needed = self.one.without_releases(self.reading, self.d, place, length, &mut []);
        let room = *random.pick(&[&0, &1, &needed, &needed, &needed.saturating_sub(1), &(needed + 1), &LONGEST_PART]);
        let room = room.min(LONGEST_PART);
        let (out, other_out) = (rows.part.at_the_end(room), rows.other_part.at_the_end(room));
        out.fill(7);
        other_out.fill(7);
        let one = self.one.without_releases(self.reading, self.d, place, length, out);
        let other = self.other.without_releases(self.reading, self.d, place, length, other_out);
        tally.calls += 1;
        equal(format_args!("without_releases({place}, {length}, room of {room})"), &one, &other)?;
        equal(format_args!("what without_releases({place}, {length}, room of {room}) writes"), &out, &other_out)
    }

    /// The answers and both rows whole: what is not written has to keep its pattern.
    fn prices(&self, at: usize, k: usize, row: &mut [i64], other_row: &mut [i64], tally: &mut Tally) -> Outcome {
        fill(row);
        fill(other_row);
        let one = self.one.prices(self.reading, self.d, at, k, row);
        let other = self.other.prices(self.reading, self.d, at, k, other_row);
        tally.calls += 1;
        tally.prices(&one);
        equal(format_args!("prices({at}, {k}, row of {})", row.len()), &one, &other)?;
        equal(format_args!("the row of {} after prices({at}, {k})", row.len()), &row, &other_row)
    }
}

/// At both ends of a delivery, at those of UNA, and far behind.
fn edge_places(length: usize) -> [usize; 10] {
    [0, 1, 8, 9, 10, length.wrapping_sub(1), length, length + 1, usize::MAX, usize::MAX - 3]
}

/// Some places where a break stands, and right behind it; so also inside runs of them and at what follows a run.
fn break_places(random: &mut Random, d: &[u8]) -> Vec<usize> {
    let breaks: Vec<usize> = (0..d.len()).filter(|&at| matches!(d[at], b'\r' | b'\n')).collect();
    let count = breaks.len().min(6);
    (0..count).map(|_| breaks[random.below(breaks.len())]).flat_map(|at| [at, at + 1]).collect()
}

/// A part of the delivery, or one that reaches past its end.
fn any_part(random: &mut Random, length: usize) -> (usize, usize) {
    let anywhere = random.below(length + 2);
    let place = *random.pick(&[&anywhere, &anywhere, &anywhere, &0, &length, &usize::MAX, &length.saturating_sub(3)]);
    let count = *random.pick(&[&0, &1, &2, &9, &60, &length, &usize::MAX]);
    (place, count)
}

/// A pattern that no price has.
fn fill(row: &mut [i64]) {
    for (at, slot) in row.iter_mut().enumerate() {
        *slot = i64::MIN + 77 * at as i64;
    }
}

fn row_length(random: &mut Random) -> usize {
    match random.below(8) {
        0 => 0,
        1 => 7,
        2 => 8,
        3 => 9,
        4 => random.between(10, 64),
        5 => random.between(1, 6),
        _ => random.between(64, LONGEST_ROW),
    }
}

/// Starts of messages and places where none begins.
fn asked_places(random: &mut Random, length: usize, starts: &[usize], breaks: &[usize]) -> Vec<usize> {
    let mut places: Vec<usize> = starts.to_vec();
    if places.len() > MOST_ASKED {
        random.shuffle(&mut places);
        places.truncate(MOST_ASKED);
    }
    places.extend(breaks.iter().take(4));
    places.push(random.below(length + 2));
    places.push(random.pick(&[&0, &1, &9, &length, &(length + 1), &usize::MAX, &(usize::MAX - 1)]).to_owned());
    if let Some(&start) = starts.first() {
        places.push(if random.once_in(2) { start + 1 } else { start.wrapping_sub(1) });
    }
    places
}

/// Numbers of prices that the message has, the first it has not, and larger ones.
fn asked_numbers(random: &mut Random, pair: &Pair, at: usize) -> Vec<usize> {
    let total = pair.one.prices(pair.reading, pair.d, at, 0, &mut []).map_or(0, |(_, total)| total);
    let mut numbers = vec![0, total];
    match random.below(4) {
        0 => numbers.push(total + 1),
        1 => numbers.push(usize::MAX),
        2 => numbers.push(total.saturating_sub(1)),
        _ => numbers.push(usize::MAX / 8),
    }
    if total > 1 {
        numbers.push(random.below(total));
        numbers.push(random.below(total));
    }
    numbers
}
