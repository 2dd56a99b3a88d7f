//! One delivery, and the shortest times of yardstick and libraries on it.

use std::hint::black_box;
use std::time::{Duration, Instant};

use generator::{kind, usual_form, LINES, OTHERS};
use plain::{Library, Reading};

use crate::walk::walk;
use crate::yardstick::terminators;
use crate::Libraries;

pub struct Case {
    pub name: &'static str,
    pub d: Vec<u8>,
    outside: Vec<u8>,
    /// The same sheets without line breaks or with the usual characters, if they have others.
    form: Option<Vec<u8>>,
    segments: usize,
    pub yardstick: Duration,
    pub best: Vec<Best>,
}

/// The shortest times of one library.
#[derive(Clone)]
pub struct Best {
    pub survey: Duration,
    pub count: Duration,
    pub walk: Duration,
    /// Survey of the same sheets in their usual form.
    pub form: Duration,
}

/// What is timed is the usual reading.
pub const USUAL: Reading = Reading::usual();

impl Case {
    pub fn new(name: &'static str, size: usize, libraries: Libraries) -> Case {
        let d = kind(name, size, 7);
        let outside = without_messages(&d);
        let is_other = LINES.contains(&name) || OTHERS.contains(&name);
        let form = is_other.then(|| usual_form(name, size, 7));
        let segments = count(libraries[0], &d);
        let never = Best { survey: Duration::MAX, count: Duration::MAX, walk: Duration::MAX, form: Duration::MAX };
        Case { name, d, outside, form, segments, yardstick: Duration::MAX, best: vec![never; libraries.len()] }
    }

    /// One more time of each.
    pub fn round(&mut self, libraries: Libraries, row: &mut [i64]) {
        let d = &self.d;
        shorten(&mut self.yardstick, || ignore(terminators(black_box(d))));
        for (best, library) in self.best.iter_mut().zip(libraries) {
            shorten(&mut best.survey, || ignore(library.survey(USUAL, black_box(d))));
            shorten(&mut best.count, || ignore(library.survey(USUAL, black_box(&self.outside))));
            if let Some(form) = &self.form {
                shorten(&mut best.form, || ignore(library.survey(USUAL, black_box(form))));
            }
            shorten(&mut best.walk, || ignore(walk(*library, black_box(d), row)));
        }
    }

    pub fn print(&self, libraries: Libraries) {
        println!("{}", self.describe(libraries[0]));
        println!("  {:<12} {:>9.1} us", "yardstick", self.yardstick.as_secs_f64() * 1e6);
        for (best, library) in self.best.iter().zip(libraries) {
            let form = self.form.as_ref().map(|_| format!("; in the usual form {:.1} us", best.form.as_secs_f64() * 1e6));
            println!(
                "  {:<12} {:>9.1} us  {:.2} yardsticks; counting segments {:.2} yardsticks; all messages and prices {:.2} surveys{}",
                library.name(),
                best.survey.as_secs_f64() * 1e6,
                ratio(best.survey, self.yardstick),
                ratio(best.count, self.yardstick),
                ratio(best.walk, best.survey),
                form.unwrap_or_default()
            );
        }
    }

    fn describe(&self, library: &dyn Library) -> String {
        match library.survey(USUAL, &self.d) {
            Ok(survey) => format!(
                "{}, {} bytes, {} segments, {} messages, {} accepted, {} outside",
                self.name,
                self.d.len(),
                self.segments,
                survey.messages,
                survey.accepted,
                survey.outside
            ),
            Err(number) => format!("{}, {} bytes, refused with {number}", self.name, self.d.len()),
        }
    }
}

fn count(library: &dyn Library, d: &[u8]) -> usize {
    std::iter::successors(library.segment_at(USUAL, d, 0), |(_, end, _)| library.segment_at(USUAL, d, *end)).count()
}

/// The same bytes without any UNH: all segments lie outside, and survey does nothing but count them.
fn without_messages(d: &[u8]) -> Vec<u8> {
    let mut d = d.to_vec();
    for at in 2..d.len() {
        if &d[at - 2..=at] == b"UNH" {
            d[at] = b'X';
        }
    }
    d
}

pub fn ratio(time: Duration, other: Duration) -> f64 {
    time.as_secs_f64() / other.as_secs_f64()
}

/// The answer is wanted, as far as the compiler knows.
pub fn ignore<T>(answer: T) {
    black_box(answer);
}

/// Two calls in a row, since other deliveries have taken the cache before the first.
fn shorten(best: &mut Duration, mut call: impl FnMut()) {
    for _ in 0..2 {
        let begin = Instant::now();
        call();
        *best = (*best).min(begin.elapsed());
    }
}
