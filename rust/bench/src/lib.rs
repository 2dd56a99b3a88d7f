//! Times and stack of libraries in the usual reading, on five kinds of deliveries, four of them also with CR LF after each segment and one with
//! other service characters; each has sheets of both editions.
//!
//! A wrapper crate implements `plain::Library` for another library and calls `run` with both.

mod case;
mod goals;
mod stack;
mod walk;
mod yardstick;

use std::time::{Duration, Instant};

use generator::{kind, KINDS, LINES, OTHERS};
use plain::Library;

use case::{ignore, Case, USUAL};

pub use stack::stack_of;
pub use walk::{walk, ROW};
pub use yardstick::terminators;

pub type Libraries<'a> = &'a [&'static (dyn Library + Sync)];

/// The two sizes that are timed, which growth compares.
const SHORT: usize = 131_072;
const LONG: usize = 1_048_576;
/// Those between, which show how rule 23 grows on `dense`.
const BETWEEN: [usize; 2] = [262_144, 524_288];
/// A `dense` delivery takes as long as all others together, so it comes in one of so many rounds.
const DENSE: usize = 16;

/// Each kind at each size: the yardstick, then of every library survey and counting segments as multiples of it, and the
/// way through all messages and prices as a multiple of that library's survey.
///
/// The rounds go in turn over all deliveries, and on each over yardstick and libraries, so that the shortest times of all of
/// them come from the same quiet moments of the machine, wherever in the run those are.
pub fn run(libraries: Libraries, length: Duration) {
    let mut all = Vec::new();
    for size in [SHORT, LONG] {
        all.extend(KINDS.map(|name| Case::new(name, size, libraries)));
        all.extend(LINES.map(|name| Case::new(name, size, libraries)));
        all.extend(OTHERS.map(|name| Case::new(name, size, libraries)));
    }
    all.extend(BETWEEN.map(|size| Case::new("dense", size, libraries)));
    let mut row = vec![0; ROW];
    let until = Instant::now() + length;
    let mut round = 0;
    while round == 0 || Instant::now() < until {
        for case in &mut all {
            if case.name != "dense" || round % DENSE == 0 {
                case.round(libraries, &mut row);
            }
        }
        round += 1;
    }
    println!("{round} rounds");
    for case in &all {
        case.print(libraries);
    }
    let kinds = KINDS.len() + LINES.len() + OTHERS.len();
    goals::print_goals(&all[kinds..2 * kinds], &all[..kinds]);
    for name in KINDS.iter().chain(&LINES).chain(&OTHERS) {
        stacks(name, libraries);
    }
}

/// The stack of each call on the long delivery of a kind.
fn stacks(name: &str, libraries: Libraries) {
    let d = kind(name, LONG, 7);
    let at = libraries[0].next_message(USUAL, &d, d.len() / 3).or(libraries[0].next_message(USUAL, &d, 0)).map_or(0, |(start, _)| start);
    for library in libraries {
        let mut row = vec![0i64; 800];
        let survey = stack_of(|| ignore(library.survey(USUAL, &d)));
        let next = stack_of(|| ignore(library.next_message(USUAL, &d, at)));
        let judge = stack_of(|| ignore(library.judge_at(USUAL, &d, at)));
        let prices = stack_of(|| ignore(library.prices(USUAL, &d, at, 0, &mut row)));
        let article = stack_of(|| ignore(library.article(USUAL, &d, at, 0)));
        let segment = stack_of(|| ignore(library.segment_at(USUAL, &d, at)));
        println!(
            "stack of {} on {name}: survey {survey}, next_message {next}, judge_at {judge}, prices {prices}, article {article}, \
             segment_at {segment} bytes",
            library.name()
        );
    }
}
