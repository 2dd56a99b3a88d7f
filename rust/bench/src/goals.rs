//! What is to be reached, with the figure of this run: the worst of all kinds that a goal speaks of.

use generator::{LINES, OTHERS};

use crate::case::{ratio, Best, Case};

/// A figure that may be at most the limit.
struct Goal {
    name: &'static str,
    figure: f64,
    limit: f64,
}

/// The last library against the first, which is the plain reader. `long` and `short` have the same kinds in the same order.
pub fn print_goals(long: &[Case], short: &[Case]) {
    let (others, rest): (Vec<_>, Vec<_>) = long.iter().zip(short).partition(|(case, _)| OTHERS.contains(&case.name));
    let (lines, bare): (Vec<_>, Vec<_>) = rest.into_iter().partition(|(case, _)| LINES.contains(&case.name));
    for goal in goals(&bare).iter().chain(&line_goals(&lines)).chain(&character_goals(&others)) {
        let word = if goal.figure <= goal.limit { "reached" } else { "missed" };
        println!("goal {word}: {} {:.2}, at most {:.2}", goal.name, goal.figure, goal.limit);
    }
}

/// A kind at both sizes, the long one first.
type Kind<'a> = (&'a Case, &'a Case);

/// What may at most be taken against the plain reader's survey, and on sheets of few positions.
const AGAINST_PLAIN: f64 = 1.0 / 0.8;
const AGAINST_PLAIN_ON_MANY: f64 = 1.0 / 0.75;

fn goals(kinds: &[Kind]) -> [Goal; 7] {
    let usual: Vec<Kind> = kinds.iter().copied().filter(|(case, _)| case.name != "dense").collect();
    let valid = of_kind(kinds, "valid");
    let counts = kinds.iter().map(|(case, _)| ratio(last(case).count, case.yardstick));
    let per_byte_of_valid = per_byte(of_kind(kinds, "dense")) / per_byte(valid);
    let others = usual.iter().filter(|(case, _)| case.name != "many").map(against_plain);
    [
        Goal { name: "counting segments, yardsticks", figure: worst(counts), limit: 1.5 },
        Goal { name: "survey on valid, yardsticks", figure: ratio(last(valid).survey, valid.yardstick), limit: 3.0 },
        Goal { name: "survey on all but many and dense, surveys of the plain reader", figure: worst(others), limit: AGAINST_PLAIN },
        Goal { name: "survey on many, surveys of the plain reader", figure: on(&usual, "many"), limit: AGAINST_PLAIN_ON_MANY },
        Goal { name: "growth on all but dense", figure: worst(usual.iter().map(growth)), limit: 1.2 },
        Goal { name: "dense, time per byte of valid", figure: per_byte_of_valid, limit: 40.0 },
        Goal { name: "all messages and prices, surveys", figure: worst(kinds.iter().map(walks)), limit: 3.0 },
    ]
}

fn line_goals(kinds: &[Kind]) -> [Goal; 5] {
    let others = kinds.iter().filter(|(case, _)| case.name != "many_lines").map(against_plain);
    [
        Goal { name: "with lines: survey on all but many, surveys of the plain reader", figure: worst(others), limit: AGAINST_PLAIN },
        Goal {
            name: "with lines: survey on many, surveys of the plain reader",
            figure: on(kinds, "many_lines"),
            limit: AGAINST_PLAIN_ON_MANY,
        },
        Goal {
            name: "with lines: survey, surveys of the same sheets without line breaks",
            figure: worst(kinds.iter().map(of_usual_form)),
            limit: 1.25,
        },
        Goal { name: "with lines: growth", figure: worst(kinds.iter().map(growth)), limit: 1.2 },
        Goal { name: "with lines: all messages and prices, surveys", figure: worst(kinds.iter().map(walks)), limit: 3.0 },
    ]
}

/// At least a quarter of the speed with the usual characters.
fn character_goals(kinds: &[Kind]) -> [Goal; 3] {
    let of_usual = worst(kinds.iter().map(of_usual_form));
    [
        Goal { name: "with other characters: survey, surveys of the same sheets with the usual ones", figure: of_usual, limit: 4.0 },
        Goal { name: "with other characters: growth", figure: worst(kinds.iter().map(growth)), limit: 1.2 },
        Goal { name: "with other characters: all messages and prices, surveys", figure: worst(kinds.iter().map(walks)), limit: 3.0 },
    ]
}

fn of_usual_form((case, _): &Kind) -> f64 {
    ratio(last(case).survey, last(case).form)
}

fn of_kind<'a>(kinds: &[Kind<'a>], name: &str) -> &'a Case {
    kinds.iter().find(|(case, _)| case.name == name).expect("a delivery of each kind").0
}

fn on(kinds: &[Kind], name: &str) -> f64 {
    worst(kinds.iter().filter(|(case, _)| case.name == name).map(against_plain))
}

fn last(case: &Case) -> &Best {
    &case.best[case.best.len() - 1]
}

fn against_plain((case, _): &Kind) -> f64 {
    ratio(last(case).survey, case.best[0].survey)
}

/// The long delivery has eight times the bytes of the short one.
fn growth((case, part): &Kind) -> f64 {
    ratio(last(case).survey, last(part).survey) / 8.0
}

fn walks((case, _): &Kind) -> f64 {
    ratio(last(case).walk, last(case).survey)
}

fn per_byte(case: &Case) -> f64 {
    last(case).survey.as_secs_f64() / case.d.len() as f64
}

fn worst(figures: impl Iterator<Item = f64>) -> f64 {
    figures.fold(0.0, f64::max)
}
