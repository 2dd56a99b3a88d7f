//! How often each answer came.

use std::collections::BTreeMap;
use std::fmt::Display;

use generator::{Characters, USUAL};
use plain::{Article, Reading, Survey, Verdict};

use crate::used::used;

/// A number and how often it came.
type Counts = BTreeMap<usize, u64>;

#[derive(Default)]
pub struct Tally {
    deliveries: u64,
    bytes: u64,
    longest: usize,
    /// Deliveries that hold a line break somewhere.
    with_breaks: u64,
    /// Deliveries with other characters: in UNA, handed in.
    other_una: u64,
    other_handed: u64,
    /// Verdicts that accept a message of such a delivery.
    other_accepted: u64,
    messages: u64,
    accepted: u64,
    outside: u64,
    prices: u64,
    pub calls: u64,
    /// Steps of the segment reader that gave a segment, a piece or nothing.
    steps: BTreeMap<&'static str, u64>,
    verdicts: Counts,
    surveys: Counts,
    price_refusals: Counts,
    article_refusals: Counts,
    nodes: Counts,
    /// What 14 names, by DE0057 and node.
    missing: BTreeMap<String, u64>,
    /// Accepted messages by their DE0057.
    editions: BTreeMap<String, u64>,
}

impl Tally {
    pub fn delivery(&mut self, reading: Reading, d: &[u8]) {
        self.deliveries += 1;
        self.bytes += d.len() as u64;
        self.longest = self.longest.max(d.len());
        self.with_breaks += d.iter().any(|byte| matches!(byte, b'\r' | b'\n')) as u64;
        let others = used(reading, d);
        self.other_una += (others != USUAL && others != reading.characters) as u64;
        self.other_handed += (others != USUAL && others == reading.characters) as u64;
    }

    pub fn survey(&mut self, survey: &Result<Survey, u32>) {
        match survey {
            Ok(survey) => {
                self.messages += survey.messages as u64;
                self.accepted += survey.accepted as u64;
                self.outside += survey.outside as u64;
            }
            Err(number) => count(&mut self.surveys, *number as usize),
        }
    }

    /// The verdict on what begins at `at`.
    pub fn verdict(&mut self, reading: Reading, d: &[u8], at: usize, verdict: &Verdict) {
        let edition = || edition(used(reading, d), d.get(at..).unwrap_or_default());
        match verdict {
            Verdict::Accepted { .. } => {
                count(&mut self.verdicts, 0);
                self.other_accepted += (used(reading, d) != USUAL) as u64;
                *self.editions.entry(edition()).or_default() += 1;
            }
            Verdict::Refused { number, node, .. } => {
                count(&mut self.verdicts, *number as usize);
                count(&mut self.nodes, *node);
                if *number == 14 {
                    *self.missing.entry(format!("{} {node}", edition())).or_default() += 1;
                }
            }
        }
    }

    pub fn prices(&mut self, answer: &Result<(usize, usize), u32>) {
        match answer {
            Ok((written, _)) => {
                self.prices += *written as u64;
                count(&mut self.price_refusals, 0);
            }
            Err(number) => count(&mut self.price_refusals, *number as usize),
        }
    }

    pub fn article(&mut self, answer: &Article) {
        count(&mut self.article_refusals, answer.number as usize);
    }

    pub fn segment(&mut self, answer: &Option<(usize, usize, bool)>) {
        let word = match answer {
            Some((_, _, false)) => "segment",
            Some((_, _, true)) => "piece",
            None => "none",
        };
        *self.steps.entry(word).or_default() += 1;
    }

    pub fn print(&self) {
        let (deliveries, with_breaks) = (self.deliveries, self.with_breaks);
        println!(
            "deliveries {deliveries}, with line breaks {with_breaks}, bytes {}, longest {}, calls {}",
            self.bytes, self.longest, self.calls
        );
        println!(
            "with other characters in UNA {}, with others handed in {}, messages judged right in these {}",
            self.other_una, self.other_handed, self.other_accepted
        );
        println!("messages {}, accepted {}, segments outside {}", self.messages, self.accepted, self.outside);
        println!("prices compared {}", self.prices);
        println!("segment_at: {}", counted(&self.steps));
        println!("survey refused: {}", counted(&self.surveys));
        println!("judge_at (0 accepted): {}", counted(&self.verdicts));
        println!("judge_at accepted by edition: {}", counted(&self.editions));
        println!("nodes named: {}", counted(&self.nodes));
        println!("nodes named by 14, with their edition: {}", counted(&self.missing));
        println!("prices (0 given): {}", counted(&self.price_refusals));
        println!("article (0 given): {}", counted(&self.article_refusals));
    }
}

fn count(all: &mut Counts, number: usize) {
    *all.entry(number).or_default() += 1;
}

fn counted<T: Display>(all: &BTreeMap<T, u64>) -> String {
    let shown: Vec<String> = all.iter().map(|(number, count)| format!("{number}: {count}")).collect();
    shown.join(", ")
}

/// The decoded fifth component of the second element of the segment that `d` begins with.
fn edition(characters: Characters, d: &[u8]) -> String {
    let (mut element, mut component) = (0, 1);
    let mut named = String::new();
    let mut bytes = d.iter();
    while let Some(&byte) = bytes.next() {
        let literal = match characters.iter().position(|&one| one == byte) {
            Some(4) => break,
            Some(1) => {
                (element, component) = (element + 1, 1);
                continue;
            }
            Some(0) => {
                component += 1;
                continue;
            }
            Some(3) => bytes.next().copied().unwrap_or(byte),
            _ => byte,
        };
        if (element, component) == (2, 5) {
            named.push(literal as char);
        }
    }
    named
}
