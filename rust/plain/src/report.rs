//! The lines of the checking program.

use std::io::Write;

use crate::agree::Positions;
use crate::answers::{Price, Prices, Verdict};
use crate::cut;
use crate::judge::judge;
use crate::marks::{with_syntax, Marks, Syntax};
use crate::segments::{admitted, past_breaks, segment_end};
use crate::text::decoded;
use crate::Reading;

/// All prices of a message, in order.
#[derive(Default)]
struct All(Vec<Price>);

impl Prices for All {
    fn price(&mut self, price: &Price) {
        self.0.push(*price);
    }

    fn range(&mut self, _: usize) {}
}

/// M and P lines for every message and the E line; or the X line alone.
pub fn report(reading: Reading, d: &[u8]) -> Vec<u8> {
    match admitted(reading, d) {
        Ok(admitted) => with_syntax!(admitted, y => messages(y, d, admitted.front)),
        Err(number) => format!("X {number}\n").into_bytes(),
    }
}

fn messages<M: Marks>(y: Syntax<M>, d: &[u8], front: usize) -> Vec<u8> {
    let mut lines = Vec::new();
    let mut positions = Positions::default();
    let mut prices = All::default();
    let (mut found, mut accepted, mut outside) = (0, 0, 0);
    let mut at = past_breaks(y.skips, d, front);
    while at < d.len() {
        if cut::tag_of(cut::head(d, at)) != cut::UNH {
            outside += 1;
            at = past_breaks(y.skips, d, segment_end(y.marks, d, at));
            continue;
        }
        prices.0.clear();
        let judged = judge(y, d, at, &mut positions, &mut prices);
        found += 1;
        match judged.verdict {
            Verdict::Accepted { segments, end } => {
                accepted += 1;
                line(&mut lines, format_args!("M {found} {at} 0 {segments} {end} 0"));
                prices.0.iter().for_each(|price| price_line(y.marks, d, &mut lines, price));
            }
            Verdict::Refused { number, segment, place, node } => {
                line(&mut lines, format_args!("M {found} {at} {number} {segment} {place} {node}"))
            }
        }
        at = past_breaks(y.skips, d, judged.end);
    }
    line(&mut lines, format_args!("E {found} {accepted} {outside}"));
    lines
}

fn line(lines: &mut Vec<u8>, text: std::fmt::Arguments) {
    writeln!(lines, "{text}").expect("writing to memory");
}

fn price_line<M: Marks>(marks: M, d: &[u8], lines: &mut Vec<u8>, price: &Price) {
    write!(lines, "P {} ", price.position).expect("writing to memory");
    if price.article_length == 0 {
        lines.push(b'-');
    } else {
        lines.extend(decoded(marks.release(), &d[price.article..price.article + price.article_length]));
    }
    line(lines, format_args!(" {} {}", price.amount, price.decimals));
}
