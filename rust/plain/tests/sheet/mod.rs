//! Messages of a few segments, and their verdicts in both editions.

use plain::{judge_at, Reading, Verdict};

/// What both editions need before positions.
pub const HEAD: &str = "BGM+Z32+A1'DTM+137:1:303'RFF+Z13:27002'NAD+MR+1::9'NAD+MS+2::9'";

/// A message with UNH, `body` and an UNT with the right count.
pub fn message(edition: &str, body: &str) -> Vec<u8> {
    let count = body.matches('\'').count() + 2;
    format!("UNH+1+PRICAT:D:20B:UN:{edition}'{body}UNT+{count}+1'").into_bytes()
}

/// Number, segment and node; zeros for an accepted message.
pub fn verdict(edition: &str, body: &str) -> (u32, usize, usize) {
    match judge_at(Reading::usual(), &message(edition, body), 0) {
        Verdict::Accepted { .. } => RIGHT,
        Verdict::Refused { number, segment, node, .. } => (number, segment, node),
    }
}

pub const RIGHT: (u32, usize, usize) = (0, 0, 0);

/// The verdicts of one body as a sheet of 2.0d and of 2.0c.
pub fn both(body: &str) -> [(u32, usize, usize); 2] {
    ["2.0d", "2.0c"].map(|edition| verdict(edition, body))
}
