//! Going through a delivery as its reader does.

use plain::{Library, Verdict};

use crate::case::USUAL;

/// The numbers of a row that takes the prices of any message of 1 MiB: a LIN and a PRI have at least sixteen bytes.
pub const ROW: usize = 8 * 65_536;

/// Finds and judges every message and takes the prices of the accepted ones into a lent row; gives how many there were.
pub fn walk(library: &dyn Library, d: &[u8], row: &mut [i64]) -> usize {
    let mut from = 0;
    let mut prices = 0;
    while let Some((start, end)) = library.next_message(USUAL, d, from) {
        from = end;
        if matches!(library.judge_at(USUAL, d, start), Verdict::Accepted { .. }) {
            prices += library.prices(USUAL, d, start, 0, row).map_or(0, |(written, _)| written);
        }
    }
    prices
}
