//! The plain reader against the yardstick; the seconds that it takes may be given.

use std::time::Duration;

use plain::Plain;

fn main() {
    let given = std::env::args().nth(1).map(|text| text.parse().expect("seconds"));
    bench::run(&[&Plain], Duration::from_secs(given.unwrap_or(60)));
}
