//! Every call of one library against the same call of another, in both readings, on deliveries from the generator.
//!
//! A wrapper crate implements `plain::Library` for the library to be compared and calls `run` with it.

mod calls;
mod guarded;
mod naive;
mod tally;
mod used;

pub use calls::{compare_delivery, Places, Tallies, READINGS};
pub use guarded::Guarded;
pub use naive::Naive;
pub use tally::Tally;

use generator::Random;
use plain::Library;

/// How many deliveries, from which seed, and whether only one of them is wanted.
pub struct Order {
    pub deliveries: u64,
    pub seed: u64,
    pub only: Option<u64>,
}

impl Order {
    /// `--deliveries N`, `--seed S`, `--only I`.
    pub fn from_arguments() -> Order {
        let mut order = Order { deliveries: 10_000, seed: 1, only: None };
        let mut words = std::env::args().skip(1);
        while let (Some(word), Some(value)) = (words.next(), words.next()) {
            let value = value.parse().expect("a number");
            match word.as_str() {
                "--deliveries" => order.deliveries = value,
                "--seed" => order.seed = value,
                "--only" => order.only = Some(value),
                _ => panic!("unknown option {word}"),
            }
        }
        order
    }

    /// Each delivery has a seed of its own, so that it can be made again alone.
    fn seed_of(&self, number: u64) -> u64 {
        Random::new(self.seed ^ number.wrapping_mul(0xd6e8_feb8_6659_fd93)).word()
    }
}

/// Compares the two on all deliveries ordered. The first difference is shown and given back as false.
pub fn run(one: &dyn Library, other: &dyn Library, order: &Order) -> bool {
    let mut tallies = Tallies::default();
    let mut places = calls::Places::new();
    let numbers = match order.only {
        Some(number) => number..number + 1,
        None => 0..order.deliveries,
    };
    for number in numbers {
        let d = generator::delivery(order.seed_of(number));
        let random = &mut Random::new(order.seed_of(number) ^ 1);
        if let Err(difference) = compare_delivery(one, other, &d, random, &mut places, &mut tallies) {
            show(order, number, &d.bytes, &difference);
            return false;
        }
    }
    println!("{} and {}: no difference", one.name(), other.name());
    for (reading, tally) in READINGS.iter().zip(&tallies) {
        println!("{}", if reading.skips { "usual reading" } else { "strict reading" });
        tally.print();
    }
    true
}

fn show(order: &Order, number: u64, d: &[u8], difference: &str) {
    println!("difference: {difference}");
    println!("again with: --seed {} --only {number}", order.seed);
    println!("{} bytes", d.len());
    for (at, line) in d.chunks(32).enumerate().take(4096) {
        let hex: String = line.iter().map(|byte| format!("{byte:02x}")).collect();
        let shown: String = line.iter().map(|&byte| if (32..127).contains(&byte) { byte as char } else { '.' }).collect();
        println!("{:8} {hex:64} {shown}", at * 32);
    }
}
