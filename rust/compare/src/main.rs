//! The plain reader and the naive one, so that the comparison runs before a library is linked.

use compare::{Naive, Order};
use plain::Plain;

fn main() {
    if !compare::run(&Plain, &Naive::default(), &Order::from_arguments()) {
        std::process::exit(1);
    }
}
