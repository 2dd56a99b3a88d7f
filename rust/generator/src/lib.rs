//! Deliveries from a seed. The generator knows the pages well enough to write right messages and to damage them in a
//! chosen way; it judges nothing, so it shares no code with any reader.

mod basics;
mod breaks;
mod damage;
mod delivery;
mod differences;
mod edition;
mod foreign;
mod intervals;
mod kinds;
mod random;
mod sheet;
mod spelling;

pub use damage::{damage, FAULTS};
pub use delivery::{delivery, LIMIT};
pub use edition::Edition;
pub use foreign::Delivery;
pub use kinds::{kind, usual_form, KINDS, LINES, OTHERS};
pub use random::Random;
pub use sheet::{message, Segment, Shape};
pub use spelling::{any_characters, spelled, una, Characters, USUAL};
