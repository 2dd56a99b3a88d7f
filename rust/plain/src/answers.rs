//! What judging a message gives: a verdict, and its prices to whoever wants them.

/// Accepted with its count of segments and the place behind it, or refused.
#[derive(Clone, Copy, PartialEq, Eq, Debug)]
pub enum Verdict {
    Accepted { segments: usize, end: usize },
    Refused { number: u32, segment: usize, place: usize, node: usize },
}

impl Verdict {
    /// A refusal that names no segment: 1, 2 and 30 to 32.
    pub fn without_place(number: u32) -> Verdict {
        Verdict::Refused { number, segment: 0, place: 0, node: 0 }
    }
}

/// A verdict and the place where its message ends.
pub struct Judged {
    pub verdict: Verdict,
    pub end: usize,
}

/// A price as it stands in the delivery; places count from the delivery's start.
#[derive(Clone, Copy)]
pub struct Price {
    pub position: usize,
    pub article: usize,
    pub article_length: usize,
    pub amount: i64,
    pub decimals: usize,
    pub unit: usize,
    pub place: usize,
}

/// Who wants the prices of a message while it is judged. They mean nothing if it is refused in the end.
pub trait Prices {
    fn price(&mut self, price: &Price);
    /// The RNG of the last price.
    fn range(&mut self, place: usize);
}

/// For calls that hand out no price.
pub struct NoPrices;

impl Prices for NoPrices {
    fn price(&mut self, _: &Price) {}
    fn range(&mut self, _: usize) {}
}
