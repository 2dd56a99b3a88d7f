//! The components of one segment, from left to right, each against the row of its page.

use super::{Fault, Sheet};
use crate::agree::with_component;
use crate::answers::Prices;
use crate::cut::{Part, Scanner};
use crate::edition::Edition;
use crate::marks::{Class, Marks};
use crate::pages::Rule;
use crate::text::{self, key, Number};

impl<M: Marks, P: Prices> Sheet<'_, M, P> {
    /// Judges the components from left to right and gives the place of the terminator.
    #[inline(always)]
    pub(super) fn components(&mut self, scanner: &mut Scanner<M>, node: usize, first: Part) -> Result<usize, Fault> {
        let rows = self.edition.pages[node];
        let mut part = first;
        let mut at = 0;
        loop {
            let mut row = &rows[at];
            let number = match part.is_empty() {
                true => 17 * row.must as u32,
                false => {
                    let number = self.component(&row.rule, &part);
                    if row.twin != 0 {
                        row = &rows[at + row.twin as usize];
                    }
                    number
                }
            };
            if number != 0 {
                return Err(Fault { number, node, from: part.to });
            }
            let is_missing = match part.stop {
                Class::Component => {
                    at = row.next_component as usize;
                    false
                }
                Class::Element => {
                    at = row.next_element as usize;
                    row.must_follow_in_element
                }
                _ if row.must_follow => true,
                _ => return Ok(part.to),
            };
            if is_missing {
                return Err(Fault { number: 17, node, from: part.to });
            }
            part = scanner.part(part.to + 1);
            if part.is_broken() {
                return Err(Fault { number: 10, node: 0, from: part.to });
            }
        }
    }

    /// Judges one component that is not empty: 18, 19, 20, or 0. Keeps what is needed later.
    #[inline(always)]
    fn component(&mut self, rule: &Rule, part: &Part) -> u32 {
        match *rule {
            Rule::NotUsed => 18,
            Rule::Overdue => 17,
            Rule::Text(most) => self.text(most, part),
            Rule::Code(most, codes) => self.code(most, codes, part),
            Rule::Number(most) => self.number(part, |digits| digits <= most).0,
            Rule::Exactly(digits, codes) => match self.number(part, |count| count == digits).0 {
                0 => self.code(usize::MAX, codes, part),
                number => number,
            },
            Rule::Edition => self.edition(part),
            Rule::Reference => self.reference(part),
            Rule::LastReference => self.last_reference(part),
            Rule::Document(codes) => self.document(codes, part),
            Rule::Count => self.count(part),
            Rule::Article => self.article(part),
            Rule::ComparedText(most, which) => self.compared_text(most, which, part),
            Rule::ComparedCode(most, codes, which) => self.compared_code(most, codes, which, part),
            Rule::Amount => self.amount(part),
            Rule::Unit(codes) => self.unit(codes, part),
        }
    }

    #[inline(always)]
    fn reference(&mut self, part: &Part) -> u32 {
        self.reference = *part;
        self.text(14, part)
    }

    #[inline(always)]
    fn last_reference(&mut self, part: &Part) -> u32 {
        self.last_reference = *part;
        self.text(14, part)
    }

    #[inline(always)]
    fn document(&mut self, codes: &[u64], part: &Part) -> u32 {
        self.compares = self.key_of(part) != key(b"Z04");
        self.code(3, codes, part)
    }

    #[inline(always)]
    fn count(&mut self, part: &Part) -> u32 {
        let (number, count) = self.number(part, |digits| digits <= 6);
        self.count = count;
        number
    }

    #[inline(always)]
    fn article(&mut self, part: &Part) -> u32 {
        self.article = *part;
        self.compare(1, part);
        self.text(35, part)
    }

    #[inline(always)]
    fn compared_text(&mut self, most: usize, which: u8, part: &Part) -> u32 {
        self.compare(which, part);
        self.text(most, part)
    }

    #[inline(always)]
    fn compared_code(&mut self, most: usize, codes: &[u64], which: u8, part: &Part) -> u32 {
        self.compare(which, part);
        self.code(most, codes, part)
    }

    #[inline(always)]
    fn amount(&mut self, part: &Part) -> u32 {
        let (number, amount) = self.number(part, |digits| digits <= 15);
        self.amount = amount;
        number
    }

    /// The page has one code, so its rank is 1.
    #[inline(always)]
    fn unit(&mut self, codes: &[u64], part: &Part) -> u32 {
        self.unit = 1;
        self.code(8, codes, part)
    }

    /// A message that names neither edition is left to 2.0d, which has no such code.
    fn edition(&mut self, part: &Part) -> u32 {
        if part.length() > 6 {
            return 19;
        }
        match Edition::named(self.key_of(part)) {
            Some(edition) => {
                self.edition = edition;
                0
            }
            None => 20,
        }
    }

    #[inline(always)]
    fn text(&self, most: usize, part: &Part) -> u32 {
        19 * (part.length() > most) as u32
    }

    /// The lists are short, so a loop in place is quicker than the library's call for long ones.
    #[inline(always)]
    #[allow(clippy::manual_contains)]
    fn code(&self, most: usize, codes: &[u64], part: &Part) -> u32 {
        if part.length() > most {
            return 19;
        }
        let key = self.key_of(part);
        20 * !codes.iter().any(|&code| code == key) as u32
    }

    #[inline(always)]
    fn number(&mut self, part: &Part, fits: impl FnOnce(usize) -> bool) -> (u32, Number) {
        let decoded = self.room.decode(self.y.marks.release(), self.d, part);
        match text::number(self.y.marks.decimal(), decoded) {
            Some(number) if fits(number.digits) => (0, number),
            _ => (19, Number::default()),
        }
    }

    #[inline(always)]
    fn compare(&mut self, which: u8, part: &Part) {
        if self.compares {
            let decoded = self.room.decode(self.y.marks.release(), self.d, part);
            self.hash = with_component(self.hash, which, decoded);
        }
    }
}
