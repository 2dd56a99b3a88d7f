//! The calls once more, written slowly and sentence by sentence from document 01, items 1, 2, 4 and 6: every segment is cut, decoded and
//! copied first, the pages are read from docs/PAGES.md as they are printed there, and instances are kept as a stack.
//! It shares nothing with the plain reader, so that the comparison means something before a library is linked.

mod content;
mod cut;
mod guide;
mod judge;
mod place;
mod service;

use std::cell::RefCell;
use std::rc::Rc;

use cut::{behind_breaks, decoded, messages, next_end, Message};
use guide::Guide;
use judge::{judge, Price};
use plain::{Article, Library, Reading, Survey, Verdict};
use service::front;

/// All that is to be known of a delivery.
struct Read {
    messages: Vec<(usize, usize, Verdict, Vec<Price>)>,
    outside: usize,
}

type Whole = Result<Rc<Read>, u32>;

pub struct Naive {
    guide_20d: Guide,
    guide_20c: Guide,
    /// The last delivery and what was read of it, since many calls are made on one delivery.
    last: RefCell<Option<(Reading, Vec<u8>, Whole)>>,
}

impl Default for Naive {
    fn default() -> Naive {
        let (guide_20d, guide_20c) = Guide::both();
        Naive { guide_20d, guide_20c, last: RefCell::new(None) }
    }
}

impl Naive {
    /// The edition is DE0057, decoded; whatever is not 2.0c is judged by 2.0d.
    fn guide(&self, message: &Message) -> &Guide {
        match message.segments[0].part(2, 5) {
            b"2.0c" => &self.guide_20c,
            _ => &self.guide_20d,
        }
    }

    /// The whole delivery read, or 1 or 2.
    fn read(&self, reading: Reading, d: &[u8]) -> Whole {
        if let Some((read, delivery, whole)) = &*self.last.borrow() {
            if *read == reading && delivery == d {
                return whole.clone();
            }
        }
        let whole = self.read_new(reading, d);
        *self.last.borrow_mut() = Some((reading, d.to_vec(), whole.clone()));
        whole
    }

    fn read_new(&self, reading: Reading, d: &[u8]) -> Whole {
        let (front, service) = front(reading, d)?;
        let (all, outside) = messages(reading, service, d, front);
        let judged = |message: &Message| {
            let (verdict, prices) = judge(service, d, message, self.guide(message));
            (message.start, message.end, verdict, prices)
        };
        Ok(Rc::new(Read { messages: all.iter().map(judged).collect(), outside }))
    }

    /// 1, 2, 31, 30, or what `take` makes of the prices.
    fn with_prices<T>(&self, reading: Reading, d: &[u8], at: usize, take: impl FnOnce(&[Price]) -> T) -> Result<T, u32> {
        let whole = self.read(reading, d)?;
        let (_, _, verdict, prices) = whole.messages.iter().find(|message| message.0 == at).ok_or(31u32)?;
        match verdict {
            Verdict::Accepted { .. } => Ok(take(prices)),
            _ => Err(30),
        }
    }
}

impl Library for Naive {
    fn name(&self) -> &'static str {
        "naive"
    }

    fn survey(&self, reading: Reading, d: &[u8]) -> Result<Survey, u32> {
        let whole = self.read(reading, d)?;
        let accepted = whole.messages.iter().filter(|message| matches!(message.2, Verdict::Accepted { .. })).count();
        Ok(Survey { messages: whole.messages.len(), accepted, outside: whole.outside })
    }

    fn next_message(&self, reading: Reading, d: &[u8], from: usize) -> Option<(usize, usize)> {
        let whole = self.read(reading, d).ok()?;
        whole.messages.iter().find(|message| message.0 >= from).map(|message| (message.0, message.1))
    }

    fn judge_at(&self, reading: Reading, d: &[u8], at: usize) -> Verdict {
        match self.read(reading, d) {
            Err(number) => Verdict::without_place(number),
            Ok(whole) => match whole.messages.iter().find(|message| message.0 == at) {
                None => Verdict::without_place(31),
                Some(message) => message.2,
            },
        }
    }

    fn prices(&self, reading: Reading, d: &[u8], at: usize, k: usize, row: &mut [i64]) -> Result<(usize, usize), u32> {
        self.with_prices(reading, d, at, |all| {
            let asked = all.get(k..).unwrap_or(&[]);
            let written = asked.len().min(row.len() / 8);
            for (price, slot) in asked.iter().zip(row.chunks_exact_mut(8)) {
                slot.copy_from_slice(&price.numbers);
            }
            (written, all.len())
        })
    }

    fn article(&self, reading: Reading, d: &[u8], at: usize, k: usize) -> Article {
        let found = self.with_prices(reading, d, at, |all| all.get(k).map(|price| (price.place, price.length)));
        match found {
            Err(number) => Article { number, place: 0, length: 0 },
            Ok(None) => Article { number: 32, place: 0, length: 0 },
            Ok(Some((place, length))) => Article { number: 0, place, length },
        }
    }

    fn segment_at(&self, reading: Reading, d: &[u8], at: usize) -> Option<(usize, usize, bool)> {
        let (front, service) = front(reading, d).ok()?;
        let start = behind_breaks(reading, d, if at < front { front } else { at });
        next_end(service, d, start).map(|(end, is_piece)| (start, end, is_piece))
    }

    fn without_releases(&self, reading: Reading, d: &[u8], place: usize, count: usize, out: &mut [u8]) -> usize {
        let Ok((_, service)) = front(reading, d) else { return 0 };
        let part: Vec<u8> = d.iter().copied().skip(place).take(count).collect();
        let text = decoded(service, &part);
        let written = text.len().min(out.len());
        out[..written].copy_from_slice(&text[..written]);
        text.len()
    }
}
