//! Every segment cut, decoded and copied, and the messages they make up.

use plain::Reading;

use super::service::Service;

/// Place, raw bytes and decoded bytes.
pub type Part = (usize, Vec<u8>, Vec<u8>);

/// A segment or piece with its decoded components by element.
pub struct Segment {
    pub start: usize,
    pub end: usize,
    pub is_piece: bool,
    /// By element and component.
    pub parts: Vec<Vec<Part>>,
}

/// The first place from `at` on where no byte is skipped.
pub fn behind_breaks(reading: Reading, d: &[u8], at: usize) -> usize {
    let is_skipped = |at: &usize| reading.skips && [13, 10].contains(&d[*at]);
    at + (at..d.len()).take_while(is_skipped).count()
}

/// Where the segment ends that the bytes from `start` on begin with, and whether it is a piece.
pub fn next_end(service: Service, d: &[u8], start: usize) -> Option<(usize, bool)> {
    let mut is_released = false;
    for at in start..d.len() {
        if is_released {
            is_released = false;
        } else if d[at] == service.release {
            is_released = true;
        } else if d[at] == service.terminator {
            return Some((at + 1, false));
        }
    }
    (start < d.len()).then_some((d.len(), true))
}

fn cut(reading: Reading, service: Service, d: &[u8], front: usize) -> Vec<Segment> {
    let mut all = Vec::new();
    let mut start = behind_breaks(reading, d, front);
    while let Some((end, is_piece)) = next_end(service, d, start) {
        all.push(segment(service, d, start, end, is_piece));
        start = behind_breaks(reading, d, end);
    }
    all
}

fn segment(service: Service, d: &[u8], start: usize, end: usize, is_piece: bool) -> Segment {
    let mut parts = vec![vec![(start, Vec::new(), Vec::new())]];
    let last = if is_piece { end } else { end - 1 };
    let mut at = start;
    while at < last {
        if d[at] == service.element {
            parts.push(vec![(at + 1, Vec::new(), Vec::new())]);
        } else if d[at] == service.component {
            parts.last_mut().unwrap().push((at + 1, Vec::new(), Vec::new()));
        } else {
            let length = if d[at] == service.release { 2.min(last - at) } else { 1 };
            parts.last_mut().unwrap().last_mut().unwrap().1.extend(&d[at..at + length]);
            at += length - 1;
        }
        at += 1;
    }
    for part in parts.iter_mut().flatten() {
        part.2 = decoded(service, &part.1);
    }
    Segment { start, end, is_piece, parts }
}

/// A text with its release marks removed.
pub fn decoded(service: Service, text: &[u8]) -> Vec<u8> {
    let mut is_released = false;
    let mut out = Vec::new();
    for &byte in text {
        if byte == service.release && !is_released {
            is_released = true;
        } else {
            is_released = false;
            out.push(byte);
        }
    }
    out
}

impl Segment {
    /// The decoded component; element 0 is the tag, components from 1.
    pub fn part(&self, element: usize, component: usize) -> &[u8] {
        self.parts.get(element).and_then(|parts| parts.get(component - 1)).map_or(&[], |part| &part.2)
    }
}

/// A message: its segments, and the byte behind it.
pub struct Message {
    pub segments: Vec<Segment>,
    pub start: usize,
    pub end: usize,
    pub has_unt: bool,
}

/// All messages and the count of segments outside.
pub fn messages(reading: Reading, service: Service, d: &[u8], front: usize) -> (Vec<Message>, usize) {
    let mut all: Vec<Message> = Vec::new();
    let mut outside = 0;
    let mut is_open = false;
    for segment in cut(reading, service, d, front) {
        let begins = |tag: &[u8]| d[segment.start..segment.end].starts_with(tag);
        if begins(b"UNH") {
            all.push(Message { start: segment.start, end: segment.end, segments: vec![segment], has_unt: false });
            is_open = true;
        } else if begins(b"UNZ") || !is_open {
            is_open = false;
            outside += 1;
        } else {
            is_open = !begins(b"UNT");
            let message = all.last_mut().unwrap();
            message.has_unt = !is_open;
            message.end = segment.end;
            message.segments.push(segment);
        }
    }
    (all, outside)
}
