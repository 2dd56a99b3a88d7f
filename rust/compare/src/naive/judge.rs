//! The verdict on a message and its prices, sentence by sentence.

use std::collections::HashSet;

use plain::Verdict;

use super::content::{components, number};
use super::cut::{Message, Segment};
use super::guide::Guide;
use super::place::Open;
use super::service::{is_allowed, Service};

pub struct Price {
    pub numbers: [i64; 8],
    pub place: usize,
    pub length: usize,
}

/// The verdict, with the prices of an accepted message.
pub fn judge(service: Service, d: &[u8], message: &Message, guide: &Guide) -> (Verdict, Vec<Price>) {
    let refuse = |number, segment, place, node| (Verdict::Refused { number, segment, place, node }, Vec::new());
    let mut open = Open::new(guide);
    let mut nodes = Vec::new();
    let mut lins = 0;
    for (at, segment) in message.segments.iter().enumerate() {
        let fault = fault(service, &d[segment.start..segment.end], segment).map_or(Ok(()), |number| Err((number, 0)));
        match fault.and_then(|()| open.place(segment)) {
            Ok(node) => nodes.push(node),
            Err((number, node)) => return refuse(number, at + 1, segment.start, node),
        }
        lins += (segment.part(0, 1) == b"LIN") as usize;
        let page = &guide.node(nodes[at]).page;
        if let Some(number) = components(page, service.mark, segment).or(miscounted(message, at, lins)) {
            return refuse(number, at + 1, segment.start, nodes[at]);
        }
    }
    if !message.has_unt {
        return refuse(24, message.segments.len() + 1, message.end, 0);
    }
    if let Some(at) = agreeing(message) {
        return refuse(23, at + 1, message.segments[at].start, nodes[at]);
    }
    (Verdict::Accepted { segments: message.segments.len(), end: message.end }, prices(service, message))
}

/// 12, 10, 11: what a segment gets by itself.
fn fault(service: Service, bytes: &[u8], segment: &Segment) -> Option<u32> {
    if segment.is_piece {
        Some(12)
    } else if !bytes.iter().copied().all(is_allowed) {
        Some(10)
    } else if bytes.len() < 4
        || !bytes[..3].iter().all(u8::is_ascii_uppercase)
        || ![service.element, service.terminator].contains(&bytes[3])
    {
        Some(11)
    } else {
        None
    }
}

/// 21 or 22 of a segment that is right by itself; it is the message's last LIN so far if it is one.
fn miscounted(message: &Message, at: usize, lins: usize) -> Option<u32> {
    let segment = &message.segments[at];
    let (count, number) = match segment.part(0, 1) {
        b"UNT" if segment.part(2, 1) != message.segments[0].part(1, 1) => return Some(21),
        b"UNT" => (at + 1, 21),
        b"LIN" => (lins, 22),
        _ => return None,
    };
    (segment.part(1, 1) != count.to_string().as_bytes()).then_some(number)
}

type Contents = Vec<(usize, usize, Vec<u8>)>;

/// The non-empty components from an element on.
fn contents(segment: &Segment, from: usize) -> Contents {
    let mut all = Contents::new();
    for (element, parts) in segment.parts.iter().enumerate().skip(from) {
        for (component, part) in parts.iter().enumerate().filter(|(_, part)| !part.2.is_empty()) {
            all.push((element, component, part.2.clone()));
        }
    }
    all
}

/// The first LIN that agrees with an earlier one. All segments are placed, so the tag tells the node's kind.
fn agreeing(message: &Message) -> Option<usize> {
    let all = &message.segments;
    if all[1].part(1, 1) == b"Z04" {
        return None;
    }
    let mut earlier = HashSet::new();
    (0..all.len()).filter(|&at| all[at].part(0, 1) == b"LIN").find(|&at| {
        let rest = &all[at + 1..];
        let end = rest.iter().position(|segment| [&b"PGI"[..], b"LIN", b"UNT"].contains(&segment.part(0, 1))).unwrap();
        let of = |tag: &[u8]| rest[..end].iter().find(|segment| segment.part(0, 1) == tag).map(|segment| contents(segment, 1));
        !earlier.insert((contents(&all[at], 2), of(b"PIA"), of(b"IMD")))
    })
}

fn prices(service: Service, message: &Message) -> Vec<Price> {
    let mut all: Vec<Price> = Vec::new();
    let mut position = 0;
    let mut article = (0, 0);
    for segment in &message.segments {
        let place = (segment.start - message.start) as i64;
        match segment.part(0, 1) {
            b"LIN" => {
                position += 1;
                let part = &segment.parts[3][0];
                article = (part.0, part.1.len());
            }
            b"PRI" => {
                let (_, amount, decimals) = number(service.mark, segment.part(1, 2)).unwrap();
                let unit = (segment.part(1, 6) == b"ANN") as i64;
                let from = (article.0 - message.start) as i64;
                let numbers = [position, from, article.1 as i64, amount, decimals as i64, unit, place, -1];
                all.push(Price { numbers, place: article.0, length: article.1 });
            }
            b"RNG" => all.last_mut().unwrap().numbers[7] = place,
            _ => {}
        }
    }
    all
}
