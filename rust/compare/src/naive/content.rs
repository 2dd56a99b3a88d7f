//! What the components of a segment hold: numbers, formats, pages.

use super::cut::Segment;
use super::guide::{Element, Page};

pub fn number(mark: u8, text: &[u8]) -> Option<(usize, i64, usize)> {
    let (sign, rest) = if text.first() == Some(&b'-') { (-1, &text[1..]) } else { (1, text) };
    let mut sides = rest.split(|&byte| byte == mark);
    let (whole, behind) = (sides.next()?, sides.next());
    if sides.next().is_some() || whole.is_empty() || behind.is_some_and(|digits| digits.is_empty()) {
        return None;
    }
    let digits = [whole, behind.unwrap_or(&[])].concat();
    if !digits.iter().all(u8::is_ascii_digit) {
        return None;
    }
    let amount: i64 = std::str::from_utf8(&digits).unwrap().parse().unwrap_or(0);
    Some((digits.len(), sign * amount, behind.map_or(0, <[u8]>::len)))
}

fn fits(format: &str, mark: u8, text: &[u8]) -> bool {
    let (kind, most) = format.split_once("..").unwrap_or(format.split_at(1));
    let most: usize = most.parse().expect("a length");
    match (kind, format.contains("..")) {
        ("an", true) => text.len() <= most,
        ("n", true) => number(mark, text).is_some_and(|(digits, ..)| digits <= most),
        ("n", false) => number(mark, text).is_some_and(|(digits, ..)| digits == most),
        _ => panic!("format {format}"),
    }
}

/// 18, 17, 19, 20 from left to right.
pub fn components(page: &Page, mark: u8, segment: &Segment) -> Option<u32> {
    for element in 1..segment.parts.len().max(page.elements.len() + 1) {
        let empty = Element::default();
        let rule = page.elements.get(element - 1).unwrap_or(&empty);
        let standing = segment.parts.get(element).map_or(0, Vec::len);
        let is_any = (1..=standing).any(|component| !segment.part(element, component).is_empty());
        for component in 1..=standing.max(rule.rows.len()) {
            let text = segment.part(element, component);
            let row = rule.rows.get(component - 1).filter(|row| row.is_used);
            match row {
                None if !text.is_empty() => return Some(18),
                Some(row) if text.is_empty() && row.must && (rule.must || is_any) => return Some(17),
                Some(row) if !text.is_empty() && !fits(&row.format, mark, text) => return Some(19),
                Some(row) if !text.is_empty() && !row.codes.is_empty() && !row.codes.iter().any(|code| code == text) => return Some(20),
                _ => {}
            }
        }
    }
    None
}
