//! Right messages: the order, codes and formats of an edition's pages, with random optional parts.

use crate::edition::Edition;
use crate::random::Random;

/// A segment before it is written: decoded components by element, or bytes that stand as they are.
#[derive(Clone)]
pub struct Segment {
    pub tag: &'static str,
    pub elements: Vec<Vec<Vec<u8>>>,
    pub raw: Option<Vec<u8>>,
}

/// How large and how varied a message is.
#[derive(Clone, Copy)]
pub struct Shape {
    pub edition: Edition,
    pub positions: usize,
    /// One byte in so many gets a release it does not need; 0 for none.
    pub releases: usize,
    /// Optional parts and long texts come often.
    pub is_rich: bool,
    /// BGM says Z04 and prices have intervals.
    pub is_z04: bool,
}

impl Segment {
    pub fn new(tag: &'static str, elements: &[&[&[u8]]]) -> Segment {
        let elements = elements.iter().map(|parts| parts.iter().map(|part| part.to_vec()).collect()).collect();
        Segment { tag, elements, raw: None }
    }

    pub fn raw(bytes: &[u8]) -> Segment {
        Segment { tag: "", elements: Vec::new(), raw: Some(bytes.to_vec()) }
    }

    /// The component, made if it does not stand yet; both numbers from 1.
    pub fn at(&mut self, element: usize, component: usize) -> &mut Vec<u8> {
        grown(grown(&mut self.elements, element), component)
    }

    pub fn get(&self, element: usize, component: usize) -> &[u8] {
        self.elements.get(element - 1).and_then(|parts| parts.get(component - 1)).map_or(&[], |part| part)
    }

    /// The segment's bytes, terminator included, with needless releases once in `releases` bytes.
    pub fn write(&self, random: &mut Random, releases: usize, out: &mut Vec<u8>) {
        if let Some(raw) = &self.raw {
            return out.extend_from_slice(raw);
        }
        out.extend_from_slice(self.tag.as_bytes());
        for parts in &self.elements {
            out.push(b'+');
            for (at, part) in parts.iter().enumerate() {
                if at > 0 {
                    out.push(b':');
                }
                released(part, random, releases, out);
            }
        }
        if releases != 0 && random.once_in(12) {
            out.extend_from_slice(random.pick(&[&b":"[..], b"+", b"::", b"+:+", b"++"]));
        }
        out.push(b'\'');
    }
}

fn grown<T: Default>(all: &mut Vec<T>, count: usize) -> &mut T {
    while all.len() < count {
        all.push(T::default());
    }
    &mut all[count - 1]
}

fn released(part: &[u8], random: &mut Random, releases: usize, out: &mut Vec<u8>) {
    for &byte in part {
        if b"'+:?".contains(&byte) || (releases != 0 && random.once_in(releases)) {
            out.push(b'?');
        }
        out.push(byte);
    }
}

/// A text of 1 to `most` bytes, sometimes exactly `most`.
pub fn text(random: &mut Random, most: usize, is_rich: bool) -> Vec<u8> {
    let length = match random.below(12) {
        0 if is_rich => most,
        1 | 2 => random.between(1, most),
        _ => random.between(1, most.min(9)),
    };
    exact_text(random, length, is_rich)
}

pub fn exact_text(random: &mut Random, length: usize, is_rich: bool) -> Vec<u8> {
    const USUAL: &[u8] = b"0123456789ABCDEFGHIJKLMNOPQRSTUVWXYZabcdefghijklmnopqrstuvwxyz-. 0123456789";
    const ODD: &[u8] = b"'+:?'+:??\xa0\xff\xc4~ UNHT";
    (0..length)
        .map(|_| {
            let from = if is_rich && random.once_in(9) { ODD } else { USUAL };
            from[random.below(from.len())]
        })
        .collect()
}

/// A number with at most `most` digits.
pub fn number(random: &mut Random, most: usize) -> Vec<u8> {
    let digits = if random.once_in(8) { most } else { random.between(1, most.min(6)) };
    let mut text: Vec<u8> = (0..digits).map(|_| b'0' + random.below(10) as u8).collect();
    if digits > 1 && random.once_in(2) {
        text.insert(random.between(1, digits - 1), b'.');
    }
    if random.once_in(6) {
        text.insert(0, b'-');
    }
    text
}

fn date(random: &mut Random) -> Vec<u8> {
    format!("20{:02}{:02}{:02}{:02}00+00", random.between(11, 29), random.between(1, 12), random.between(1, 28), random.below(24))
        .into_bytes()
}

/// The segments of a right message.
pub fn message(random: &mut Random, shape: Shape) -> Vec<Segment> {
    let rich = shape.is_rich;
    let reference = text(random, 14, rich);
    let edition = shape.edition.code().as_bytes();
    let mut all = vec![Segment::new("UNH", &[&[&reference], &[b"PRICAT", b"D", b"20B", b"UN", edition]])];
    all.push(beginning(random, shape));
    dates(random, shape, &mut all);
    references(random, shape, &mut all);
    parties(random, shape, &mut all);
    if chance(random, rich) {
        all.push(Segment::new("CUX", &[&[b"2", b"EUR", b"8"]]));
    }
    groups(random, shape, &mut all);
    let count = (all.len() + 1).to_string();
    all.push(Segment::new("UNT", &[&[count.as_bytes()], &[&reference]]));
    all
}

fn chance(random: &mut Random, is_rich: bool) -> bool {
    random.once_in(if is_rich { 2 } else { 6 })
}

fn beginning(random: &mut Random, shape: Shape) -> Segment {
    let code = if shape.is_z04 { "Z04" } else { random.pick(&["Z32", "Z54", "Z64", "Z67", "Z70", "Z77"]) };
    let mut segment = Segment::new("BGM", &[&[code.as_bytes()], &[&text(random, 70, shape.is_rich)]]);
    if random.once_in(8) {
        *segment.at(5, 1) = b"11".to_vec();
    }
    segment
}

fn dates(random: &mut Random, shape: Shape, all: &mut Vec<Segment>) {
    let mut some = vec![Segment::new("DTM", &[&[b"137", &date(random), b"303"]])];
    if chance(random, shape.is_rich) {
        some.push(Segment::new("DTM", &[&[b"492", b"201105", b"610"]]));
    }
    if chance(random, shape.is_rich) {
        some.push(Segment::new("DTM", &[&[b"157", &text(random, 35, shape.is_rich), b"303"]]));
    }
    random.shuffle(&mut some);
    all.append(&mut some);
}

fn references(random: &mut Random, shape: Shape, all: &mut Vec<Segment>) {
    let code = if shape.is_z04 { "27001" } else { random.pick(&["27001", "27002", "27003"]) };
    let mut some = vec![Segment::new("RFF", &[&[b"Z13", code.as_bytes()]])];
    if chance(random, shape.is_rich) {
        some.push(Segment::new("RFF", &[&[b"ACW", &text(random, 70, shape.is_rich)]]));
    }
    if shape.edition == Edition::Of20d && chance(random, shape.is_rich) {
        some.push(Segment::new("RFF", &[&[b"Z56", &text(random, 35, shape.is_rich)]]));
    }
    random.shuffle(&mut some);
    all.append(&mut some);
}

fn party(random: &mut Random, code: &[u8], is_rich: bool) -> Segment {
    let agency = random.pick(&["9", "293", "332"]);
    Segment::new("NAD", &[&[code], &[&text(random, 35, is_rich), b"", agency.as_bytes()]])
}

fn parties(random: &mut Random, shape: Shape, all: &mut Vec<Segment>) {
    let rich = shape.is_rich;
    let receiver = party(random, b"MR", rich);
    let is_receiver_last = random.once_in(4);
    if !is_receiver_last {
        all.push(receiver.clone());
    }
    all.push(party(random, b"MS", rich));
    if chance(random, rich) {
        all.push(Segment::new("LOC", &[&[b"231"], &[&text(random, 35, rich)]]));
    }
    if chance(random, rich) {
        all.push(Segment::new("CTA", &[&[b"IC"], &[b"", &text(random, 256, rich)]]));
        for _ in 0..random.between(1, 5) {
            let code = random.pick(&["EM", "FX", "TE", "AJ", "AL"]);
            all.push(Segment::new("COM", &[&[&text(random, 512, rich), code.as_bytes()]]));
        }
    }
    if is_receiver_last {
        all.push(receiver);
    }
}

/// Both kinds of SG17, one or none; the positions are divided among them.
fn groups(random: &mut Random, shape: Shape, all: &mut Vec<Segment>) {
    if shape.positions == 0 {
        return;
    }
    let kinds: &[&[u8]] = match random.below(6) {
        _ if shape.is_z04 => &[b"9"],
        0 if shape.positions > 1 => &[b"9", b"Z01"],
        1 if shape.positions > 1 => &[b"Z01", b"9"],
        2 => &[b"Z01"],
        _ => &[b"9"],
    };
    let mut names: Vec<usize> = (0..shape.positions).collect();
    random.shuffle(&mut names);
    let parting = if kinds.len() == 2 { random.between(1, shape.positions - 1) } else { shape.positions };
    for (at, name) in names.into_iter().enumerate() {
        let kind = kinds[(at >= parting) as usize];
        if at == 0 || at == parting {
            all.push(Segment::new("PGI", &[&[kind]]));
        }
        if kind == b"9" {
            first_kind(random, shape, at + 1, name, all);
        } else {
            second_kind(random, shape, at + 1, name, all);
        }
    }
}

/// A name that no other position of the message has.
fn article(random: &mut Random, name: usize, is_rich: bool) -> Vec<u8> {
    let mut article = match random.below(4) {
        0 => format!("999{name:010}").into_bytes(),
        1 => format!("1-08-1-{name:07}-01").into_bytes(),
        2 => format!("999{:010}-{:02}", name / 100, name % 100).into_bytes(),
        _ => format!("{name}").into_bytes(),
    };
    if is_rich && random.once_in(5) {
        article = [&article[..], b"/", &text(random, 8, true)].concat();
    }
    article.truncate(35);
    article
}

fn first_kind(random: &mut Random, shape: Shape, number: usize, name: usize, all: &mut Vec<Segment>) {
    let rich = shape.is_rich;
    let named = article(random, name, rich);
    // Now and then the article is shared and PIA or IMD tells the positions apart.
    let apart = if rich { random.below(8) } else { 9 };
    let shown = if apart < 2 { b"S".to_vec() } else { named.clone() };
    let code = random.pick(&["Z01", "Z09"]);
    let number = number.to_string();
    all.push(Segment::new("LIN", &[&[number.as_bytes()], &[], &[&shown, code.as_bytes()]]));
    if apart == 0 || (apart != 1 && chance(random, rich)) {
        let stem = if apart == 0 { named.clone() } else { text(random, 35, rich) };
        all.push(Segment::new("PIA", &[&[b"1"], &[&stem, b"Z06"]]));
    }
    if apart == 1 || chance(random, rich) {
        all.push(description(random, shape, (apart == 1).then_some(&named)));
    }
    let prices = match random.below(20) {
        0 => 0,
        _ if shape.edition == Edition::Of20c => 1,
        1 if rich => random.between(2, 6),
        2 if rich && random.once_in(30) => 100,
        _ => 1,
    };
    for _ in 0..prices {
        price(random, shape, all);
    }
}

/// The text is required in 2.0c where a code stands beside it.
fn description(random: &mut Random, shape: Shape, named: Option<&Vec<u8>>) -> Segment {
    let format = random.pick(&["C", "X"]);
    let code = random.pick(&["Z15", "Z18", "Z25", "Z28", "Z32", "Z41"]);
    let mut segment = Segment::new("IMD", &[&[format.as_bytes()], &[code.as_bytes()]]);
    let has_code = random.once_in(2);
    if has_code {
        *segment.at(3, 1) = random.pick(&["Z08", "Z09", "Z10", "Z11"]).as_bytes().to_vec();
    }
    if let Some(named) = named {
        *segment.at(3, 4) = named.clone();
    } else if random.once_in(2) || (has_code && shape.edition == Edition::Of20c) {
        *segment.at(3, 4) = text(random, 256, shape.is_rich);
    }
    segment
}

fn price(random: &mut Random, shape: Shape, all: &mut Vec<Segment>) {
    let mut segment = Segment::new("PRI", &[&[b"CAL", &number(random, 15)]]);
    if shape.is_z04 {
        *segment.at(1, 5) = b"1000".to_vec();
    } else if random.once_in(5) {
        *segment.at(1, 5) = number(random, 9);
    }
    if random.once_in(3) && !shape.is_z04 {
        *segment.at(1, 6) = b"ANN".to_vec();
    }
    all.push(segment);
    if chance(random, shape.is_rich) && !shape.is_z04 && shape.edition == Edition::Of20d {
        let unit = random.pick(&["H87", "DAY"]);
        all.push(range(random, unit));
    }
    if shape.is_z04 || (shape.is_rich && random.once_in(2)) {
        let codes = if random.once_in(4) { ["164", "163"] } else { ["163", "164"] };
        all.extend(codes.map(|code| interval(random, code)));
    }
}

/// One end of the interval for which a price holds.
pub fn interval(random: &mut Random, code: &str) -> Segment {
    Segment::new("DTM", &[&[code.as_bytes(), &date(random), b"303"]])
}

fn range(random: &mut Random, unit: &str) -> Segment {
    let mut segment = Segment::new("RNG", &[&[b"10"], &[unit.as_bytes(), &number(random, 18)]]);
    if random.once_in(2) {
        *segment.at(2, 3) = number(random, 18);
    }
    segment
}

fn second_kind(random: &mut Random, shape: Shape, number: usize, name: usize, all: &mut Vec<Segment>) {
    let number = number.to_string();
    let article = article(random, name, shape.is_rich);
    all.push(Segment::new("LIN", &[&[number.as_bytes()], &[], &[&article, b"Z09"]]));
    all.push(Segment::new("PRI", &[&[b"CAL", &crate::sheet::number(random, 15)]]));
    if chance(random, shape.is_rich) {
        all.push(range(random, "KWH"));
    }
}
