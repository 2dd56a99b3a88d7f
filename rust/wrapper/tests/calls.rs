//! Each call from outside, on both sides of each refusal.
use schaumtruhe::{
    article, judge_at, next_message, prices, segment_at, survey, Judged, Next, Prices, Reading, Segment, Totals, LIMIT, PRICE,
};

const DELIVERY: &[u8] = include_bytes!("../../../examples/delivery.edi");
const FIRST: usize = 77;
const SECOND: usize = 341;
const THIRD: usize = 387;
const UNTOUCHED: i64 = -77;

fn usual() -> Reading {
    Reading::usual()
}

fn refused(number: u32) -> Judged {
    Judged { number, segment: 0, place: 0, node: 0 }
}

#[test]
fn surveys() {
    assert_eq!(survey(usual(), DELIVERY), Totals { number: 0, messages: 3, accepted: 1, outside: 2 });
    assert_eq!(survey(usual(), b""), Totals { number: 0, messages: 0, accepted: 0, outside: 0 });
}

#[test]
fn messages_in_order() {
    assert_eq!(next_message(usual(), DELIVERY, 0), Next { found: 1, start: FIRST, end: SECOND });
    assert_eq!(next_message(usual(), DELIVERY, FIRST + 1), Next { found: 1, start: SECOND, end: THIRD });
    for from in [THIRD + 1, DELIVERY.len(), usize::MAX] {
        assert_eq!(next_message(usual(), DELIVERY, from), Next { found: 0, start: 0, end: 0 });
    }
}

#[test]
fn verdicts() {
    assert_eq!(judge_at(usual(), DELIVERY, FIRST), Judged { number: 0, segment: 15, place: SECOND, node: 0 });
    assert_eq!(judge_at(usual(), DELIVERY, SECOND), Judged { number: 14, segment: 3, place: 379, node: 4 });
    assert_eq!(judge_at(usual(), DELIVERY, THIRD), Judged { number: 24, segment: 2, place: 414, node: 0 });
    for at in [0, FIRST + 1, DELIVERY.len(), usize::MAX] {
        assert_eq!(judge_at(usual(), DELIVERY, at), refused(31));
    }
}

#[test]
fn prices_as_many_as_fit_whole() {
    let mut row = [UNTOUCHED; 2 * PRICE + 3];
    assert_eq!(prices(usual(), DELIVERY, FIRST, 0, &mut row), Prices { number: 0, written: 2, total: 3 });
    assert_eq!(row[..PRICE], [1, 158, 13, 16806, 2, 1, 176, -1]);
    assert_eq!(row[PRICE..2 * PRICE], [2, 205, 7, -5, 1, 0, 217, 230]);
    assert_eq!(row[2 * PRICE..], [UNTOUCHED; 3]);

    row = [UNTOUCHED; 2 * PRICE + 3];
    assert_eq!(prices(usual(), DELIVERY, FIRST, 2, &mut row), Prices { number: 0, written: 1, total: 3 });
    assert_eq!(row[..PRICE], [2, 205, 7, 7, 0, 0, 245, -1]);
    assert_eq!(row[PRICE..], [UNTOUCHED; PRICE + 3]);

    row = [UNTOUCHED; 2 * PRICE + 3];
    assert_eq!(prices(usual(), DELIVERY, FIRST, usize::MAX, &mut row), Prices { number: 0, written: 0, total: 3 });
    assert_eq!(prices(usual(), DELIVERY, FIRST, 0, &mut row[..PRICE - 1]), Prices { number: 0, written: 0, total: 3 });
    assert_eq!(prices(usual(), DELIVERY, FIRST, 0, &mut []), Prices { number: 0, written: 0, total: 3 });
    assert_eq!(prices(usual(), DELIVERY, SECOND, 0, &mut row), Prices { number: 30, written: 0, total: 0 });
    assert_eq!(prices(usual(), DELIVERY, 0, 0, &mut row), Prices { number: 31, written: 0, total: 0 });
    assert_eq!(row, [UNTOUCHED; 2 * PRICE + 3]);
}

#[test]
fn articles_are_parts_of_the_delivery() {
    let second = article(usual(), DELIVERY, FIRST, 1);
    assert_eq!((second.number, second.part), (0, &b"A?+B??C"[..]));
    assert_eq!(second.part.as_ptr(), DELIVERY[FIRST + 205..].as_ptr());
    for (number, at, k) in [(32, FIRST, 3), (32, FIRST, usize::MAX), (30, SECOND, 0), (31, 0, 0)] {
        let refused = article(usual(), DELIVERY, at, k);
        assert_eq!((refused.number, refused.part), (number, &b""[..]));
        assert_eq!(refused.part.as_ptr(), DELIVERY.as_ptr());
    }
}

const NO_SEGMENT: Segment = Segment { found: 0, start: 0, end: 0, piece: 0 };

#[test]
fn segments_once_and_in_order() {
    let mut ends = Vec::new();
    let mut segment = segment_at(usual(), DELIVERY, 0);
    while segment.found == 1 {
        assert_eq!((segment.start, segment.piece), (*ends.last().unwrap_or(&9), 0));
        ends.push(segment.end);
        segment = segment_at(usual(), DELIVERY, segment.end);
    }
    assert_eq!(segment, NO_SEGMENT);
    assert_eq!((ends.len(), ends[0], ends[15], ends[18]), (21, FIRST, SECOND, THIRD));
    assert_eq!(ends.last(), Some(&DELIVERY.len()));
}

#[test]
fn segments_from_any_place() {
    assert_eq!(segment_at(usual(), b"A?'B'C?'", 0), Segment { found: 1, start: 0, end: 5, piece: 0 });
    assert_eq!(segment_at(usual(), b"A?'B'C?'", 5), Segment { found: 1, start: 5, end: 8, piece: 1 });
    // A place is taken as it is: what stands before it is not looked at.
    assert_eq!(segment_at(usual(), b"A?'B'C?'", 2), Segment { found: 1, start: 2, end: 3, piece: 0 });
    for at in [8, 9, usize::MAX] {
        assert_eq!(segment_at(usual(), b"A?'B'C?'", at), NO_SEGMENT);
    }
    for at in 0..=9 {
        assert_eq!(segment_at(usual(), DELIVERY, at), Segment { found: 1, start: 9, end: FIRST, piece: 0 });
    }
}

/// The highest price of the message that begins at `at`, as amount and decimals; none if the message is refused or has no price.
fn highest(delivery: &[u8], at: usize) -> Option<(i64, u32)> {
    let mut row = vec![0; prices(usual(), delivery, at, 0, &mut []).total * PRICE];
    prices(usual(), delivery, at, 0, &mut row);
    let all = row.chunks_exact(PRICE).map(|price| (price[3], price[4] as u32));
    // Amounts compare once they have as many decimals; a price has at most fifteen digits, so they fit.
    all.max_by_key(|&(amount, decimals)| amount as i128 * 10i128.pow(15 - decimals))
}

#[test]
fn prices_compared_with_their_decimals() {
    assert_eq!(highest(DELIVERY, FIRST), Some((16806, 2)));
    assert_eq!(highest(DELIVERY, SECOND), None);
}

#[test]
fn deliveries_not_admitted() {
    let mut long = DELIVERY.to_vec();
    long.resize(LIMIT, b' ');
    assert_eq!(survey(usual(), &long).number, 0);
    long.push(b' ');
    for (number, delivery) in [(1, &long[..]), (2, &b"UNA:+.?;'UNH+1'"[..])] {
        assert_eq!(survey(usual(), delivery), Totals { number, messages: 0, accepted: 0, outside: 0 });
        assert_eq!(next_message(usual(), delivery, 0), Next { found: 0, start: 0, end: 0 });
        assert_eq!(judge_at(usual(), delivery, FIRST), refused(number));
        let mut row = [UNTOUCHED; PRICE];
        assert_eq!(prices(usual(), delivery, FIRST, 0, &mut row), Prices { number, written: 0, total: 0 });
        assert_eq!(row, [UNTOUCHED; PRICE]);
        assert_eq!((article(usual(), delivery, FIRST, 0).number, article(usual(), delivery, FIRST, 0).part), (number, &b""[..]));
        assert_eq!(segment_at(usual(), delivery, 0), NO_SEGMENT);
    }
}

/// UNA behind breaks; a message of two segments; one whose second segment holds a break.
const LINES: &[u8] = b"\nUNA:+.? '\r\nUNH+1'\r\nUNT'\r\n\nUNH+2'\r\nBGM\n'\r\n";

fn found(start: usize, end: usize) -> Segment {
    Segment { found: 1, start, end, piece: 0 }
}

#[test]
fn line_breaks_are_skipped() {
    assert_eq!(survey(usual(), LINES), Totals { number: 0, messages: 2, accepted: 0, outside: 0 });
    for from in 0..=12 {
        assert_eq!(next_message(usual(), LINES, from), Next { found: 1, start: 12, end: 24 });
        assert_eq!(segment_at(usual(), LINES, from), found(12, 18));
    }
    for from in 24..=27 {
        assert_eq!(next_message(usual(), LINES, from), Next { found: 1, start: 27, end: 40 });
        assert_eq!(segment_at(usual(), LINES, from), found(27, 33));
    }
    assert_eq!(judge_at(usual(), LINES, 12), Judged { number: 17, segment: 1, place: 12, node: 1 });
    for at in [0, 10, 11, 25, 26] {
        assert_eq!(judge_at(usual(), LINES, at), refused(31));
        assert_eq!(prices(usual(), LINES, at, 0, &mut []), Prices { number: 31, written: 0, total: 0 });
        assert_eq!(article(usual(), LINES, at, 0).number, 31);
    }
    assert_eq!(segment_at(usual(), LINES, 40), NO_SEGMENT);
    assert_eq!(survey(usual(), b"\nUNA:+.?,'").number, 2);
}

#[test]
fn a_sheet_in_lines() {
    let lines: Vec<u8> = DELIVERY.iter().flat_map(|&byte| [byte, b'\n'].into_iter().take(1 + (byte == b'\'') as usize)).collect();
    // UNA and UNB stand before the first message, whose fifteen segments have fourteen breaks between them.
    assert_eq!(judge_at(usual(), &lines, FIRST + 2), Judged { number: 0, segment: 15, place: SECOND + 2 + 14, node: 0 });
    let mut row = [0; 3 * PRICE];
    assert_eq!(prices(usual(), &lines, FIRST + 2, 0, &mut row), Prices { number: 0, written: 3, total: 3 });
    // LIN is the ninth segment, PRI the tenth.
    assert_eq!(row[..PRICE], [1, 158 + 8, 13, 16806, 2, 1, 176 + 9, -1]);
    assert_eq!(judge_at(Reading::strict(), &lines, FIRST + 2), refused(31));
}

#[test]
fn strict_is_to_the_byte() {
    let strict = Reading::strict();
    // Each segment begins with a break, so none begins UNH; the last two bytes are a piece.
    assert_eq!(survey(strict, LINES), Totals { number: 0, messages: 0, accepted: 0, outside: 6 });
    assert_eq!(next_message(strict, LINES, 0), Next { found: 0, start: 0, end: 0 });
    assert_eq!(segment_at(strict, LINES, 0), found(0, 10));
    assert_eq!(segment_at(strict, LINES, 40), Segment { found: 1, start: 40, end: 42, piece: 1 });
    assert_eq!(judge_at(strict, b"UNH+1'\r\nUNT'", 0), Judged { number: 17, segment: 1, place: 0, node: 1 });
    assert_eq!(survey(strict, b"\nUNA:+.?,'"), Totals { number: 0, messages: 0, accepted: 0, outside: 1 });
    for reading in [strict, usual()] {
        assert_eq!(survey(reading, DELIVERY), Totals { number: 0, messages: 3, accepted: 1, outside: 2 });
        assert_eq!(survey(reading, b"UNA:+.?,'").number, 2);
    }
}
