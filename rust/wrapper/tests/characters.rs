//! Other service characters: those of UNA, those handed in, and an article without its releases.
use schaumtruhe::{
    article, judge_at, next_message, plain, prices, segment_at, survey, Judged, Next, Prices, Reading, Segment, Totals, PRICE,
};

const OTHERS: [u8; 5] = *b"*|,!~";
const WRONG: [u8; 5] = *b"AAAAA";

const SHEET: &[u8] = b"UNH|1|PRICAT*D*20B*UN*2.0d~BGM|Z32|A?+1'~DTM|137*2+00*303~RFF|Z13*27002~NAD|MR|1**9~NAD|MS|2**9~\
    PGI|9~LIN|1||A!|B?!!*Z01~PRI|CAL*168,06****ANN~UNT|10|1~";

fn refused(number: u32) -> Judged {
    Judged { number, segment: 0, place: 0, node: 0 }
}

/// The sheet behind UNA with its characters.
fn with_una() -> Vec<u8> {
    [&b"UNA*|,! ~"[..], SHEET].concat()
}

#[test]
fn handed_in_for_a_delivery_without_una() {
    for reading in [Reading::usual(), Reading::strict()].map(|reading| reading.with_characters(OTHERS)) {
        assert_eq!(survey(reading, SHEET), Totals { number: 0, messages: 1, accepted: 1, outside: 0 });
        assert_eq!(judge_at(reading, SHEET, 0), Judged { number: 0, segment: 10, place: SHEET.len(), node: 0 });
        assert_eq!(next_message(reading, SHEET, 0), Next { found: 1, start: 0, end: SHEET.len() });
        assert_eq!(segment_at(reading, SHEET, 0), Segment { found: 1, start: 0, end: 27, piece: 0 });
        let mut row = [0; PRICE];
        assert_eq!(prices(reading, SHEET, 0, 0, &mut row), Prices { number: 0, written: 1, total: 1 });
        assert_eq!(row[3..6], [16806, 2, 1]);
        assert_eq!(article(reading, SHEET, 0, 0).part, b"A!|B?!!");
    }
}

#[test]
fn not_looked_at_where_there_is_una() {
    let delivery = with_una();
    for characters in [*b":+.?'", OTHERS, WRONG] {
        let reading = Reading::usual().with_characters(characters);
        assert_eq!(judge_at(reading, &delivery, 9), Judged { number: 0, segment: 10, place: delivery.len(), node: 0 });
        assert_eq!(article(reading, &delivery, 9, 0).part, b"A!|B?!!");
    }
}

#[test]
fn those_that_cannot_be_used() {
    for characters in [WRONG, *b"::.?'", *b":+.? ", *b":+-?'", *b":+.9'", *b"\x1f+.?'", *b":\x9f.?'", *b":+.??"] {
        let reading = Reading::strict().with_characters(characters);
        assert_eq!(survey(reading, SHEET).number, 2);
        assert_eq!(survey(reading, b"").number, 2);
        assert_eq!(judge_at(reading, SHEET, 0), refused(2));
        assert_eq!(next_message(reading, SHEET, 0).found, 0);
        assert_eq!(segment_at(reading, SHEET, 0).found, 0);
        assert_eq!(prices(reading, SHEET, 0, 0, &mut []).number, 2);
        assert_eq!(article(reading, SHEET, 0, 0).number, 2);
        assert_eq!(plain(reading, SHEET, 0, 9, &mut []), 0);
    }
    for una in [&b"UNA*|,!*~"[..], b"UNA**,! ~", b"UNA*|,! ", b"UNA*|,! A"] {
        assert_eq!(survey(Reading::usual().with_characters(OTHERS), una).number, 2);
    }
    assert_eq!(survey(Reading::usual(), b"UNA\xa0\xff\xc4\xd6 \xdc").number, 0);
}

#[test]
fn a_part_without_its_releases() {
    let delivery = with_una();
    let place = 9 + SHEET.windows(7).position(|part| part == b"A!|B?!!").unwrap();
    for room in 0..8 {
        let mut out = [7; 8];
        assert_eq!(plain(Reading::usual(), &delivery, place, 7, &mut out[..room]), 5);
        let written = room.min(5);
        assert_eq!((&out[..written], &out[written..]), (&b"A|B?!"[..written], &[7; 8][written..]));
    }
    let reading = Reading::usual();
    assert_eq!(plain(reading, b"A?+B", 0, 4, &mut []), 3);
    for (place, count, length) in [(0, usize::MAX, 3), (3, 9, 1), (4, 1, 0), (usize::MAX, usize::MAX, 0), (0, 0, 0)] {
        assert_eq!(plain(reading, b"A?+B", place, count, &mut []), length);
    }
    assert_eq!(plain(reading.with_characters(OTHERS), b"A?+B", 0, 4, &mut []), 4);
}
