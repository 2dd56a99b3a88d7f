//! Item 6: the service characters of UNA and those handed in, on both sides of every condition.

use plain::{article, judge_at, next_message, prices, report, segment_at, survey, without_releases, Article, Reading, Survey, Verdict};

const USUAL: Reading = Reading::usual();
const STRICT: Reading = Reading::strict();

/// `UNA` and the six bytes behind it, with nothing else.
fn una(five: &[u8; 5]) -> Vec<u8> {
    [b"UNA", &five[..4], b" ", &five[4..]].concat()
}

const NOTHING: Result<Survey, u32> = Ok(Survey { messages: 0, accepted: 0, outside: 0 });

/// What UNA with five characters gets, which is also what they get when they are handed in.
fn taken(five: &[u8; 5]) -> bool {
    let answers = [survey(USUAL, &una(five)), survey(STRICT, &una(five)), survey(USUAL.with_characters(*five), b"")];
    assert!(answers == [NOTHING; 3] || answers == [Err(2); 3], "{five:?}");
    answers[0].is_ok()
}

#[test]
fn every_byte_at_every_place() {
    for at in 0..5 {
        for byte in 0..=255u8 {
            let mut five = *b"\xa1\xa2\xa3\xa4\xa5";
            five[at] = byte;
            let is_one = byte > 32 && byte < 127 && !byte.is_ascii_alphanumeric() && byte != b'-';
            let is_high = byte >= 160 && !(b"\xa1\xa2\xa3\xa4\xa5".contains(&byte) && byte != 0xa1 + at as u8);
            assert_eq!(taken(&five), is_one || is_high, "{byte} at {at}");
        }
    }
}

#[test]
fn the_five_are_distinct() {
    for one in 0..5 {
        for other in 0..5 {
            let mut five = *b"*|,!~";
            five[one] = five[other];
            assert_eq!(taken(&five), one == other);
        }
    }
}

#[test]
fn the_reserved_byte_and_the_length() {
    for byte in 0..=255 {
        let mut d = una(b"*|,!~");
        d[7] = byte;
        assert_eq!(survey(USUAL, &d), if byte == b' ' { NOTHING } else { Err(2) });
    }
    for length in 3..9 {
        assert_eq!(survey(USUAL, &una(b"*|,!~")[..length]), Err(2));
        assert_eq!(survey(STRICT, &una(b"*|,!~")[..length]), Err(2));
    }
}

const SHEET: &[u8] = b"UNH|1|PRICAT*D*20B*UN*2.0d~BGM|Z32|A?+1'~DTM|137*2+00*303~RFF|Z13*27002~NAD|MR|1**9~NAD|MS|2**9~\
    PGI|9~LIN|1||A!|B?!!*Z01~PRI|CAL*168,06****ANN~RNG|10|H87*9,5*9~PRI|CAL*-0~UNT|12|1~";
const OTHERS: [u8; 5] = *b"*|,!~";

#[test]
fn handed_in_or_in_una() {
    let given = USUAL.with_characters(OTHERS);
    assert_eq!(judge_at(given, SHEET, 0), Verdict::Accepted { segments: 12, end: SHEET.len() });
    // With the usual ones the first segment ends behind `A?+1'`.
    assert_eq!(judge_at(USUAL, SHEET, 0), Verdict::Refused { number: 11, segment: 1, place: 0, node: 0 });
    let d = [&una(&OTHERS)[..], SHEET].concat();
    for reading in [USUAL, STRICT, given, USUAL.with_characters(*b"AAAAA")] {
        assert_eq!(judge_at(reading, &d, 9), Verdict::Accepted { segments: 12, end: d.len() });
        assert_eq!(next_message(reading, &d, 0), Some((9, d.len())));
        assert_eq!(segment_at(reading, &d, 0), Some((9, 36, false)));
        let mut row = [77; 17];
        assert_eq!(prices(reading, &d, 9, 0, &mut row), Ok((2, 2)));
        assert_eq!(row[3..6], [16806, 2, 1]);
        assert_eq!(row[11..14], [0, 0, 0]);
    }
    let refused = Verdict::Refused { number: 2, segment: 0, place: 0, node: 0 };
    assert_eq!(judge_at(USUAL.with_characters(*b"AAAAA"), SHEET, 0), refused);
    assert_eq!(next_message(USUAL.with_characters(*b"::.?'"), SHEET, 0), None);
    assert_eq!(segment_at(USUAL.with_characters(*b":+.? "), SHEET, 0), None);
}

#[test]
fn an_article_without_its_releases() {
    let given = USUAL.with_characters(OTHERS);
    let Article { place, length, .. } = article(given, SHEET, 0, 0);
    assert_eq!(&SHEET[place..place + length], b"A!|B?!!");
    let mut out = [7; 8];
    assert_eq!(without_releases(given, SHEET, place, length, &mut out), 5);
    assert_eq!(&out, b"A|B?!\x07\x07\x07");
    assert_eq!(without_releases(given, SHEET, place, length, &mut []), 5);
    let mut out = [7; 3];
    assert_eq!((without_releases(given, SHEET, place, length, &mut out), &out), (5, b"A|B"));
    // Cut to the delivery; a release that nothing follows is a mark too.
    for (d, place, count, total) in [(&b"A?"[..], 0, 2, 1), (b"A?", 1, 9, 0), (b"??", 0, usize::MAX, 1), (b"AB", 2, 1, 0), (b"AB", 9, 9, 0)]
    {
        assert_eq!(without_releases(USUAL, d, place, count, &mut []), total);
    }
    assert_eq!(without_releases(USUAL, b"UNA", 0, 3, &mut []), 0);
    assert!(report(given, SHEET).windows(8).any(|part| part == b"P 1 A|B?"));
}
