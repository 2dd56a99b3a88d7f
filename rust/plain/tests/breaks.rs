//! Item 4: the calls on deliveries with line breaks, in both readings.

use plain::{article, judge_at, next_message, prices, segment_at, survey, Article, Reading, Survey, Verdict};

const USUAL: Reading = Reading::usual();
const STRICT: Reading = Reading::strict();
const SHEET: &str = "UNH+1+PRICAT:D:20B:UN:2.0d'BGM+Z32+A1'DTM+137:1:303'RFF+Z13:27002'NAD+MR+1::9'NAD+MS+2::9'\
    PGI+9'LIN+1++A?'B:Z01'PRI+CAL:168.06'RNG+10+H87:9:9'PRI+CAL:2'UNT+12+1'";

fn refused(number: u32) -> Verdict {
    Verdict::Refused { number, segment: 0, place: 0, node: 0 }
}

/// The sheet with these breaks after each segment, the last one too.
fn laid_out(breaks: &str) -> String {
    let segments = SHEET.replace("'B:", "\0").replace('\'', &format!("'{breaks}"));
    segments.replace('\0', "'B:")
}

#[test]
fn a_sheet_at_every_place_of_a_block() {
    for breaks in ["\r\n", "\n", "\r", "\n\r\n", &"\n".repeat(64), &"\r\n".repeat(50)] {
        let sheet = laid_out(breaks);
        for length in 0..130 {
            let d = format!("{}{sheet}UNZ+1+1'{breaks}", "\n".repeat(length)).into_bytes();
            let end = length + sheet.len() - breaks.len();
            assert_eq!(survey(USUAL, &d), Ok(Survey { messages: 1, accepted: 1, outside: 1 }));
            assert_eq!(next_message(USUAL, &d, 0), Some((length, end)));
            assert_eq!(judge_at(USUAL, &d, length), Verdict::Accepted { segments: 12, end });
        }
    }
}

#[test]
fn places_in_a_row_count_the_breaks() {
    for breaks in ["\r\n", "\n\n\r"] {
        let d = ["\r\n", &laid_out(breaks)].concat().into_bytes();
        let place = |text: &[u8]| d.windows(text.len()).position(|part| part == text).unwrap() as i64 - 2;
        let mut row = [77; 17];
        assert_eq!(prices(USUAL, &d, 2, 0, &mut row), Ok((2, 2)));
        let named = place(b"A?'B");
        assert_eq!(row[..8], [1, named, 4, 16806, 2, 0, place(b"PRI+CAL:1"), place(b"RNG+")]);
        assert_eq!(row[8..], [1, named, 4, 2, 0, 0, place(b"PRI+CAL:2"), -1, 77]);
        assert_eq!(article(USUAL, &d, 2, 1), Article { number: 0, place: named as usize + 2, length: 4 });
    }
}

#[test]
fn a_place_within_skipped_bytes() {
    let (first, second) = (laid_out("\r\n"), laid_out("\n"));
    let d = format!("\n\nUNA:+.? '\r\n\r\n{first}\n{second}").into_bytes();
    let (one, two) = (15, 15 + first.len() + 1);
    let end = one + first.len() - 2;
    for from in 0..=one {
        assert_eq!(next_message(USUAL, &d, from), Some((one, end)), "{from}");
        assert_eq!(segment_at(USUAL, &d, from), Some((one, one + 27, false)), "{from}");
    }
    for from in end..=two {
        assert_eq!(next_message(USUAL, &d, from), Some((two, d.len() - 1)), "{from}");
        assert_eq!(segment_at(USUAL, &d, from), Some((two, two + 27, false)), "{from}");
    }
    for at in (0..one).chain(end..two).chain([d.len() - 1, d.len()]) {
        assert_eq!(judge_at(USUAL, &d, at), refused(31), "{at}");
        assert_eq!(prices(USUAL, &d, at, 0, &mut []), Err(31), "{at}");
        assert_eq!(article(USUAL, &d, at, 0), Article { number: 31, place: 0, length: 0 }, "{at}");
    }
    for at in [d.len() - 1, d.len(), usize::MAX] {
        assert_eq!((next_message(USUAL, &d, at), segment_at(USUAL, &d, at)), (None, None), "{at}");
    }
}

#[test]
fn a_released_terminator_ends_nothing() {
    let d = b"A?'\r\nUNH+1'\r\nUNH+2'";
    assert_eq!(segment_at(USUAL, d, 0), Some((0, 11, false)));
    assert_eq!(judge_at(USUAL, d, 5), refused(31));
    for from in 0..=13 {
        assert_eq!(next_message(USUAL, d, from), Some((13, 19)), "{from}");
    }
    // Content, although it is no break of a segment that has ended.
    assert_eq!(segment_at(USUAL, b"A'?\r\nB'", 2), Some((2, 7, false)));
    assert_eq!(next_message(USUAL, b"A??'\nUNH'", 1), Some((5, 9)));
    assert_eq!(next_message(USUAL, b"A???'\nUNH'", 1), None);
}

#[test]
fn pieces() {
    assert_eq!(segment_at(USUAL, b"A'\r\n", 2), None);
    assert_eq!(segment_at(USUAL, b"\r\n", 0), None);
    assert_eq!(segment_at(USUAL, b"\nUNA:+.? '\r\n", 0), None);
    assert_eq!(segment_at(USUAL, b"A'\r\nABC\r\n", 2), Some((4, 9, true)));
    assert_eq!(segment_at(STRICT, b"A'\r\n", 2), Some((2, 4, true)));
    assert_eq!(segment_at(STRICT, b"\nUNA:+.? '\r\n", 0), Some((0, 10, false)));
}

#[test]
fn strict_is_to_the_byte() {
    let d = [SHEET, "\r\n", SHEET].concat().into_bytes();
    let (end, second) = (SHEET.len(), SHEET.len() + 2);
    assert_eq!(survey(STRICT, &d), Ok(Survey { messages: 1, accepted: 1, outside: 12 }));
    assert_eq!(survey(USUAL, &d), Ok(Survey { messages: 2, accepted: 2, outside: 0 }));
    assert_eq!((judge_at(STRICT, &d, second), next_message(STRICT, &d, 1)), (refused(31), None));
    assert_eq!(judge_at(USUAL, &d, second), Verdict::Accepted { segments: 12, end: d.len() });
    assert_eq!(judge_at(STRICT, &d, 0), Verdict::Accepted { segments: 12, end });
    let d = laid_out("\r\n").into_bytes();
    assert_eq!(judge_at(STRICT, &d, 0), Verdict::Refused { number: 10, segment: 2, place: 27, node: 0 });
    assert_eq!((survey(USUAL, b"\nUNA:+.?,'"), survey(USUAL, b"\nUNA")), (Err(2), Err(2)));
    assert_eq!(survey(STRICT, b"\nUNA:+.?,'"), Ok(Survey { messages: 0, accepted: 0, outside: 1 }));
}

#[test]
fn the_limit_counts_them() {
    let d = vec![b'\n'; 1_048_577];
    assert_eq!(survey(USUAL, &d), Err(1));
    assert_eq!(survey(USUAL, &d[1..]), Ok(Survey { messages: 0, accepted: 0, outside: 0 }));
    assert_eq!(survey(STRICT, &d[1..]), Ok(Survey { messages: 0, accepted: 0, outside: 1 }));
}
