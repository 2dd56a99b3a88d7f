//! Document 01's own examples, and the same message at every place of a block.

use plain::{article, judge_at, next_message, prices, report, survey, Article, Reading, Survey, Verdict};

const USUAL: Reading = Reading::usual();

const SHEET: &[u8] = b"UNH+1+PRICAT:D:20B:UN:2.0d'BGM+Z32+A1'DTM+137:2?+00:303'RFF+Z13:27002'NAD+MR+1::9'NAD+MS+2::9'\
    PGI+9'LIN+1++A?+B:Z01'PRI+CAL:168.06::::ANN'RNG+10+H87:9:9'PRI+CAL:-0'UNT+12+1'";

#[test]
fn the_printed_example() {
    let d = b"UNH+1+PRICAT:D:20B:UN:2.0d'BGM+Z32+A1'UNT+3+1'UNH+2+PRICAT:D:20B:UN:2.0d'";
    assert_eq!(report(USUAL, d), b"M 1 0 14 3 38 4\nM 2 46 24 2 73 0\nE 2 0 0\n");
}

#[test]
fn the_numbers_of_a_price() {
    let mut row = [77; 17];
    assert_eq!(prices(USUAL, SHEET, 0, 0, &mut row), Ok((2, 2)));
    let place = |text: &[u8]| SHEET.windows(text.len()).position(|part| part == text).unwrap() as i64;
    let article_place = place(b"A?+B");
    assert_eq!(row[..8], [1, article_place, 4, 16806, 2, 1, place(b"PRI+"), place(b"RNG+")]);
    assert_eq!(row[8..], [1, article_place, 4, 0, 0, 0, place(b"PRI+CAL:-0"), -1, 77]);
    assert_eq!(article(USUAL, SHEET, 0, 1), Article { number: 0, place: article_place as usize, length: 4 });
    assert_eq!(article(USUAL, SHEET, 0, 2), Article { number: 32, place: 0, length: 0 });
    assert_eq!(prices(USUAL, SHEET, 0, 2, &mut row), Ok((0, 2)));
    assert_eq!(prices(USUAL, SHEET, 1, 0, &mut row), Err(31));
}

#[test]
fn nothing_depends_on_where_the_message_begins() {
    for length in 1..200 {
        let front = [vec![b'A'; length - 1], b"'".to_vec()].concat();
        let d = [&front[..], SHEET, b"UNZ+1+1'"].concat();
        let end = length + SHEET.len();
        assert_eq!(survey(USUAL, &d), Ok(Survey { messages: 1, accepted: 1, outside: 2 }));
        assert_eq!(next_message(USUAL, &d, 1), Some((length, end)));
        assert_eq!(judge_at(USUAL, &d, length), Verdict::Accepted { segments: 12, end });
    }
}

#[test]
fn the_limit() {
    let d = vec![b'A'; 1_048_577];
    assert_eq!(survey(USUAL, &d), Err(1));
    assert_eq!(survey(USUAL, &d[1..]), Ok(Survey { messages: 0, accepted: 0, outside: 1 }));
    assert_eq!(report(USUAL, &d), b"X 1\n");
    assert_eq!(report(USUAL, b"UNA:+.?,'"), b"X 2\n");
}
