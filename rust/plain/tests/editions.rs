//! Item 1: the edition that DE0057 names, on both sides of every difference.

mod sheet;

use plain::{judge_at, prices, Reading, Verdict};
use sheet::{both, message, verdict, HEAD, RIGHT};

#[test]
fn the_edition_is_the_decoded_code() {
    for edition in ["2.0d", "2.0c", "2.0?c", "?2?.?0?c", "2.0?d", "2.0c:", "2.0c+"] {
        assert_eq!(verdict(edition, HEAD), RIGHT, "{edition}");
    }
    for edition in ["2.0e", "2.0C", "2.0", "2.0c ", "2.0cc", "2.0?:", "c"] {
        assert_eq!(verdict(edition, HEAD), (20, 1, 1), "{edition}");
    }
    assert_eq!(verdict("2.0c   ", HEAD), (19, 1, 1));
    assert_eq!(verdict("", HEAD), (17, 1, 1));
    assert_eq!(verdict("2.0c:X", HEAD), (18, 1, 1));
    assert_eq!(verdict("2.0c+X", HEAD), (18, 1, 1));
    assert_eq!(judge_at(Reading::usual(), b"UNH+1+PRICAT:E:20B:UN:2.0e'UNT+2+1'", 0), refused(20, 1, 0, 1));
}

fn refused(number: u32, segment: usize, place: usize, node: usize) -> Verdict {
    Verdict::Refused { number, segment, place, node }
}

#[test]
fn the_one_does_not_outlast_its_message() {
    let old = message("2.0c", HEAD);
    let body = HEAD.replace("RFF", "RFF+Z56:1'RFF");
    let d = [&old[..], &message("2.0d", &body), &message("2.0c", &body)].concat();
    assert_eq!(judge_at(Reading::usual(), &d, 0), Verdict::Accepted { segments: 7, end: old.len() });
    assert_eq!(plain::survey(Reading::usual(), &d).map(|survey| survey.accepted), Ok(2));
}

#[test]
fn the_reference_of_a_price_sheet() {
    let body = HEAD.replace("RFF", "RFF+Z56:1'RFF");
    assert_eq!(both(&body), [RIGHT, (13, 4, 0)]);
    assert_eq!(both(&HEAD.replace("RFF+Z13:27002'", "RFF+Z13:27002'RFF+Z56:1'")), [RIGHT, (13, 5, 0)]);
    assert_eq!(both(&HEAD.replace("27002", "27004")), [(20, 4, 8), (20, 4, 7)]);
}

#[test]
fn a_second_price() {
    let first = |prices: &str| format!("{HEAD}PGI+9'LIN+1++A:Z01'{prices}");
    assert_eq!(both(&first("")), [RIGHT, RIGHT]);
    assert_eq!(both(&first("PRI+CAL:1'")), [RIGHT, RIGHT]);
    assert_eq!(both(&first("PRI+CAL:1'PRI+CAL:2'")), [RIGHT, (15, 10, 18)]);
    assert_eq!(both(&first("PRI+CAL:1'LIN+2++B:Z01'PRI+CAL:2'")), [RIGHT, RIGHT]);
    assert_eq!(both(&first(&"PRI+CAL:1'".repeat(101))), [(15, 109, 19), (15, 10, 18)]);
    let second = |prices: &str| format!("{HEAD}PGI+Z01'LIN+1++A:Z09'{prices}");
    assert_eq!(both(&second("PRI+CAL:1'PRI+CAL:2'")), [(15, 10, 24), (15, 10, 22)]);
    assert_eq!(both(&second("")), [(14, 9, 24), (14, 9, 22)]);
}

#[test]
fn a_range() {
    let first = format!("{HEAD}PGI+9'LIN+1++A:Z01'PRI+CAL:1'RNG+10+H87:9:9'");
    assert_eq!(both(&first), [RIGHT, (13, 10, 0)]);
    let second = format!("{HEAD}PGI+Z01'LIN+1++A:Z09'PRI+CAL:1'RNG+10+KWH:9:9'");
    assert_eq!(both(&second), [RIGHT, RIGHT]);
    assert_eq!(both(&second.replace("KWH", "H87")), [(20, 10, 25), (20, 10, 23)]);
    let mut row = [0; 8];
    for edition in ["2.0d", "2.0c"] {
        let d = message(edition, &second);
        let place = d.windows(4).position(|part| part == b"RNG+").unwrap() as i64;
        assert_eq!((prices(Reading::usual(), &d, 0, 0, &mut row), row[7]), (Ok((1, 1)), place));
    }
}

#[test]
fn the_text_of_a_description() {
    let imd = |composite: &str| both(&format!("{HEAD}PGI+9'LIN+1++A:Z01'IMD+C+Z41{composite}'"));
    let missing = (17, 9, 17);
    for empty in ["", "+", "+:::", "+::::", "+:::+", "+:::Text", "+Z08:::Text", "+Z08:::Text:+"] {
        assert_eq!(imd(empty), [RIGHT, RIGHT], "{empty}");
    }
    for bare in ["+Z08", "+Z08:", "+Z08:::", "+Z08::::", "+Z08+", "+?Z08"] {
        assert_eq!(imd(bare), [RIGHT, missing], "{bare}");
    }
    // The missing text is left of what is not used.
    for beyond in ["+::::X", "+:::::X", "+Z08::::X", "+Z08+X"] {
        assert_eq!(imd(beyond), [(18, 9, 18), missing], "{beyond}");
    }
    for right in ["+:X", "+::X", "+Z08:X", "+:::Text:X", "+Z08:::Text:X", "+:::Text+X", "++X"] {
        assert_eq!(imd(right), [(18, 9, 18), (18, 9, 17)], "{right}");
    }
    assert_eq!(imd("+Z12"), [(20, 9, 18), (20, 9, 17)]);
    assert_eq!(imd(&format!("+:::{}", "X".repeat(257))), [(19, 9, 18), (19, 9, 17)]);
}

/// Behind `HEAD`, one segment of every node that both editions have.
const POSITIONS: &str = "CTA+IC+:N'COM+1:TE'CUX+2:EUR:8'PGI+9'LIN+1++A:Z01'PIA+1+S:Z06'IMD+C+Z41'PRI+CAL:1'DTM+163:1:303'\
    DTM+164:1:303'PGI+Z01'LIN+2++B:Z09'PRI+CAL:1'RNG+10+KWH:1'";

/// How a segment begins, and its node in 2.0d and 2.0c.
const NUMBERS: [(&str, usize, usize); 16] = [
    ("BGM", 2, 2),
    ("DTM+137", 4, 4),
    ("RFF+Z13", 8, 7),
    ("NAD+MR", 9, 8),
    ("NAD+MS", 10, 9),
    ("CTA", 12, 11),
    ("COM", 13, 12),
    ("CUX", 14, 13),
    ("PGI+9", 15, 14),
    ("LIN+1", 16, 15),
    ("PIA", 17, 16),
    ("IMD", 18, 17),
    ("DTM+164", 21, 19),
    ("PGI+Z01", 22, 20),
    ("LIN+2", 23, 21),
    ("RNG", 25, 23),
];

#[test]
fn the_numbers_of_the_nodes() {
    let sheet = format!("{HEAD}{POSITIONS}");
    assert_eq!(both(&sheet), [RIGHT, RIGHT]);
    for (begin, of_20d, of_20c) in NUMBERS {
        let spoil = |segment: &str| match segment.starts_with(begin) {
            true => segment.replace('\'', "+++++++X'"),
            false => segment.to_string(),
        };
        let wrong: String = sheet.split_inclusive('\'').map(spoil).collect();
        assert_eq!(both(&wrong).map(|(number, _, node)| (number, node)), [(18, of_20d), (18, of_20c)], "{begin}");
    }
}

#[test]
fn the_numbers_of_23_and_21() {
    let agreeing = format!("{HEAD}PGI+9'LIN+1++A:Z09'PGI+Z01'LIN+2++A:Z09'PRI+CAL:1'");
    assert_eq!(both(&agreeing), [(23, 10, 23), (23, 10, 21)]);
    for (edition, node) in [("2.0d", 26), ("2.0c", 24)] {
        let mut d = message(edition, HEAD);
        let place = d.len() - b"UNT+7+1'".len();
        d[place + 4] = b'8';
        assert_eq!(judge_at(Reading::usual(), &d, 0), refused(21, 7, place, node));
    }
}
