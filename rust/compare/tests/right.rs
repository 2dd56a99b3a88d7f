//! What the generator means to be right is accepted.

use generator::{kind, message, usual_form, Edition, Random, Shape, LINES, OTHERS};
use plain::{survey, Reading};

#[test]
fn the_kinds_that_are_timed() {
    for name in ["valid", "many", "z04", "dense", "valid_lines", "many_lines", "z04_lines", "valid_other"] {
        for seed in 0..4 {
            let survey = survey(Reading::usual(), &kind(name, 65_536, seed)).expect("a delivery that is admitted");
            assert_eq!(survey.accepted, survey.messages, "{name} {seed}");
        }
    }
}

#[test]
fn lines_change_no_count() {
    for name in LINES {
        let (lines, bare) = (kind(name, 65_536, 1), usual_form(name, 65_536, 1));
        assert!(lines.len() <= 65_536 && bare.len() < lines.len());
        assert_eq!(survey(Reading::usual(), &lines), survey(Reading::strict(), &bare), "{name}");
    }
}

#[test]
fn other_characters_change_no_count() {
    for name in OTHERS {
        let (others, usual) = (kind(name, 65_536, 1), usual_form(name, 65_536, 1));
        assert!(others.len() <= 65_536 && others.starts_with(b"UNA*|,! ~") && usual.len() == others.len());
        assert_eq!(survey(Reading::usual(), &others), survey(Reading::usual(), &usual), "{name}");
    }
}

#[test]
fn messages_of_every_shape() {
    let random = &mut Random::new(2);
    for number in 0..2000 {
        let shape = Shape {
            edition: Edition::any(random),
            positions: number % 12,
            releases: 3 * (number % 2),
            is_rich: number % 5 > 0,
            is_z04: number % 7 == 0,
        };
        let mut d = Vec::new();
        message(random, shape).iter().for_each(|segment| segment.write(random, shape.releases, &mut d));
        assert_eq!(survey(Reading::usual(), &d).map(|survey| survey.accepted), Ok(1), "{}", String::from_utf8_lossy(&d));
    }
}
