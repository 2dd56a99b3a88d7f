//! A delivery spelled with other characters is answered as the one with the usual characters, places and all: separators, release and
//! terminator exchanged everywhere, the mark in components of number format, no other data byte among them.

use generator::{any_characters, damage, message, spelled, una, Characters, Edition, Random, Shape, FAULTS, USUAL};
use plain::{article, judge_at, next_message, prices, segment_at, survey, without_releases, Reading};

/// A few messages in the usual spelling, right and damaged, in lines or not.
fn sheets(random: &mut Random) -> Vec<u8> {
    let mut d = Vec::new();
    let line = random.pick(&[&b""[..], b"", b"\r\n"]);
    for _ in 0..random.between(1, 4) {
        let shape = Shape {
            edition: Edition::any(random),
            positions: random.below(12),
            releases: *random.pick(&[&0, &0, &4]),
            is_rich: random.once_in(3),
            is_z04: random.once_in(5),
        };
        let mut all = message(random, shape);
        if random.once_in(2) {
            let number = *random.pick(&FAULTS.each_ref());
            damage(random, &mut all, number);
        }
        for segment in &all {
            segment.write(random, shape.releases, &mut d);
            d.extend_from_slice(line);
        }
    }
    d
}

/// Compares all answers on two deliveries of one length, each in its reading.
fn same_answers(reading: Reading, one: &[u8], other_reading: Reading, other: &[u8]) {
    assert_eq!(survey(reading, one), survey(other_reading, other));
    let mut from = 0;
    while let Some((start, end)) = next_message(reading, one, from) {
        assert_eq!(next_message(other_reading, other, from), Some((start, end)));
        assert_eq!(judge_at(reading, one, start), judge_at(other_reading, other, start));
        let (mut row, mut other_row) = ([0; 800], [0; 800]);
        let found = prices(reading, one, start, 0, &mut row);
        assert_eq!((found, row), (prices(other_reading, other, start, 0, &mut other_row), other_row));
        for k in 0..found.map_or(0, |(_, total)| total.min(20)) {
            let at = article(reading, one, start, k);
            assert_eq!(at, article(other_reading, other, start, k));
            let (mut text, mut other_text) = ([0; 40], [0; 40]);
            let length = without_releases(reading, one, at.place, at.length, &mut text);
            assert_eq!(length, without_releases(other_reading, other, at.place, at.length, &mut other_text));
            assert_eq!(text, other_text);
        }
        from = end;
    }
    assert_eq!(next_message(other_reading, other, from), None);
    for at in (0..one.len()).step_by(7) {
        let is_inside_una = at > 0 && at < 9;
        assert!(is_inside_una || segment_at(reading, one, at).is_some() == segment_at(other_reading, other, at).is_some());
    }
}

/// The same sheets in both spellings, if that is all that changes.
fn in_both(random: &mut Random) -> Option<(Vec<u8>, Vec<u8>, Characters)> {
    let d = sheets(random);
    let characters = any_characters(random);
    let other = spelled(&d, characters);
    // No byte got a release, and no number gets a mark that it had not.
    let has_mark = characters[2] != b'.' && d.contains(&characters[2]);
    (other.len() == d.len() && !has_mark).then_some((d, other, characters))
}

#[test]
fn answers_do_not_depend_on_the_spelling() {
    let random = &mut Random::new(6);
    let mut compared = 0;
    for _ in 0..3000 {
        let Some((usual, other, characters)) = in_both(random) else { continue };
        compared += 1;
        for reading in [Reading::usual(), Reading::strict()] {
            same_answers(reading, &usual, reading.with_characters(characters), &other);
            let (with_una, other_with_una) = ([&una(USUAL)[..], &usual].concat(), [&una(characters)[..], &other].concat());
            same_answers(reading, &with_una, reading, &other_with_una);
            same_answers(reading, &with_una, reading.with_characters(*b"AAAAA"), &other_with_una);
        }
    }
    assert!(compared > 500, "{compared}");
}
