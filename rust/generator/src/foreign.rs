//! A finished delivery as a partner outside the market would send it, and the characters that are handed in with it.

use crate::delivery::LIMIT;
use crate::random::Random;
use crate::spelling::{any_characters, spelled, una, wrong_characters, wrong_una, Characters, USUAL};

/// Bytes, and the service characters that are handed in with them.
pub struct Delivery {
    pub bytes: Vec<u8>,
    pub characters: Characters,
}

/// A delivery spelled as usual, in a third of all cases with other characters: in UNA, or to be handed in.
pub fn addressed(random: &mut Random, d: Vec<u8>) -> Delivery {
    if !random.once_in(3) {
        return Delivery { bytes: d, characters: handed_in(random) };
    }
    let used = any_characters(random);
    let begin = d.iter().take_while(|byte| b"\r\n".contains(byte)).count();
    let body = d[begin..].strip_prefix(&una(USUAL)).unwrap_or(&d[begin..]);
    let mut body = spelled(body, used);
    if random.once_in(5) {
        scratch(random, &mut body, used);
    }
    let (front, characters) = match random.below(20) {
        0..=11 => (una(used).to_vec(), handed_in(random)),
        12..=13 => (wrong_una(random, used), handed_in(random)),
        14..=18 => (Vec::new(), used),
        _ => (Vec::new(), wrong_characters(random, used)),
    };
    let mut bytes = [&d[..begin], &front, &body].concat();
    bytes.truncate(LIMIT + random.pick(&[&0, &0, &1, &500]));
    Delivery { bytes, characters }
}

/// Mostly the usual ones; others, right or wrong, are used where there is no UNA.
fn handed_in(random: &mut Random) -> Characters {
    match random.below(20) {
        0..=1 => any_characters(random),
        2 => wrong_characters(random, USUAL),
        3 => wrong_una(random, USUAL).into_iter().chain([b'*'; 9]).skip(3).take(5).collect::<Vec<u8>>().try_into().expect("five bytes"),
        _ => USUAL,
    }
}

/// A few bytes changed, added or taken away, among them the characters in use and the usual ones.
fn scratch(random: &mut Random, d: &mut Vec<u8>, used: Characters) {
    for _ in 0..random.between(1, 4) {
        let at = random.below(d.len() + 1);
        let byte = *random.pick(&[&used[0], &used[1], &used[2], &used[3], &used[4], &b':', &b'+', &b'.', &b'?', &b'\'', &b'\n']);
        match random.below(3) {
            0 if at < d.len() => d[at] = byte,
            1 if at < d.len() => drop(d.remove(at)),
            _ => d.insert(at, byte),
        }
    }
}
