//! The service characters that a delivery shows. Nothing is judged: places are chosen and answers counted by them.

use generator::Characters;
use plain::Reading;

/// Those of UNA, if its bytes stand at the start, behind line breaks where they are skipped; else those handed in.
pub fn used(reading: Reading, d: &[u8]) -> Characters {
    let breaks = d.iter().take_while(|byte| reading.skips && b"\r\n".contains(byte)).count();
    match d[breaks..] {
        [b'U', b'N', b'A', component, element, mark, release, _, terminator, ..] => [component, element, mark, release, terminator],
        _ => reading.characters,
    }
}
