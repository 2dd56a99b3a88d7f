//! The checking program over this reader: standard input to lines, `X 1` for more than 65,536 bytes. `--strict` reads strictly;
//! `--characters` and five bytes hands these in.

use std::ffi::OsString;
use std::io::{self, Read, Write};
use std::os::unix::ffi::OsStrExt;

use plain::Reading;

const MOST: u64 = 65_536;

/// The reading that the words ask for.
fn reading(mut words: &[OsString]) -> Option<Reading> {
    let mut reading = Reading::usual();
    if let [first, rest @ ..] = words {
        if first == "--strict" {
            (reading, words) = (Reading::strict(), rest);
        }
    }
    match words {
        [] => Some(reading),
        [word, five] if word == "--characters" => five.as_bytes().try_into().ok().map(|five| reading.with_characters(five)),
        _ => None,
    }
}

fn main() -> io::Result<()> {
    let words: Vec<OsString> = std::env::args_os().skip(1).collect();
    let reading = reading(&words).ok_or(io::Error::other("usage: check [--strict] [--characters FIVE]"))?;
    let mut delivery = Vec::new();
    io::stdin().take(MOST + 1).read_to_end(&mut delivery)?;
    let lines = if delivery.len() as u64 > MOST { b"X 1\n".to_vec() } else { plain::report(reading, &delivery) };
    io::stdout().write_all(&lines)
}
