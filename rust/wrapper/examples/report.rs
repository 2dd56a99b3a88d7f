//! Reads a file and prints what the checking program of document 01 prints, or with -s its segments, as `examples/example.c` does; --strict before
//! that reads strictly, --characters and five bytes hand these in.
use std::env;
use std::ffi::OsString;
use std::fs;
use std::io::{self, BufWriter, Write};
use std::os::unix::ffi::OsStrExt;

use schaumtruhe::{Reading, PRICE};

/// The article of a price without its release marks; `-` if it is absent. The row has its place in the message and its length.
fn article(reading: Reading, delivery: &[u8], message: usize, price: &[i64]) -> Vec<u8> {
    if price[2] == 0 {
        return b"-".to_vec();
    }
    let mut out = vec![0; price[2] as usize];
    let length = schaumtruhe::plain(reading, delivery, message + price[1] as usize, price[2] as usize, &mut out);
    out.truncate(length);
    out
}

fn print_prices(out: &mut impl Write, reading: Reading, delivery: &[u8], at: usize) -> io::Result<()> {
    let total = schaumtruhe::prices(reading, delivery, at, 0, &mut []).total;
    let mut row = vec![0; total * PRICE];
    schaumtruhe::prices(reading, delivery, at, 0, &mut row);
    for price in row.chunks_exact(PRICE) {
        write!(out, "P {} ", price[0])?;
        out.write_all(&article(reading, delivery, at, price))?;
        writeln!(out, " {} {}", price[3], price[4])?;
    }
    Ok(())
}

fn print_report(out: &mut impl Write, reading: Reading, delivery: &[u8]) -> io::Result<()> {
    let totals = schaumtruhe::survey(reading, delivery);
    if totals.number != 0 {
        return writeln!(out, "X {}", totals.number);
    }
    let mut message = schaumtruhe::next_message(reading, delivery, 0);
    let mut n = 1;
    while message.found != 0 {
        let v = schaumtruhe::judge_at(reading, delivery, message.start);
        writeln!(out, "M {n} {} {} {} {} {}", message.start, v.number, v.segment, v.place, v.node)?;
        print_prices(out, reading, delivery, message.start)?; // a refused message has none
        message = schaumtruhe::next_message(reading, delivery, message.end);
        n += 1;
    }
    writeln!(out, "E {} {} {}", totals.messages, totals.accepted, totals.outside)
}

fn print_segments(out: &mut impl Write, reading: Reading, delivery: &[u8]) -> io::Result<()> {
    let mut segment = schaumtruhe::segment_at(reading, delivery, 0);
    while segment.found != 0 {
        writeln!(out, "S {} {} {}", segment.start, segment.end, segment.piece)?;
        segment = schaumtruhe::segment_at(reading, delivery, segment.end);
    }
    Ok(())
}

/// The reading that the first words ask for, and the words behind them; none if there are not five characters.
fn reading(words: &[OsString]) -> Option<(Reading, &[OsString])> {
    let (reading, words) = match words {
        [first, rest @ ..] if first == "--strict" => (Reading::strict(), rest),
        _ => (Reading::usual(), words),
    };
    match words {
        [word, five, rest @ ..] if word == "--characters" => Some((reading.with_characters(five.as_bytes().try_into().ok()?), rest)),
        _ => Some((reading, words)),
    }
}

fn main() -> io::Result<()> {
    let words: Vec<OsString> = env::args_os().skip(1).collect();
    let mut out = BufWriter::new(io::stdout().lock());
    match reading(&words) {
        Some((reading, [word, name])) if word == "-s" => print_segments(&mut out, reading, &fs::read(name)?)?,
        Some((reading, [name])) => print_report(&mut out, reading, &fs::read(name)?)?,
        _ => return Err(io::Error::other("usage: report [--strict] [--characters FIVE] [-s] FILE")),
    }
    out.flush()
}
