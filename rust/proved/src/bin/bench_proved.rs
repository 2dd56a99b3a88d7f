//! The proved library and the plain reader against the yardstick; the seconds that it takes may be given.

fn main() {
    let given = std::env::args().nth(1).map(|text| text.parse().expect("seconds"));
    bench::run(&[&plain::Plain, &proved::Proved], std::time::Duration::from_secs(given.unwrap_or(60)));
}
