//! Every call of the proved library against the plain reader.

fn main() {
    let is_same = compare::run(&plain::Plain, &proved::Proved, &compare::Order::from_arguments());
    std::process::exit(!is_same as i32);
}
