#!/usr/bin/env bash
# Builds the archive, the C example and the Rust wrapper, and holds what both examples print on the deliveries of docs/VECTORS.md to their lines,
# which were worked out by hand before any program ran; the segments that the two print are held to each other.
# Needs rt, a C compiler (CC, or cc), cargo and python3. What it makes stands under target/.
set -eu -o pipefail
cd "$(dirname "$0")/.."

vectors=target/vectors
mkdir -p $vectors
python3 docs/places.py $vectors
rust/archive.sh
"${CC:-cc}" -std=c11 -Wall -Wextra -Werror -pedantic -O2 -Iinclude examples/example.c target/staticlib/libschaumtruhe_c.a -o target/example

export CARGO_TARGET_DIR="$PWD/target/rust"
cargo test --quiet --offline --release --manifest-path rust/wrapper/Cargo.toml
cargo build --quiet --offline --release --manifest-path rust/wrapper/Cargo.toml --example report
report=$CARGO_TARGET_DIR/release/examples/report

check() { # DELIVERY LINES [WORD ..]
    local words=("${@:3}")
    target/example "${words[@]}" "$1" | cmp "$2" -
    "$report" "${words[@]}" "$1" | cmp "$2" -
    target/example "${words[@]}" -s "$1" >target/segments
    "$report" "${words[@]}" -s "$1" | cmp target/segments -
}
for reading in "" --strict; do # neither holds a break that is skipped
    check $vectors/stdin $vectors/sheetcheck.stdout $reading
    check $vectors/pairs/stdin $vectors/pairs/sheetcheck.stdout $reading
done
check $vectors/pairs_lines/stdin $vectors/pairs_lines/sheetcheck.stdout
check $vectors/lines/stdin $vectors/lines/sheetcheck.stdout
for delivery in $vectors/other/*.edi $vectors/una/*.edi; do
    [ "$(wc -c <"$delivery")" -gt 65536 ] || check "$delivery" "${delivery%.edi}.out" # the examples read more than the programs do
done
for delivery in $vectors/strict/*.edi $vectors/strict_una/*.edi; do
    check "$delivery" "${delivery%.edi}.out" --strict
done
for delivery in $vectors/handed/*.edi; do
    check "$delivery" "${delivery%.edi}.out" --characters "$(cat "${delivery%.edi}.characters")"
done
for delivery in $vectors/strict_handed/*.edi; do
    check "$delivery" "${delivery%.edi}.out" --strict --characters "$(cat "${delivery%.edi}.characters")"
done
echo "the C example and the Rust wrapper print the same, as they should"
