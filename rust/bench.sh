#!/usr/bin/env bash
# Times the proved library and the plain reader against the yardstick: bench.sh [seconds that it takes].
set -eu -o pipefail
cd "$(dirname "$0")/.."
rust/archive.sh
export CARGO_TARGET_DIR="$PWD/target/rust"
cargo run --quiet --offline --release --manifest-path rust/proved/Cargo.toml --bin bench_proved -- "${1:-60}"
