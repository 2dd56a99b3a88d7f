#!/usr/bin/env bash
# Compares every call of the proved library with the plain reader on generated deliveries: compare.sh [deliveries] [seed].
set -eu -o pipefail
cd "$(dirname "$0")/.."
rust/archive.sh
export CARGO_TARGET_DIR="$PWD/target/rust"
cargo run --quiet --offline --release --manifest-path rust/proved/Cargo.toml --bin compare_proved -- --deliveries "${1:-100000}" --seed "${2:-1}"
