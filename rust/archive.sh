#!/usr/bin/env bash
# Proves the exported calls and writes their archive to target/staticlib/libschaumtruhe_c.a. Needs rt.
set -eu -o pipefail
cd "$(dirname "$0")/.."
(cd crates/schaumtruhe_c && rt lib | tail -n 1)
mkdir -p target/staticlib
cp crates/schaumtruhe_c/out/libschaumtruhe_c.a target/staticlib/
