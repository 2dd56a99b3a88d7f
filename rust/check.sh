#!/bin/sh
# Builds and checks the plain reader: tests, docs/VECTORS.md, the outside vectors if they stand beside the project, and
# a short comparison with the naive reader.
set -e
cd "$(dirname "$0")"
without_library="-p plain -p generator -p compare -p bench"
nice cargo test --release --offline --quiet $without_library
nice cargo build --release --offline --quiet $without_library
check=target/release/check
folder=$(mktemp -d)
trap 'rm -r "$folder"' EXIT
python3 ../docs/places.py "$folder"
differences=0
lines_of() { # DELIVERY LINES [WORD ..]
    delivery=$1 lines=$2
    shift 2
    $check "$@" < "$delivery" | cmp - "$lines" || differences=$((differences + 1))
}
# These hold no break that is skipped, so both readings give their lines.
for reading in "" --strict; do
    lines_of "$folder/stdin" "$folder/sheetcheck.stdout" $reading
    lines_of "$folder/pairs/stdin" "$folder/pairs/sheetcheck.stdout" $reading
    for number in 01 02 03 04 05 06 07 08 09 10 11 12 13 14 15; do
        lines_of "$folder/other/$number.edi" "$folder/other/$number.out" $reading
    done
done
lines_of "$folder/pairs_lines/stdin" "$folder/pairs_lines/sheetcheck.stdout"
lines_of "$folder/lines/stdin" "$folder/lines/sheetcheck.stdout"
for delivery in "$folder"/other/*.edi "$folder"/una/*.edi; do
    lines_of "$delivery" "${delivery%.edi}.out"
done
for delivery in "$folder"/strict/*.edi "$folder"/strict_una/*.edi; do
    lines_of "$delivery" "${delivery%.edi}.out" --strict
done
for delivery in "$folder"/handed/*.edi; do
    lines_of "$delivery" "${delivery%.edi}.out" --characters "$(cat "${delivery%.edi}.characters")"
done
for delivery in "$folder"/strict_handed/*.edi; do
    lines_of "$delivery" "${delivery%.edi}.out" --strict --characters "$(cat "${delivery%.edi}.characters")"
done
[ $differences = 0 ]
echo "docs/VECTORS.md: all lines equal"
outside=../../shared/tools/vectors.py
if [ -f $outside ]; then
    python3 $outside $check request06
fi
nice target/release/compare --deliveries "${1:-5000}" --seed "${2:-1}"
