#!/bin/sh
# Takes the same samples on one lane of the proved driver and on one of plain Rust with marks and losses, compares how both
# counted them, and prints both times, their ratio and the load of the machine, for 200,000, 500,000 and 2,000,000 samples.
# usage: bench/driver.sh [ROUNDS [SAMPLES..]]; the least time of the rounds counts; it ends with 1 where a ratio is above 1.5
set -eu
rounds=${1:-25}
[ $# -gt 0 ] && shift
[ $# -gt 0 ] || set -- 200000 500000 2000000
top=$(cd "$(dirname "$0")/.." && pwd)
folder=$(mktemp -d)
trap 'rm -rf "$folder"' EXIT
(cd "$top/crates/driver_bench" && rt run -- 1000 >"$folder/build.out" 2>"$folder/build.err") || { cat "$folder/build.err" >&2; exit 1; }
rustc -O --edition 2021 -o "$folder/plain" "$top/bench/plain_driver.rs"
status=0
for samples; do
    # three turns each, so that a busy moment falls on both
    for turn in 1 2 3; do
        "$top/crates/driver_bench/out/driver_bench" "$samples" "$rounds" >"$folder/proved.$turn"
        "$folder/plain" "$samples" "$rounds" >"$folder/plain.$turn"
    done
    [ "$(head -n 1 "$folder/proved.1")" = "$(head -n 1 "$folder/plain.1")" ] || { echo "the two programs disagree at $samples samples" >&2; exit 1; }
    head -n 1 "$folder/proved.1"
    proved=$(awk '/^least/ { print $2 }' "$folder"/proved.? | sort -n | head -n 1)
    plain=$(awk '/^least/ { print $2 }' "$folder"/plain.? | sort -n | head -n 1)
    awk -v samples="$samples" -v proved="$proved" -v plain="$plain" -v load="$(uptime | sed 's/.*average: *//')" 'BEGIN {
        printf "proved %d us, %.1f million samples a second\n", proved, samples / proved
        printf "plain %d us, %.1f million samples a second\n", plain, samples / plain
        printf "ratio %.2f, load %s\n", proved / plain, load
        exit proved > 1.5 * plain
    }' || status=1
done
exit $status
