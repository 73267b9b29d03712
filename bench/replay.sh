#!/bin/sh
# Replays a recording into a new folder with `dcpi replay` and with an unproved replay in plain Rust, five times each in turn, and
# prints the best time of each, its greatest memory where /usr/bin/time is there, and the ratios; and the memory of dcpi beside
# the samples' own bytes, of which a sample has 32 when a processor's stream holds it.
# usage: bench/replay.sh [RECORDING [COPIES]], by default examples/shell-script.trace, once
# With COPIES the samples of the recording are repeated so many times, each processor's in their order, up to 2,000,000 of them.
# YARDSTICK as bench/beside.sh says.
set -eu
recording=${1:-$(dirname "$0")/../examples/shell-script.trace}
recording=$(cd "$(dirname "$recording")" && pwd)/$(basename "$recording")
copies=${2:-1}
scratch=$(mktemp -d)
trap 'rm -rf "$scratch"' EXIT
. "$(dirname "$0")/beside.sh"
build_dcpi
build_yardstick

if [ "$copies" -gt 1 ]; then repeat_samples "$copies"; fi
samples=$(awk '$1 == "s" { n++ } END { print n + 0 }' "$recording")

ours=999999999
theirs=999999999
for _ in 1 2 3 4 5; do
    rm -rf "$scratch/db" "$scratch/profiles"
    mkdir "$scratch/db" "$scratch/profiles"
    run_once "$scratch/dcpi.out" "$dcpi" replay "$scratch/db"
    ours=$(smaller "$ours" "$took")
    run_once "$scratch/yardstick.out" "$yardstick" replay "$scratch/profiles"
    theirs=$(smaller "$theirs" "$took")
done

echo "samples  $samples; $(tail -n 1 "$scratch/dcpi.out")"
show time "$ours" "$theirs" 1000 ms
if [ -x /usr/bin/time ]; then
    rm -rf "$scratch/db" "$scratch/profiles"
    mkdir "$scratch/db" "$scratch/profiles"
    ours=$(peak_of "$dcpi" replay "$scratch/db")
    theirs=$(peak_of "$yardstick" replay "$scratch/profiles")
    show memory "$ours" "$theirs" 1024 MiB
    awk -v peak="$ours" -v samples="$samples" 'BEGIN {
        own = samples * 32 / 1024
        printf "samples  dcpi %.2f MiB, their own bytes %.2f MiB, ratio %.2f\n", peak / 1024, own / 1024, peak / (own > 0 ? own : 1)
    }'
fi
