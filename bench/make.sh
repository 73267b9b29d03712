#!/bin/sh
# Makes and replays the trace of the generator with `dcpi make` for 1,000, 100,000 and 2,000,000 samples, and prints for each how
# many samples a second that was: the cost is linear where these figures do not fall. The largest is made twice and compared.
# usage: bench/make.sh [SEED]; the least time of three rounds counts
set -eu
seed=${1:-7}
scratch=$(mktemp -d)
trap 'rm -rf "$scratch"' EXIT
. "$(dirname "$0")/beside.sh"
build_dcpi

recording=/dev/null
for samples in 1000 100000 2000000; do
    least=999999999
    for round in 1 2 3; do
        run_once "$scratch/summary.$round" "$dcpi" make "$seed" "$samples"
        least=$(smaller "$least" "$took")
        cmp "$scratch/summary.1" "$scratch/summary.$round"
    done
    tail -n 1 "$scratch/summary.1" | grep "^total taken $samples .* lost 0$"
    awk -v samples="$samples" -v took="$least" 'BEGIN {
        printf "%d samples in %.1f ms, %.2f million samples a second\n", samples, took / 1000, samples / took
    }'
done
