#!/bin/sh
# Lists a database of 2,000 profiles with 1,000,000 rows by image with `dcpi prof`, beside the same sums in plain Rust: seven times
# each in turn, compared byte by byte.
# usage: bench/listing.sh [PROFILES [ROWS]]
set -eu
scratch=$(mktemp -d)
trap 'rm -rf "$scratch"' EXIT
. "$(dirname "$0")/beside.sh"
build_dcpi
rustc --edition 2021 -O -o "$scratch/plain_listing" "$(dirname "$0")/plain_listing.rs"
mkdir "$scratch/db"
"$(dirname "$0")/profiles.py" "$scratch/db" "$@"

recording=/dev/null
ours=999999999
theirs=999999999
for _ in 1 2 3 4 5 6 7; do
    run_once "$scratch/dcpi.out" "$dcpi" prof "$scratch/db" image all cycles text
    ours=$(smaller "$ours" "$took")
    run_once "$scratch/plain.out" "$scratch/plain_listing" "$scratch/db" 0 cycles
    theirs=$(smaller "$theirs" "$took")
    cmp "$scratch/dcpi.out" "$scratch/plain.out"
done
echo "lines    $(wc -l <"$scratch/dcpi.out"), byte for byte the same"
show time "$ours" "$theirs" 1000 ms
if [ -x /usr/bin/time ]; then
    ours=$(peak_of "$dcpi" prof "$scratch/db" image all cycles text)
    theirs=$(peak_of "$scratch/plain_listing" "$scratch/db" 0 cycles)
    show memory "$ours" "$theirs" 1024 MiB
fi
