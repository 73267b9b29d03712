#!/bin/sh
# Counts a recording with `dcpi plain` and with an unproved counter in plain Rust, five times each in turn, compares what they
# print byte by byte, and prints the best time of each, its greatest memory where /usr/bin/time is there, and the ratios.
# usage: bench/plain.sh [RECORDING], by default examples/shell-script.trace; YARDSTICK as bench/beside.sh says
set -eu
recording=${1:-$(dirname "$0")/../examples/shell-script.trace}
recording=$(cd "$(dirname "$recording")" && pwd)/$(basename "$recording")
scratch=$(mktemp -d)
trap 'rm -rf "$scratch"' EXIT
. "$(dirname "$0")/beside.sh"
build_dcpi
build_yardstick

ours=999999999
theirs=999999999
for _ in 1 2 3 4 5; do
    run_once "$scratch/dcpi.out" "$dcpi" plain
    ours=$(smaller "$ours" "$took")
    run_once "$scratch/yardstick.out" "$yardstick" plain
    theirs=$(smaller "$theirs" "$took")
    cmp "$scratch/dcpi.out" "$scratch/yardstick.out"
done

echo "lines    $(wc -l <"$scratch/dcpi.out"), byte for byte the same"
show time "$ours" "$theirs" 1000 ms
if [ -x /usr/bin/time ]; then
    ours=$(peak_of "$dcpi" plain)
    theirs=$(peak_of "$yardstick" plain)
    show memory "$ours" "$theirs" 1024 MiB
fi
