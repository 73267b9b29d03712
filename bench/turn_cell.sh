#!/usr/bin/env bash
# Times the passing of parcels between two threads by a turn cell, and by std's bounded channels in plain Rust, and prints both times and their ratio.
# usage: bench/turn_cell.sh [PARCELS], by default 1000000
set -euo pipefail
cd "$(dirname "$0")/.."
parcels=${1:-1000000}
scratch=$(mktemp -d)
trap 'rm -rf "$scratch"' EXIT

(cd crates/turn_cell_bench && rt run -- 1 >"$scratch/build.log" 2>&1) || { cat "$scratch/build.log"; exit 1; }
rustc -O --edition 2021 -o "$scratch/plain_channel" bench/plain_channel.rs

# prints the milliseconds that a program takes, once it answered what it must
milliseconds() {
    local before after answer
    before=$(date +%s%N)
    answer=$("$1" "$parcels")
    after=$(date +%s%N)
    if [ "$answer" != "handed $parcels taken $parcels" ]; then
        echo "$1 answered: $answer" >&2
        exit 1
    fi
    echo $(((after - before) / 1000000))
}

cell=$(milliseconds crates/turn_cell_bench/out/turn_cell_bench)
channel=$(milliseconds "$scratch/plain_channel")
echo "parcels      $parcels"
echo "turn cell    $cell ms"
echo "sync_channel $channel ms"
awk -v cell="$cell" -v channel="$channel" 'BEGIN { printf "ratio        %.2f (turn cell / sync_channel)\n", cell / (channel > 0 ? channel : 1) }'
