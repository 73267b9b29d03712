#!/bin/sh
# Writes and reads a profile, by the proved crate and by plain Rust, and prints both times and their ratio.
# usage: bench/profile.sh [ROWS [ROUNDS]]; the least time of the rounds counts
set -eu
rows=${1:-1000000}
rounds=${2:-15}
top=$(cd "$(dirname "$0")/.." && pwd)
folder=$(mktemp -d)
trap 'rm -rf "$folder"' EXIT
(cd "$top/crates/profile_bench" && rt run -- 1000 >"$folder/build.out" 2>"$folder/build.err") || { cat "$folder/build.err" >&2; exit 1; }
rustc -O -o "$folder/plain" "$top/bench/plain_profile.rs"
"$top/crates/profile_bench/out/profile_bench" "$rows" "$rounds" >"$folder/proved.txt"
"$folder/plain" "$rows" "$rounds" >"$folder/plain.txt"
[ "$(head -n 1 "$folder/proved.txt")" = "$(head -n 1 "$folder/plain.txt")" ] || { echo "the two programs disagree" >&2; exit 1; }
head -n 1 "$folder/proved.txt"
cat "$folder/proved.txt" "$folder/plain.txt" | awk '
    /^write/ { write[++n] = $2; read[n] = $4 }
    END {
        printf "write: proved %d us, plain %d us, ratio %.2f\n", write[1], write[2], write[1] / write[2]
        printf "read: proved %d us, plain %d us, ratio %.2f\n", read[1], read[2], read[1] / read[2]
        exit !(write[1] <= 2 * write[2] && read[1] <= 2 * read[2])
    }'
