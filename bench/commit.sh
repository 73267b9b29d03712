#!/bin/sh
# Commits one profile into a database of many images and rows in memory, and one into an empty database, and prints both
# times, that of opening the large one, and that of reading a head of as many images and no rows alone.
# usage: bench/commit.sh [IMAGES [ROWS [ROUNDS]]]; the least time of the rounds counts
set -eu
images=${1:-4096}
rows=${2:-60000}
rounds=${3:-15}
top=$(cd "$(dirname "$0")/.." && pwd)
folder=$(mktemp -d)
trap 'rm -rf "$folder"' EXIT
(cd "$top/crates/commit_bench" && rt run -- 64 200 >"$folder/build.out" 2>"$folder/build.err") || { cat "$folder/build.err" >&2; exit 1; }
"$top/crates/commit_bench/out/commit_bench" "$images" "$rows" "$rounds" >"$folder/times.txt"
awk '
    NR == 1 { print }
    /^opening/ {
        printf "opening: %d us\n", $2
        printf "head of the images alone: %d us\n", $4
        printf "commit of one profile: %d us, into an empty database %d us\n", $6, $8
    }' "$folder/times.txt"
