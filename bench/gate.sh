#!/bin/sh
# Runs the whole gate from nothing in a fresh clone, and prints its processor seconds for proofs, tests and must-fail edits,
# crate by crate, and the minutes in all. It takes about an hour on four processors, longer beside other work.
# usage: bench/gate.sh
set -eu
top=$(cd "$(dirname "$0")/.." && pwd)
folder=$(mktemp -d)
trap 'rm -rf "$folder"' EXIT
git clone --quiet "$top" "$folder/clone"
cd "$folder/clone"
python3 "$top/bench/gate_times.py" rt ci --anew
