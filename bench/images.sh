#!/bin/sh
# Compares what `dcpi plain` counts for each image of a recording with the counts that the recorder itself made, image for image,
# and measures `dcpi plain` against the unproved counter as bench/plain.sh does: first on the recording, and then on its samples
# alone, where no mapping is looked for, so that reading and counting are measured without the walk of the list of records.
# usage: bench/images.sh FOLDER, with FOLDER/work.trace and FOLDER/work.images, lines `COUNT IMAGE`, `[unknown]` for samples in none
# YARDSTICK is the counter, as for bench/plain.sh.
set -eu
folder=$(cd "$1" && pwd)
cd "$(dirname "$0")/.."
scratch=$(mktemp -d)
trap 'rm -rf "$scratch"' EXIT

echo "the recording"
bench/plain.sh "$folder/work.trace"

crates/dcpi/out/dcpi plain <"$folder/work.trace" >"$scratch/counts"
awk '
    $1 == "k" { counts[$3] += $6 }
    $1 == "u" { counts["[unknown]"] += $5 }
    END { for (image in counts) print counts[image], image }
' "$scratch/counts" | LC_ALL=C sort >"$scratch/ours"
LC_ALL=C sort "$folder/work.images" >"$scratch/recorded"
diff "$scratch/recorded" "$scratch/ours"
echo "images   $(wc -l <"$scratch/ours"), each with the recorder's own count"

echo "its samples alone"
awk 'NR == 1 || $1 == "s" || $1 == "end"' "$folder/work.trace" >"$scratch/samples.trace"
bench/plain.sh "$scratch/samples.trace"
