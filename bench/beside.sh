# What the scripts that measure `dcpi` beside the unproved yardstick share. Sourced with `scratch` as a folder of its own.
# YARDSTICK is the yardstick: a program, or the folder of a Cargo package `yardstick`, by default ../shared/yardstick.

# builds dcpi, and leaves it in `dcpi`
build_dcpi() {
    root=$(cd "$(dirname "$0")/.." && pwd)
    if ! (cd "$root/crates/dcpi" && rt run >"$scratch/dcpi.out" 2>"$scratch/build.log") && ! [ -x "$root/crates/dcpi/out/dcpi" ]; then
        cat "$scratch/build.log" >&2
        exit 1
    fi
    dcpi=$root/crates/dcpi/out/dcpi
}

# builds the yardstick where it is a package, and leaves it in `yardstick`
build_yardstick() {
    yardstick=${YARDSTICK:-$(dirname "$0")/../../shared/yardstick}
    yardstick=$(cd "$(dirname "$yardstick")" && pwd)/$(basename "$yardstick")
    if [ -d "$yardstick" ]; then
        cp -R "$yardstick" "$scratch/package"
        chmod -R u+w "$scratch/package"
        cargo build --quiet --release --manifest-path "$scratch/package/Cargo.toml" --target-dir "$scratch/target"
        yardstick=$scratch/target/release/yardstick
    fi
}

# repeats the samples of $recording $1 times, each processor's in their order, up to 2,000,000 of them; $recording is then the longer one
repeat_samples() {
    awk -v copies="$1" -v most=2000000 '
        $1 == "s" { for (i = 0; i < copies && taken < most; i++) { print; taken++ } next }
        { print }
    ' "$recording" >"$scratch/repeated.trace"
    recording=$scratch/repeated.trace
}

# prints the smaller of two numbers
smaller() {
    if [ "$1" -lt "$2" ]; then echo "$1"; else echo "$2"; fi
}

# runs the words after $1 once on $recording, the output into the file $1, and leaves in `took` the microseconds that it took
run_once() {
    output=$1
    shift
    before=$(date +%s%N)
    "$@" <"$recording" >"$output"
    after=$(date +%s%N)
    took=$(((after - before) / 1000))
}

# prints the greatest memory of a run of these words on $recording, in KiB
peak_of() {
    /usr/bin/time -f %M -o "$scratch/peak" "$@" <"$recording" >/dev/null
    cat "$scratch/peak"
}

# prints a line: its name $1, the figures $2 of dcpi and $3 of the yardstick, each divided by $4, in the unit $5
show() {
    awk -v name="$1" -v ours="$2" -v theirs="$3" -v parts="$4" -v unit="$5" 'BEGIN {
        form = "%-8s dcpi %.2f %s, yardstick %.2f %s, ratio %.2f\n"
        printf form, name, ours / parts, unit, theirs / parts, unit, ours / (theirs > 0 ? theirs : 1)
    }'
}
