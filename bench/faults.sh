#!/bin/sh
# Uses the built program in a hostile way, over folders: each call on files and each request for memory is refused in turn, bytes of a
# trace and of the files of a database are changed, and the folder is none, is closed, is full or goes away. It prints for each part how
# many cases there were and which statuses came; the status is 1 where a case went wrong.
# usage: [EVERY=N] bench/faults.sh [files|memory|bytes|folders]..     (of the changed bytes every N-th is tried, by default each)
set -eu
scratch=$(mktemp -d)
trap 'rm -rf "$scratch"' EXIT
here=$(cd "$(dirname "$0")" && pwd)
. "$here/beside.sh"
build_dcpi
"${CC:-cc}" -O1 -shared -fPIC -o "$scratch/refuse.so" "$here/refuse_call.c" -ldl
python3 -B "$here/faults.py" "$dcpi" "$scratch/refuse.so" "$@"
