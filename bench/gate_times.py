#!/usr/bin/env python3
"""Runs a command, as `rt ci`, and prints the processor seconds of its checks, crate by crate.

usage: bench/gate_times.py [--add FILE] COMMAND ..
Each check of the toolchain is a process that names its crate. It proves a crate, or a crate with its tests, or tries an edit (in
a scratch folder of its own). The script looks at the processes below the command twice a second and adds up what each had used
when it was seen last, so a check that lasts less than half a second may be missed. With --add the rows of FILE, of earlier runs,
are read first and written again with those of this run in place of the same crate's, so that a gate run in pieces is added up.
"""
import csv
import os
import pathlib
import subprocess
import sys
import time

KINDS = ("proof", "tests", "edits")
TICKS = os.sysconf("SC_CLK_TCK")


def children(pid):
    """The processes below this one."""
    below, todo = [], [pid]
    while todo:
        one = todo.pop()
        try:
            tasks = pathlib.Path(f"/proc/{one}/task").glob("*/children")
            found = [int(it) for task in tasks for it in task.read_text().split()]
        except OSError:
            continue
        below += found
        todo += found
    return below


def seen(pid):
    """The crate, the kind of check and the processor seconds of a process, if it is a check."""
    try:
        words = pathlib.Path(f"/proc/{pid}/cmdline").read_bytes().decode(errors="replace").split("\0")
        fields = pathlib.Path(f"/proc/{pid}/stat").read_text().rsplit(")", 1)[1].split()
        folder = os.readlink(f"/proc/{pid}/cwd")
    except OSError:
        return None
    if not words[0].endswith("/bin/rattle") or "--crate-name" not in words:
        return None
    crate = words[words.index("--crate-name") + 1]
    kind = "edits" if "/rt-edit-" in folder else "tests" if "--test" in words else "proof"
    return crate, kind, (int(fields[11]) + int(fields[12])) / TICKS


def watch(command):
    """Runs the command; the seconds by crate and kind, and its status."""
    used = {}
    child = subprocess.Popen(command)
    while child.poll() is None:
        for pid in children(child.pid):
            found = seen(pid)
            if found:
                used[pid] = found
        time.sleep(0.5)
    rows = {}
    for crate, kind, seconds in used.values():
        rows.setdefault(crate, dict.fromkeys(KINDS, 0.0))[kind] += seconds
    return rows, child.returncode


def main(words):
    kept, rows = None, {}
    if words[:1] == ["--add"]:
        kept, words = pathlib.Path(words[1]), words[2:]
        if kept.exists():
            with kept.open(newline="") as file:
                rows = {row["crate"]: {kind: float(row[kind]) for kind in KINDS} for row in csv.DictReader(file)}
    found, status = watch(words)
    for crate, row in found.items():
        old = rows.get(crate, dict.fromkeys(KINDS, 0.0))
        rows[crate] = {kind: row[kind] if row[kind] >= 1 else old[kind] for kind in KINDS}
    if kept:
        with kept.open("w", newline="") as file:
            table = csv.DictWriter(file, ["crate", *KINDS])
            table.writeheader()
            table.writerows({"crate": crate, **row} for crate, row in sorted(rows.items()))
    print(f"{'crate':<18}{'proof':>8}{'tests':>8}{'edits':>8}   processor seconds")
    for crate, row in sorted(rows.items(), key=lambda it: -sum(it[1].values())):
        print(f"{crate:<18}" + "".join(f"{row[kind]:>8.0f}" for kind in KINDS))
    total = {kind: sum(row[kind] for row in rows.values()) / 60 for kind in KINDS}
    print(f"{'minutes':<18}" + "".join(f"{total[kind]:>8.1f}" for kind in KINDS) + f"   in all {sum(total.values()):.1f}")
    return status


if __name__ == "__main__":
    sys.exit(main(sys.argv[1:]))
