#!/usr/bin/env python3
"""Writes a database of so many profiles and rows into an empty folder, for bench/listing.sh.

usage: bench/profiles.py FOLDER [PROFILES [ROWS]], by default 2,000 profiles with 1,000,000 rows in all
Each profile is of an image of its own and of the event cycles, the counts small and the offsets rising; there is one run of one
processor.
"""
import pathlib
import sys


def number(value):
    """A number in groups of seven bits, the lowest first; each but the last has its top bit set."""
    out = bytearray()
    while value > 127:
        out.append(value % 128 + 128)
        value //= 128
    out.append(value)
    return bytes(out)


def profile(seed, rows):
    """A profile file: the format, the number of rows, and for each the distance to the row before it and its count."""
    out = bytearray(number(1) + number(rows))
    for row in range(rows):
        out += number((seed + row * 7) % 5 + 1) + number((seed * 31 + row * 17) % 300 + 1)
    return bytes(out)


def main():
    folder = pathlib.Path(sys.argv[1])
    profiles = int(sys.argv[2]) if len(sys.argv) > 2 else 2000
    rows = int(sys.argv[3]) if len(sys.argv) > 3 else 1000000
    lines = ["dcpi-head 1", "generation 1", "epoch 0", "runs 1", f"images {profiles}"]
    lines += [f"/usr/lib/image-{image * 7919 % profiles:04d}.so" for image in range(profiles)]
    lines.append(f"profiles {profiles}")
    for at in range(profiles):
        lines.append(f"0 {at} 0 1")
        (folder / f"p.0.{at}.0.1").write_bytes(profile(at, rows // profiles))
    lines.append("unknowns 0")
    (folder / "head.1").write_text("\n".join(lines) + "\n")
    (folder / "r.1").write_bytes(bytes([1, 1, 0, 1, 0, 0, 1, 0]))
    (folder / "seal.1").write_bytes(b"")


main()
