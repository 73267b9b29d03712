#!/usr/bin/env python3
"""Writes a trace of one processor with many mappings to standard output, the same for the same numbers.

usage: bench/mappings.py [SAMPLES [MAPPINGS [PROCESSES]]], by default 500000 samples, 60000 mappings, 600 processes

Each process maps its program and its libraries one after the other, at addresses that rise and leave gaps; one mapping in
ten comes once more over an older one and cuts it, and one in twenty is unmapped. Samples lie at some 20,000 places of the
mappings that stand, few of them hot, and one in forty lies in none.
"""
import random
import sys

PAGE = 0x1000
KERNEL = 0xFFFFFFFF81000000


def mappings(numbers, count, processes):
    """Yields lines of mappings, each with the (process, address) pairs at which samples may lie from then on."""
    next_base = {process: 0x400000 for process in range(1, processes + 1)}
    standing = []
    for number in range(count):
        process = 1 + number % processes
        image = numbers.randrange(400)
        pages = 1 + numbers.randrange(64)
        kind = numbers.randrange(20)
        if kind == 0 and standing:
            process, base, length = standing[numbers.randrange(len(standing))]
            yield f"unload {process} {base:x} {length:x}", None
            continue
        if kind <= 2 and standing:
            process, base, length = standing[numbers.randrange(len(standing))]
            base += PAGE * numbers.randrange(1 + length // PAGE)
        else:
            base = next_base[process]
        length = PAGE * pages
        next_base[process] = max(next_base[process], base + length + PAGE * numbers.randrange(4))
        standing.append((process, base, length))
        yield f"load {process} {base:x} {length:x} /usr/lib/program-{image}.so", (process, base, length)


def main():
    samples, count, processes = (int(word) for word in (sys.argv[1:] + ["500000", "60000", "600"][len(sys.argv) - 1:]))
    numbers = random.Random(1997)
    out = ["dcpi-trace 1 cpus 1", f"kernel {KERNEL:x} 1000000 vmlinux"]
    per_mapping, rest = divmod(samples, max(count, 1))
    spots = [(1, KERNEL)]
    for index, (line, spot) in enumerate(mappings(numbers, count, processes)):
        out.append(line)
        if spot is not None and index % 3 == 0:
            process, base, length = spot
            spots.append((process, base + 4 * numbers.randrange(length // 4)))
        for _ in range(per_mapping + (1 if index < rest else 0)):
            if numbers.randrange(40) == 0:
                process, address = 1 + numbers.randrange(processes), 4 * numbers.randrange(1024)
            else:
                process, address = spots[int(len(spots) * numbers.random() ** 2)]
            out.append(f"s 0 {process} {address:x} {'imiss' if address % 16 == 0 else 'cycles'}")
    out.append("end")
    sys.stdout.write("\n".join(out) + "\n")


if __name__ == "__main__":
    main()
