"""The traces that the scripts of hostile use give the program, and the databases that each may leave."""

REPLAY = ("replay",)
FREE = ("run", "--pace", "free")
EXACT = ("run", "--pace", "exact")

FLUSH = b"""dcpi-trace 1 cpus 1
s 0 7 1000 cycles
s 0 7 1004 cycles
s 0 7 1008 cycles
drain
end
l 0
a
l 0
l 0
l 0
"""

EPOCHS = b"""dcpi-trace 1 cpus 1
load 7 10000 1000 A
s 0 7 10000 cycles
epoch
s 0 7 10000 cycles
end
"""

PAIR = b"""dcpi-trace 1 cpus 2
s 0 7 1000 cycles
s 1 7 1004 cycles
end
"""


def samples(count, line):
    """A sample so many times."""
    return (line + "\n") * count


WORK = (
    """dcpi-trace 1 cpus 4
kernel fffffc0000230000 400000 /vmunix
scan 101 120000000 40000 /usr/bin/X
scan 101 3ff80000000 100000 /usr/shlib/libc.so
load 205 120000000 10000 /usr/bin/sh
load 205 3ff80000000 100000 /usr/shlib/libc.so
exec 309 120000000 20000 /usr/bin/cc
"""
    + samples(10, "s 0 101 120001000 cycles")
    + samples(6, "s 1 101 3ff80000400 cycles")
    + samples(6, "s 2 205 3ff80000400 cycles")
    + samples(5, "s 3 309 120000100 cycles")
    + samples(5, "s 0 309 fffffc0000231000 cycles")
    + samples(3, "s 1 205 120000040 cycles")
    + samples(3, "s 2 101 120002000 cycles")
    + "s 3 400 120000000 cycles\ns 3 309 120000100 dmiss\nend\n"
).encode()

SYMBOLS = b"""/usr/bin/X 1000 100 dispatch
/usr/bin/cc 0 200 parse
/vmunix 1000 100 idle
"""

TRACES = {"flush": FLUSH, "epochs": EPOCHS, "work": WORK, "pair": PAIR}

EMPTY = (b"", b"")

# what `cat` and `runs` print after each commit of a replay
COMMITTED = {
    "flush": [
        (
            b"u 0 cycles 1000 1\nu 0 cycles 1004 1\nu 0 cycles 1008 1\n",
            b"run 1 parts 1 whole\nc 0 cycles taken 3 known 0 unknown 3 lost 0\n",
        ),
    ],
    "epochs": [
        (
            b"k 0 A cycles 0 1\n",
            b"run 1 parts 1 cut\nc 0 cycles taken 1 known 1 unknown 0 lost 0\n",
        ),
        (
            b"k 0 A cycles 0 1\nk 1 A cycles 0 1\n",
            b"run 1 parts 2 whole\nc 0 cycles taken 2 known 2 unknown 0 lost 0\n",
        ),
    ],
    "work": [
        (
            b"""k 0 /usr/bin/X cycles 1000 10
k 0 /usr/bin/X cycles 2000 3
k 0 /usr/bin/cc cycles 100 5
k 0 /usr/bin/cc dmiss 100 1
k 0 /usr/bin/sh cycles 40 3
k 0 /usr/shlib/libc.so cycles 400 12
k 0 /vmunix cycles 1000 5
u 0 cycles 120000000 1
""",
            b"""run 1 parts 1 whole
c 0 cycles taken 15 known 15 unknown 0 lost 0
c 1 cycles taken 9 known 9 unknown 0 lost 0
c 2 cycles taken 9 known 9 unknown 0 lost 0
c 3 cycles taken 6 known 5 unknown 1 lost 0
c 3 dmiss taken 1 known 1 unknown 0 lost 0
""",
        ),
    ],
    "pair": [
        (
            b"u 0 cycles 1000 1\nu 0 cycles 1004 1\n",
            b"run 1 parts 1 whole\n"
            b"c 0 cycles taken 1 known 0 unknown 1 lost 0\n"
            b"c 1 cycles taken 1 known 0 unknown 1 lost 0\n",
        ),
    ],
}


def split_between_epochs(counts):
    """What `cat` and `runs` print where the two epochs have these counts, or the first alone has."""
    lines = (f"k {epoch} A cycles 0 {count}\n" for epoch, count in enumerate(counts) if count)
    taken = sum(counts)
    tally = f"c 0 cycles taken {taken} known {taken} unknown 0 lost 0\n" if taken else ""
    run = f"run 1 parts {len(counts)} {'whole' if len(counts) == 2 else 'cut'}\n"
    return "".join(lines).encode(), (run + tally).encode()


def states_of(name, way):
    """The databases that a trace run in this way may leave: a list for each number of commits, from none.

    The tables and buffers of these traces never fill, so no sample is lost. Where nothing but a commit lies between two
    samples, a free run may drain each of them before it or behind it.
    """
    if name == "epochs" and way == FREE:
        first = [split_between_epochs([count]) for count in range(3)]
        both = [split_between_epochs([count, 2 - count]) for count in range(3)]
        return [[EMPTY], first, both]
    return [[EMPTY], *([state] for state in COMMITTED[name])]


def words_of(way, folder):
    """The words of a run in this way into a folder."""
    command, *options = way
    return [command, folder, *options]


def readers(folder):
    """The commands that only read, with their inputs."""
    return [
        (["cat", folder], b""),
        (["runs", folder], b""),
        (["prof", folder, "image", "all", "cycles", "csv"], b""),
        (["prof", folder, "procedure", "all", "cycles", "text"], SYMBOLS),
        (["plain"], WORK),
    ]
