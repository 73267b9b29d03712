"""Tests of perf-to-trace: stored recordings, each kind of event, each limit, damaged inputs."""

import collections
import io
import random
import tempfile
import unittest

from tools_under_test import EXAMPLES, TOOLS, body, module, places, run

TEXT = 0xFFFFFFFF81000000
KERNEL = b"PERF_RECORD_MMAP -1/0: [0x%x(0x1277288) @ 0x%x]: x [kernel.kallsyms]_text" % (TEXT, TEXT)


def line(rest, pid=7, tid=None, cpu=0, time="1.000000", comm=b"app"):
    """A line as perf script prints it."""
    tid = pid if tid is None else tid
    return b"%16s %5d/%-5d [%03d] %12s: %s\n" % (comm, pid, tid, cpu, time.encode(), rest)


def sample(address, image=b"/bin/app", event=b"cpu-clock", **where):
    """A line of a sample."""
    return line(b"%s: %16x (%s)" % (event, address, image), **where)


def mapped(start, length, offset=0, name=b"/bin/app", pid=7, permission=b"r-xp", **where):
    """A line of a mapping."""
    rest = b"PERF_RECORD_MMAP2 %d/%d: [%#x(%#x) @ %#x fe:00 247101 0]: %s %s"
    return line(rest % (pid, pid, start, length, offset, permission, name), pid=pid, **where)


def forked(pid, tid, parent, **where):
    """A line of a new thread or process."""
    rest = b"PERF_RECORD_FORK(%d:%d):(%d:%d)" % (pid, tid, parent, parent)
    return line(rest, pid=parent, **where)


def ended(pid, tid):
    """A line of the end of a thread."""
    return line(b"PERF_RECORD_EXIT(%d:%d):(1:1)" % (pid, tid), pid=pid, tid=tid)


def executed(pid=7):
    """A line of an exec."""
    return line(b"PERF_RECORD_COMM exec: app:%d/%d" % (pid, pid), pid=pid)


def converted(*lines, words=()):
    """The body of the trace of these lines, as text, with status and notes."""
    status, out, err = run("perf-to-trace", *words, given=b"".join(lines))
    body(out)
    return status, out.decode().split("\n")[1:-2], err


class Recordings(unittest.TestCase):
    """Recordings of real programs, beside the counts that perf itself gives."""

    def check(self, script, images, names):
        status, out, err = run("perf-to-trace", given=script.read_bytes())
        self.assertEqual((status, "left out" in err), (0, False), err)
        counted = collections.Counter(at[0] if at else b"[unknown]" for at in places(out))
        wanted = collections.Counter()
        for row in images.read_bytes().splitlines():
            count, name = row.split(b" ", 1)
            wanted[names.get(name, name)] += int(count)
        self.assertEqual(counted, wanted)
        return out

    def test_a_shell_script(self):
        """Counts by image are those of perf; the stored trace is what the tool gives today."""
        out = self.check(EXAMPLES / "words.script", EXAMPLES / "words.images", {})
        self.assertEqual(out, (EXAMPLES / "words.trace").read_bytes())

    def test_code_without_a_file_and_a_deleted_file(self):
        """Code in anonymous memory, a file with a space in its name, deleted, threads, a fork."""
        here = TOOLS / "tests"
        names = {
            b"/tmp/perf-20155.map": b"//anon",
            b"/tmp/big file": b"/tmp/big%20file",
            b"/tmp/big file (deleted)": b"/tmp/big%20file%20(deleted)",
        }
        out = self.check(here / "spin.script", here / "spin.images", names)
        # The loop stands at byte 5 of each page: of the file's page 0x20, of its page 1, of memory.
        found = {at for at in places(out)}
        self.assertEqual({offset for _, offset in found}, {0x4, 0x20004, 0x1004})

    def test_images(self):
        """--images writes perf's own counts."""
        with tempfile.NamedTemporaryFile() as file:
            given = (TOOLS / "tests" / "spin.script").read_bytes()
            run("perf-to-trace", "--images", file.name, given=given)
            wanted = b"18 /tmp/perf-20155.map\n17 /tmp/big%20file\n5 /tmp/big%20file%20(deleted)\n"
            self.assertEqual(file.read(), wanted)


class Events(unittest.TestCase):
    """Each kind of line, and the record that it becomes."""

    TABLE = [
        ("a sample, rounded down", [sample(0x1003)], ["s 0 7 1000 cycles"]),
        ("the process, not the thread", [sample(0x1000, tid=9, cpu=3)], ["s 3 7 1000 cycles"]),
        ("a process that is gone", [sample(TEXT, pid=-1)], [f"s 0 4294967295 {TEXT:x} cycles"]),
        ("the greatest address", [sample(2**64 - 1)], ["s 0 7 fffffffffffffffc cycles"]),
        ("the kernel", [line(KERNEL, pid=0)], [f"kernel {TEXT:x} 1277288 [kernel.kallsyms]"]),
        (
            "a module",
            [line(b"PERF_RECORD_MMAP -1/0: [0xffffffffc0000000(0x5000) @ 0]: x /lib/a-b.ko.xz")],
            ["kernel ffffffffc0000000 5000 [a_b]"],
        ),
        (
            "a mapping before the recording",
            [mapped(0x5000, 0x1000, time="0.000000"), mapped(0x7000, 0x1000)],
            ["scan 7 5000 1000 /bin/app", "load 7 7000 1000 /bin/app"],
        ),
        (
            "time 0 behind a sample is no scan",
            [sample(0x1000), mapped(0x5000, 0x1000, time="0.000000")],
            ["s 0 7 1000 cycles", "load 7 5000 1000 /bin/app"],
        ),
        (
            "a build id in place of the inode",
            [line(b"PERF_RECORD_MMAP2 7/7: [0x5000(0x1000) @ 0 <0a1b>]: r-xp /bin/app")],
            ["load 7 5000 1000 /bin/app"],
        ),
        ("the offset", [mapped(0x5000, 0x1000, 0x2000)], ["load 7 3000 3000 /bin/app"]),
        ("no file", [mapped(0x5000, 0x1000, 0x5000, b"//anon")], ["load 7 5000 1000 //anon"]),
        ("offset above", [mapped(0x5000, 0x1000, 0x6000)], ["load 7 5000 1000 /bin/app"]),
        ("odd numbers", [mapped(0x5001, 0x1002)], ["load 7 5000 1004 /bin/app"]),
        ("data", [mapped(0x5000, 0x1000, permission=b"rw-p")], []),
        (
            "exec: the first mapping",
            [executed(), mapped(0x5000, 0x1000), mapped(0x7000, 0x1000)],
            ["exec 7 5000 1000 /bin/app", "load 7 7000 1000 /bin/app"],
        ),
        (
            "exec: a sample before the first mapping, where the old image was",
            [mapped(0x5000, 0x1000), executed(), sample(0x5000), mapped(0x7000, 0x1000)],
            [
                "load 7 5000 1000 /bin/app",
                "exit 7",
                "s 0 7 5000 cycles",
                "load 7 7000 1000 /bin/app",
            ],
        ),
        ("a name is no exec", [line(b"PERF_RECORD_COMM: a b:7/7"), mapped(0x0, 0x4)],
         ["load 7 0 4 /bin/app"]),
        ("the end", [mapped(0x5000, 0x1000), ended(7, 7)], ["load 7 5000 1000 /bin/app", "exit 7"]),
        ("an end with no mapping", [ended(7, 7)], []),
        (
            "the end of the last thread",
            [
                line(b"PERF_RECORD_COMM: app:7/7"), forked(7, 8, 7), mapped(0x5000, 0x1000),
                ended(7, 7), sample(0x5000, tid=8), ended(7, 8),
            ],
            ["load 7 5000 1000 /bin/app", "s 0 7 5000 cycles", "exit 7"],
        ),
        (
            "an exec leaves one thread",
            [forked(7, 7, 1), forked(7, 8, 7), executed(), mapped(0x5000, 4), ended(7, 7)],
            ["exec 7 5000 4 /bin/app", "exit 7"],
        ),
        (
            "a child between an exec and the first mapping has none",
            [mapped(0x5000, 4), executed(), forked(8, 8, 7), sample(0x5000, pid=8)],
            ["load 7 5000 4 /bin/app", "s 0 8 5000 cycles"],
        ),
        (
            "a child is told at its first sample in a mapping",
            [
                mapped(0x5000, 0x1000), mapped(0x7000, 0x1000, name=b"/lib/c"), forked(8, 8, 7),
                sample(TEXT, pid=8), sample(0x5000, pid=8),
            ],
            [
                "load 7 5000 1000 /bin/app", "load 7 7000 1000 /lib/c", f"s 0 8 {TEXT:x} cycles",
                "load 8 7000 1000 /lib/c", "load 8 5000 1000 /bin/app", "s 0 8 5000 cycles",
            ],
        ),
        (
            "a child that goes straight to an exec",
            [
                mapped(0x5000, 0x1000), forked(8, 8, 7), executed(8),
                mapped(0x9000, 0x1000, pid=8),
            ],
            ["load 7 5000 1000 /bin/app", "exec 8 9000 1000 /bin/app"],
        ),
        (
            "before the recording a fork gives nothing",
            [
                mapped(0x5000, 0x1000, time="0.000000"), forked(8, 8, 7, time="0.000000"),
                sample(0x5000, pid=8),
            ],
            ["scan 7 5000 1000 /bin/app", "s 0 8 5000 cycles"],
        ),
        (
            "a number that is used again",
            [mapped(0x5000, 0x1000), forked(7, 7, 1)],
            ["load 7 5000 1000 /bin/app", "exit 7"],
        ),
        (
            "a mapping that another's file hides is told again",
            [mapped(0x5000, 0x1000, name=b"/lib/a"), mapped(0x7000, 0x1000, 0x3000, b"/lib/b")],
            ["load 7 5000 1000 /lib/a", "load 7 4000 4000 /lib/b", "load 7 5000 1000 /lib/a"],
        ),
        (
            "names",
            [
                mapped(0x5000, 4, name=b"/tmp/x y%.so (deleted)"),
                mapped(0x6000, 4, name=b"\xc3\xa4"),
            ],
            ["load 7 5000 4 /tmp/x%20y%25.so%20(deleted)", "load 7 6000 4 %c3%a4"],
        ),
        (
            "a command with spaces, a slash, and what looks like a line",
            [sample(0x1000, comm=b"a 1/1 [0] 1.0: "), sample(0x1004, comm=b"kworker/0:0H-ev")],
            ["s 0 7 1000 cycles", "s 0 7 1004 cycles"],
        ),
        ("a sample in no mapping", [sample(0x1000, image=b"[unknown]")], ["s 0 7 1000 cycles"]),
        ("comments", [b"# captured on: today\n", sample(0x1000)], ["s 0 7 1000 cycles"]),
    ]

    def test_table(self):
        for name, lines, wanted in self.TABLE:
            with self.subTest(name):
                status, found, err = converted(*lines)
                self.assertEqual((status, found), (0, wanted), err)

    def test_processors(self):
        """The header has the processors that were sampled."""
        for cpu, wanted in [(0, b"1"), (3, b"4"), (15, b"16")]:
            _, out, _ = run("perf-to-trace", given=sample(0x1000, cpu=cpu))
            self.assertEqual(out.split(b"\n")[0], b"dcpi-trace 1 cpus " + wanted)

    def test_event_map(self):
        """Four events, by their names with modifiers."""
        words = []
        lines = []
        names = ["cycles", "imiss", "dmiss", "branchmp"]
        for event, name in zip(["a:u", "b", "c=d", "cpu/e/"], names):
            words += ["--event", f"{event}={name}"]
            lines.append(sample(0x1000, event=event.encode()))
        status, found, _ = converted(*lines, words=words)
        wanted = [f"s 0 7 1000 {name}" for name in names]
        self.assertEqual((status, found), (0, wanted))


    def test_modifiers(self):
        """A name without modifiers stands for one spelling with them, whichever comes first."""
        lines = [sample(4 * at, event=name) for at, name in enumerate(
            [b"cpu-clock:u", b"cpu-clock:u", b"cpu-clock", b"cpu-clock:k", b"cpu-clocks"])]
        status, found, err = converted(*lines)
        self.assertEqual((status, found), (3, ["s 0 7 0 cycles", "s 0 7 4 cycles"]))
        self.assertIn("left out: 1 samples of event cpu-clock (", err)
        status, found, _ = converted(*lines, words=["--event", "cpu-clock:k=imiss"])
        self.assertEqual((status, found), (3, ["s 0 7 c imiss"]))


class LeftOut(unittest.TestCase):
    """What a trace can't hold is counted."""

    def check(self, lines, wanted, *notes, words=()):
        status, found, err = converted(*lines, words=words)
        self.assertEqual((status, found), (3, wanted), err)
        for note in notes:
            self.assertIn("left out: " + note + "\n", err)

    def test_processors_above_15(self):
        self.check(
            [sample(0x1000, cpu=16), sample(0x1004, cpu=15), sample(0x1008, cpu=99)],
            ["s 15 7 1004 cycles"],
            "2 samples of processors above 15",
        )

    def test_events(self):
        self.check(
            [sample(0x1000, event=b"faults"), sample(0x1000)],
            ["s 0 7 1000 cycles"],
            "1 samples of event faults (--event faults=cycles takes them)",
        )

    def test_long_names(self):
        """255 bytes are taken, also those that % makes; 256 are not, and their place is unknown."""
        good = b"/" + b"a" * 251 + b" "
        self.check(
            [
                mapped(0x5000, 0x1000), mapped(0x9000, 4, name=good),
                mapped(0x5000, 4, name=good + b"b"),
            ],
            [
                "load 7 5000 1000 /bin/app", f"load 7 9000 4 /{'a' * 251}%20", "unload 7 5000 4",
            ],
            "1 mappings with no name of 1 to 255 bytes",
        )

    def test_long_name_at_an_exec(self):
        self.check(
            [mapped(0x5000, 4), executed(), mapped(0x5000, 4, name=b"/" * 256), mapped(0x9000, 4)],
            ["load 7 5000 4 /bin/app", "exit 7", "load 7 9000 4 /bin/app"],
            "1 mappings with no name of 1 to 255 bytes",
        )

    def test_long_name_before_the_recording(self):
        """Where nothing is known an `unload` is told again as well, and no `scan` follows it."""
        zero = {"time": "0.000000"}
        self.check(
            [
                mapped(0x6000, 4, name=b"/a", **zero), mapped(0x5000, 4, name=b"/b", **zero),
                mapped(0x5000, 4, name=b"/" * 256, **zero), mapped(0x4000, 4, name=b"/c", **zero),
                mapped(0x7000, 0x1000, 0x4000, **zero),
            ],
            [
                "scan 7 6000 4 /a", "scan 7 5000 4 /b", "unload 7 5000 4", "load 7 4000 4 /c",
                "load 7 3000 5000 /bin/app", "load 7 6000 4 /a", "unload 7 5000 4",
                "load 7 4000 4 /c",
            ],
            "1 mappings with no name of 1 to 255 bytes",
        )

    def test_top_of_memory(self):
        """A mapping up to the top is cut at 2^64 - 4; one behind that is left out."""
        top = 2**64
        status, found, err = converted(mapped(top - 0x1000, 0x1000))
        self.assertEqual((status, found), (0, ["load 7 fffffffffffff000 ffc /bin/app"]))
        self.assertIn("1 mappings cut at 2^64 - 4", err)
        self.check([mapped(top - 4, 4)], [], "1 mappings of no length below 2^64 - 4")
        self.check([mapped(0x5000, 0)], [], "1 mappings of no length below 2^64 - 4")

    def test_a_guest(self):
        self.check(
            [line(b"PERF_RECORD_MMAP -1/0: [0x1000(0x1000) @ 0]: x [guest.kernel.kallsyms]_text")],
            [],
            "1 mappings of a guest's kernel, or with no name of 1 to 255 bytes",
        )

    def small(self, samples, records, lines):
        """A conversion with smaller limits."""
        tool = module("perf-to-trace")
        tool.MOST_SAMPLES, tool.MOST_RECORDS = samples, records
        out = io.BytesIO()
        done = tool.convert(io.BytesIO(b"".join(lines)), out, {b"cpu-clock": b"cycles"})
        return out.getvalue().decode().splitlines(), done.left_out

    def test_samples(self):
        found, left_out = self.small(2, 9, [sample(0x1000), sample(0x1004), sample(0x1008)])
        self.assertEqual(found, ["s 0 7 1000 cycles", "s 0 7 1004 cycles"])
        self.assertEqual(list(left_out.values()), [1])

    def test_records(self):
        """A process whose record is left out has no more samples; others go on."""
        found, left_out = self.small(
            9,
            2,
            [
                mapped(0x1000, 4), mapped(0x1000, 4, pid=8), sample(0x1000), mapped(0x2000, 4),
                sample(0x1000), sample(0x1000, pid=8), sample(TEXT, pid=9),
            ],
        )
        self.assertEqual(
            found,
            [
                "load 7 1000 4 /bin/app", "load 8 1000 4 /bin/app", "s 0 7 1000 cycles",
                "s 0 8 1000 cycles", f"s 0 9 {TEXT:x} cycles",
            ],
        )
        self.assertEqual(sorted(left_out.values()), [1, 1])

    def test_records_of_a_child(self):
        """A child whose mappings find no room loses its samples in them, and is not misplaced."""
        found, left_out = self.small(
            9, 1, [mapped(0x1000, 4), forked(8, 8, 7), sample(0x1000, pid=8), sample(0x1000)]
        )
        self.assertEqual(found, ["load 7 1000 4 /bin/app", "s 0 7 1000 cycles"])
        self.assertEqual(sorted(left_out.values()), [1, 1])

    def test_records_of_the_kernel(self):
        found, left_out = self.small(9, 0, [line(KERNEL, pid=0), sample(TEXT)])
        self.assertEqual((found, sorted(left_out.values())), ([], [1, 1]))

    def test_limits(self):
        """The limits are those of the format."""
        tool = module("perf-to-trace")
        limits = (tool.MOST_CPUS, tool.MOST_RECORDS, tool.MOST_SAMPLES, tool.TOP, tool.WORD)
        self.assertEqual(limits, (16, 65536, 2000000, 2**64 - 4, 4))


class Notes(unittest.TestCase):
    """What is told and is no loss."""

    TABLE = [
        ([sample(1), sample(4)], "1 program counters rounded down to a multiple of 4"),
        (
            [sample(0, time="2.000000"), sample(4, time="1.999999")],
            "1 lines with a time before that of the line before them, kept in place",
        ),
        ([line(b"PERF_RECORD_LOST lost 27")], "27 samples that perf itself lost"),
        (
            [line(b"PERF_RECORD_KSYMBOL addr 0 len 1")],
            "1 events PERF_RECORD_KSYMBOL passed over",
        ),
        ([mapped(0x5000, 4, name=b"a b")], "1 mappings whose name was written with %"),
        (
            [mapped(0, 4, permission=b"rw-p")],
            "1 mappings that are not executable, passed over",
        ),
        (
            [mapped(0x5000, 4, 0x6000)],
            "1 mappings told from their address, as their file offset is above it",
        ),
    ]

    def test_table(self):
        for lines, note in self.TABLE:
            with self.subTest(note):
                status, _, err = converted(*lines)
                self.assertEqual(status, 0)
                self.assertIn("perf-to-trace: " + note + "\n", err)


class Refused(unittest.TestCase):
    """What is no such output: the line is named, and nothing is written."""

    TABLE = [
        (b"", "line 1: the input is empty"),
        (sample(0x1000)[:-1], "line 1: the input is cut off in it"),
        (sample(0x1000) + b"x" * 20000, "line 2: it is too long"),
        (sample(0x1000) + b"\n", "line 2: this is no line of: perf script -F "),
        (b"dcpi-trace 1 cpus 1\nend\n", "line 1: this is no line of"),
        (b"PERFILE2h\0\0\0\n", "line 1: this is no line of"),
        # perf script with no options
        (
            b"ls 11238 [003]  6553.465185:    1001001 cpu-clock:  7fd1 f+0x1 (/bin/ls)\n",
            "line 1: this is no line of",
        ),
        # call chains
        (
            b"app     7/7     [000]     1.000000: cpu-clock: \n\t    1000 (/bin/app)\n\n",
            "line 1: this is no line of: perf script -F comm,pid,tid,cpu,time,event,ip,dso "
            "--show-mmap-events --show-task-events (where the recording holds call chains: "
            "perf script -G ..)",
        ),
        (line(b"PERF_RECORD_MMAP2 7/7: [0x5000(0x1000)"), "line 1: a damaged PERF_RECORD_MMAP2"),
        (line(b"PERF_RECORD_FORK(7:7)"), "line 1: a damaged PERF_RECORD_FORK"),
        (line(b"cpu-clock: 11112222333344445 (/bin/app)"), "line 1: a sample without an address"),
        (line(b"cpu-clock: 1000"), "line 1: a sample without an address"),
    ]

    def test_table(self):
        for given, message in self.TABLE:
            with self.subTest(message):
                status, out, err = run("perf-to-trace", given=given)
                self.assertEqual((status, out), (2, b""), err)
                self.assertTrue(err.startswith("perf-to-trace: " + message), err)

    def test_words(self):
        """Wrong words have status 1."""
        for words in [["x"], ["--event", "a"], ["--event", "a=b"], ["--event", "=cycles"],
                      ["--event", "a=cycles", "--event", "b=cycles"],
                      ["--event", "a=cycles", "--event", "a=imiss"]]:
            with self.subTest(words):
                status, out, err = run("perf-to-trace", *words, given=sample(0x1000))
                self.assertEqual((status, out), (1, b""), err)

    def test_help(self):
        status, out, _ = run("perf-to-trace", "--help")
        self.assertEqual(status, 0)
        for word in (b"--event", b"--images", b"exit status", b"2,000,000", b"65,536", b"above 15"):
            self.assertIn(word, out)


class Pages:
    """Which page of which image lies where, page by page: what perf's mappings say."""

    def __init__(self):
        self.of = collections.defaultdict(dict)

    def map(self, pid, page, count, offset, name):
        """A mapping of count pages of an image."""
        from_start = not name.startswith(b"/") or name.startswith(b"//") or offset > page
        for at in range(count):
            self.of[pid][page + at] = (name, at if from_start else offset + at)


class AnyOrder(unittest.TestCase):
    """Random mappings, forks, execs and ends: each sample lies where the pages say."""

    NAMES = [b"/lib/a", b"/lib/b", b"/bin/app", b"//anon", b"[vdso]", b"/" * 256]

    def lines(self, draw, wanted):
        """Random lines, and the place of each of their samples in a mapping."""
        pages = Pages()
        living = [1]
        for _ in range(400):
            pid = draw.choice(living)
            kind = draw.randrange(12)
            if kind < 4:
                page, count = draw.randrange(2, 30), draw.randrange(1, 6)
                offset = draw.randrange(30)
                name = draw.choice(self.NAMES)
                pages.map(pid, page, count, offset, name)
                yield mapped(page << 12, count << 12, offset << 12, name, pid=pid)
            elif kind < 9 and pages.of[pid]:
                page = draw.choice(sorted(pages.of[pid]))
                name, offset = pages.of[pid][page]
                inside = draw.randrange(1024) * 4
                known = len(name) < 256
                wanted.append((name, (offset << 12) + inside) if known else None)
                yield sample((page << 12) + inside + draw.randrange(4), pid=pid)
            elif kind == 9:
                child = draw.randrange(1, 9)
                if child not in living:
                    living.append(child)
                    pages.of[child] = dict(pages.of[pid])
                    yield forked(child, child, pid)
            elif kind == 10:
                pages.of[pid] = {}
                yield executed(pid)
            elif len(living) > 1:
                living.remove(pid)
                pages.of[pid] = {}
                yield ended(pid, pid)

    def test_random(self):
        for seed in range(60):
            with self.subTest(seed=seed):
                wanted = []
                given = list(self.lines(random.Random(seed), wanted))
                _, out, _ = run("perf-to-trace", given=b"".join(given))
                self.assertEqual(places(out), wanted)


if __name__ == "__main__":
    unittest.main()
