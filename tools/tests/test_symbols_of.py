"""Tests of symbols-of: its lists, over a stand-in for nm, and what it cuts and leaves out."""

import collections
import os
import pathlib
import stat
import struct
import tempfile
import unittest

from tools_under_test import EXAMPLES, module, run

# One segment: address 0x401000 is byte 0x1000 of the file, and so on for 0x1000 bytes.
SEGMENTS = [(1, 0x1000, 0x401000, 0x1000)]


def elf(wide=True, order="<", rows=(*SEGMENTS,), notes=b""):
    """The front of an ELF file with a program header and, at 0x800, notes."""
    mark = b"\x7fELF" + bytes([2 if wide else 1, 1 if order == "<" else 2]) + bytes(10)
    rows = [*rows, (4, 0x800, 0, len(notes))]
    start = 64 if wide else 52
    row = 56 if wide else 32
    numbers = (3, 62, 1, 0, start, 0, 0, start, row, len(rows), 0, 0, 0)
    front = mark + struct.pack(order + ("HHIQQQIHHHHHH" if wide else "HHIIIIIHHHHHH"), *numbers)
    for kind, offset, address, size in rows:
        if wide:
            fields = (kind, 5, offset, address, address, size, size, 4096)
        else:
            fields = (kind, offset, address, address, size, size, 5, 4096)
        front += struct.pack(order + ("II6Q" if wide else "8I"), *fields)
    return front + bytes(0x800 - len(front)) + notes


class Lists(unittest.TestCase):
    """Lists of files, with nm replaced by stored lines."""

    def setUp(self):
        folder = tempfile.TemporaryDirectory()
        self.addCleanup(folder.cleanup)
        self.folder = pathlib.Path(folder.name)

    def listed(self, symbols, dynamic="", image=None, words=(), name="[app]"):
        """What symbols-of prints for an image whose nm prints these lines."""
        file = self.folder / "app"
        file.write_bytes(elf() if image is None else image)
        (self.folder / "symbols").write_text(symbols)
        (self.folder / "dynamic").write_text(dynamic)
        nm = self.folder / "nm"
        nm.write_text(
            f'#!/bin/sh\ncase "$*" in *--dynamic*) cat {self.folder}/dynamic;; '
            f"*) cat {self.folder}/symbols;; esac\n"
        )
        nm.chmod(nm.stat().st_mode | stat.S_IXUSR)
        environment = dict(os.environ, PATH=f"{self.folder}:{os.environ['PATH']}")
        return run("symbols-of", f"{name}={file}", *words, environment=environment)

    def test_offsets(self):
        """An address becomes an offset in the file; data and what lies elsewhere stay away."""
        status, out, err = self.listed(
            "f T 401000 10\ng t 401010 8\ndata D 401020 8\nout T 500000 8\nlabel t 401030 0\n"
            "versioned@@V_1 W 401040 4\n"
        )
        wanted = b"[app] 1000 10 f\n[app] 1010 8 g\n[app] 1040 4 versioned\n"
        self.assertEqual((status, out), (0, wanted), err)
        self.assertIn("left out: symbols with no size: 1\n", err)
        self.assertIn("left out: symbols with no place in the file: 1\n", err)

    def test_all_kinds_of_elf(self):
        for wide in (True, False):
            for order in "<>":
                status, out, err = self.listed("f T 401000 10\n", image=elf(wide, order))
                self.assertEqual((status, out), (0, b"[app] 1000 10 f\n"), err)

    def test_stripped(self):
        """With no symbols the dynamic ones are taken."""
        _, out, _ = self.listed("", dynamic="f T 401000 10\n")
        self.assertEqual(out, b"[app] 1000 10 f\n")

    def test_names(self):
        """An image's name is written as perf-to-trace writes it."""
        for name in ("/tmp/a b", "/tmp/a%20b"):
            _, out, _ = self.listed("f T 401000 10\n", name=name)
            self.assertEqual(out, b"/tmp/a%20b 1000 10 f\n")
        status, out, err = self.listed(f"{'f' * 256} T 401000 10\n{'g' * 255} T 401010 10\n")
        self.assertEqual((status, out), (0, b"[app] 1010 10 " + b"g" * 255 + b"\n"))
        self.assertIn("symbols with no name of 1 to 255 bytes, or past 2^64 - 4: 1\n", err)

    def test_sampled(self):
        """Only what has a count stays."""
        counts = self.folder / "counts"
        counts.write_text("k 0 [app] cycles 1014 3\nk 0 other cycles 1000 1\nu 0 cycles 1000 1\n")
        symbols = "f T 401000 10\ng T 401010 8\nh T 401018 8\n"
        status, out, err = self.listed(symbols, words=["--sampled", str(counts)])
        self.assertEqual((status, out), (0, b"[app] 1010 8 g\n"), err)
        self.assertIn("left out: procedures with no count: 2\n", err)
        counts.write_text("k 0 [app] 1014 3\n")
        status, out, err = self.listed(symbols, words=["--sampled", str(counts)])
        self.assertEqual((status, out), (2, b""))
        self.assertIn("line 1 is no count", err)

    def test_refused(self):
        """No ELF file, a cut one, none at all."""
        for image in (b"", b"#!/bin/sh\n", b"\x7fELF" + bytes(60), elf()[:70]):
            status, out, err = self.listed("f T 401000 10\n", image=image)
            self.assertEqual((status, out), (3, b""), err)
            self.assertTrue(err.startswith("symbols-of: left out: "), err)
        status, out, err = self.listed("f T 401000 10\n", words=["/no%20file"])
        self.assertEqual((status, out), (3, b"[app] 1000 10 f\n"))
        self.assertIn("left out: [Errno 2] No such file or directory: b'/no file'\n", err)
        for words, wanted in ([], 1), (["/none"], 3), (["a=/none", "a=/none"], 1), (["--x"], 1):
            self.assertEqual(run("symbols-of", *words)[:2], (wanted, b""))

    def test_kernel(self):
        """Each symbol ends where the next begins; modules and data stay away."""
        symbols = self.folder / "kallsyms"
        symbols.write_text(
            "0000000000000000 A per_cpu\nffffffff81000000 T _stext\nffffffff81000000 T _text\n"
            "ffffffff81000000 T first\nffffffff81000040 t second.cold\nffffffff81000080 D data\n"
            "ffffffff81000100 T _etext\nffffffffc0000000 t f\t[module]\n"
        )
        status, out, err = run("symbols-of", "--kallsyms", str(symbols))
        wanted = b"[kernel.kallsyms] 0 40 first\n[kernel.kallsyms] 40 c0 second.cold\n"
        self.assertEqual((status, out), (0, wanted), err)
        symbols.write_text("0000000000000000 T _text\n0000000000000000 T _etext\n")
        status, out, err = run("symbols-of", "--kallsyms", str(symbols))
        self.assertEqual((status, out), (3, b""))
        self.assertIn("/proc/kallsyms shows it to root", err)

    def test_build_id(self):
        """The build id is found among other notes."""
        tool = module("symbols-of")
        other = struct.pack("<III", 4, 5, 1) + b"GNU\0" + b"12345\0\0\0"
        known = struct.pack("<III", 4, 3, 3) + b"GNU\0" + b"\x0a\x1b\xff\0"
        for notes, wanted in (other + known, "0a1bff"), (other, None), (b"", None):
            self.assertEqual(tool.build_id("<", notes), wanted)

    def test_help(self):
        status, out, _ = run("symbols-of", "--help")
        self.assertEqual(status, 0)
        for word in (b"--kallsyms", b"--sampled", b"exit status", b"1,048,576"):
            self.assertIn(word, out)


class Overlaps(unittest.TestCase):
    """No two ranges share an offset."""

    TABLE = [
        ("apart", [(0, 8, "a"), (8, 16, "b")], [(0, 8, "a"), (8, 16, "b")], {}),
        ("one beginning", [(0, 8, "a"), (0, 12, "b"), (0, 12, "_c")], [(0, 12, "b")],
         {"left out: other names of one beginning": 2}),
        ("half", [(0, 8, "a"), (4, 12, "b")], [(0, 4, "a"), (4, 12, "b")],
         {"cut: ranges that others begin in": 1}),
        ("inside", [(0, 16, "a"), (4, 8, "b")], [(0, 4, "a"), (4, 8, "b"), (8, 16, "a")],
         {"cut: ranges that others begin in": 1}),
        ("a word in two", [(0, 6, "a"), (6, 12, "b")], [(0, 4, "a"), (4, 12, "b")],
         {"cut: ranges that others begin in": 1}),
        ("inside, and past the end", [(0, 8, "a"), (4, 16, "b"), (12, 20, "c")],
         [(0, 4, "a"), (4, 12, "b"), (12, 20, "c")], {"cut: ranges that others begin in": 2}),
        ("two inside", [(0, 32, "a"), (4, 8, "b"), (12, 16, "c")],
         [(0, 4, "a"), (4, 8, "b"), (8, 12, "a"), (12, 16, "c"), (16, 32, "a")],
         {"cut: ranges that others begin in": 2}),
    ]

    def test_table(self):
        tool = module("symbols-of")
        for name, given, wanted, counted in self.TABLE:
            with self.subTest(name):
                notes = collections.Counter()
                ranges = [(start, end, label.encode()) for start, end, label in given]
                found = list(tool.lines(b"i", ranges, notes))
                lines = [b"i %x %x %s\n" % (s, e - s, label.encode()) for s, e, label in wanted]
                self.assertEqual((found, dict(notes)), (lines, counted))

    def test_example(self):
        """The stored list is in the form that is read: fields, words, and nothing shared."""
        ends = {}
        for line in (EXAMPLES / "words.symbols").read_bytes().splitlines():
            image, start, length, name = line.split(b" ")
            start, length = int(start, 16), int(length, 16)
            self.assertTrue(name and length and start % 4 == 0 and length % 4 == 0, line)
            self.assertGreaterEqual(start, ends.get(image, 0), line)
            ends[image] = start + length


if __name__ == "__main__":
    unittest.main()
