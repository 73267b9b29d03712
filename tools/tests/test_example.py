"""The listings of the example, made again by another counter from its trace and symbol list."""

import collections
import csv
import io
import unittest

from tools_under_test import EXAMPLES, places

UNKNOWN = "(unknown profile)"


def procedure_at(ranges, offset):
    """The name of the range that covers an offset, or no name."""
    for start, length, name in ranges:
        if start <= offset < start + length:
            return name
    return ""


def counted(trace, symbols):
    """The samples of a trace by (image, procedure name or none); an image of None is unknown."""
    ranges = collections.defaultdict(list)
    for line in symbols.decode().splitlines():
        image, start, length, name = line.split(" ")
        ranges[image].append((int(start, 16), int(length, 16), name))
    counts = collections.Counter()
    for at in places(trace):
        if at is None:
            counts[None, ""] += 1
        else:
            image = at[0].decode()
            counts[image, procedure_at(ranges[image], at[1])] += 1
    return counts


def rows(counts):
    """The rows of a listing: count, percentage, cumulative percentage, key; in their order."""
    total = sum(counts.values())
    order = sorted(counts.items(), key=lambda row: (-row[1], row[0][0] is None, row[0]))
    reached = 0
    for key, count in order:
        reached += count
        parts = [10000 * part // total for part in (count, reached)]
        yield count, *(f"{part // 100}.{part % 100:02}" for part in parts), key


def text(counts, label):
    """A listing as text."""
    lines = [f"cycles epoch all total {sum(counts.values())}"]
    for count, percent, cumulative, key in rows(counts):
        lines.append(f"{count:12} {percent:>6} {cumulative:>6} {label(*key)}")
    return "\n".join(lines) + "\n"


def images_of(counts):
    """The counts by image alone."""
    sums = collections.Counter()
    for (image, _), count in counts.items():
        sums[image, ""] += count
    return sums


class Example(unittest.TestCase):
    """The stored listings."""

    def setUp(self):
        trace = (EXAMPLES / "words.trace").read_bytes()
        self.counts = counted(trace, (EXAMPLES / "words.symbols").read_bytes())

    def stored(self, name):
        """A stored listing."""
        return (EXAMPLES / name).read_text()

    def test_by_image(self):
        found = text(images_of(self.counts), lambda image, _: image or UNKNOWN)
        self.assertEqual(found, self.stored("words.by-image"))

    def test_by_procedure(self):
        def label(image, name):
            return f"{name or '(no symbol)'} {image}" if image else UNKNOWN

        self.assertEqual(text(self.counts, label), self.stored("words.by-procedure"))

    def test_csv(self):
        out = io.StringIO()
        writer = csv.writer(out, lineterminator="\n")
        writer.writerow(["count", "percent", "cumulative", "image"])
        for count, percent, cumulative, (image, _) in rows(images_of(self.counts)):
            writer.writerow([count, percent, cumulative, image or UNKNOWN])
        self.assertEqual(out.getvalue(), self.stored("words.csv"))


if __name__ == "__main__":
    unittest.main()
