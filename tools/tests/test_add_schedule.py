"""Tests of tools/add-schedule, over small traces written by hand."""
import pathlib
import subprocess
import sys
import unittest

TOOL = pathlib.Path(__file__).resolve().parent.parent / "add-schedule"


def schedule(trace, *words):
    """The status, the output and the error output of the tool for this trace."""
    done = subprocess.run([sys.executable, str(TOOL), *words], input=trace.encode(), capture_output=True, check=False)
    return done.returncode, done.stdout.decode(), done.stderr.decode()


def lines(*parts):
    """Lines of a trace, given with slashes between them."""
    return "".join(line + "\n" for part in parts for line in part.split(" / "))


class AddSchedule(unittest.TestCase):
    def test_a_flush_stands_before_a_record_that_follows_samples(self):
        trace = lines("dcpi-trace 1 cpus 2 / load 7 1000 1000 A / s 1 7 1004 cycles / s 0 7 1008 cycles / exit 7 / exit 8 / end")
        expected = lines(
            "dcpi-trace 1 cpus 2 / load 7 1000 1000 A / s 1 7 1004 cycles / s 0 7 1008 cycles / drain / exit 7 / exit 8 / end",
            "a / l 1 / l 0",
            "a / l 0 / l 1 / d 0 0 / d 0 1 / d 0 2 / d 1 0 / d 1 1 / d 1 2 / a",
            "a / a",
        )
        self.assertEqual(schedule(trace), (0, expected, ""))

    def test_a_schedule_of_before_is_dropped(self):
        trace = lines("dcpi-trace 1 cpus 1 buckets 1 buffer 1 / s 0 7 1000 cycles / end / a / l 0")
        expected = lines("dcpi-trace 1 cpus 1 buckets 1 buffer 1 / s 0 7 1000 cycles / end / l 0")
        self.assertEqual(schedule(trace), (0, expected, ""))

    def test_the_buffers_are_polled_after_every_1024_samples_of_a_processor(self):
        trace = lines("dcpi-trace 1 cpus 1") + lines("s 0 7 1000 cycles") * 2049 + lines("end")
        status, out, _ = schedule(trace)
        steps = out.split("end\n")[1].split("\n")
        self.assertEqual(status, 0)
        self.assertEqual([at for at, step in enumerate(steps) if step.startswith("d")], [1024, 1025, 2050, 2051])

    def test_flushes_that_have_no_room_are_counted(self):
        body = lines("s 0 7 1000 cycles / exit 7") * 3 + lines("merge") * 65531
        status, out, err = schedule(lines("dcpi-trace 1 cpus 1") + body + lines("end"))
        self.assertEqual(status, 3)
        self.assertEqual(out.count("drain\n"), 2)
        self.assertEqual(err, "add-schedule: no room for 1 flushes; samples before them may be placed by later mappings\n")

    def test_where_room_is_short_endings_come_first(self):
        body = lines("s 0 7 1000 cycles / load 7 0 4 A / s 0 7 1000 cycles / exec 7 0 4 A") + lines("merge") * 65533
        status, out, _ = schedule(lines("dcpi-trace 1 cpus 1") + body + lines("end"))
        self.assertEqual(status, 0)
        self.assertIn("load 7 0 4 A\ns 0 7 1000 cycles\ndrain\nexec", out)
        self.assertEqual(out.count("drain\n"), 1)

    def test_what_is_no_trace_is_refused(self):
        self.assertEqual(schedule("")[0], 2)
        self.assertEqual(schedule("hello\n")[0], 2)
        self.assertEqual(schedule(lines("dcpi-trace 1 cpus 1 / s 1 7 1000 cycles / end"))[0], 2)
        self.assertEqual(schedule(lines("dcpi-trace 1 cpus 1 / exit 7"))[0], 2)

    def test_help_and_unknown_words(self):
        status, out, _ = schedule("", "--help")
        self.assertEqual((status, out.startswith("Gives a trace the schedule")), (0, True))
        self.assertEqual(schedule("", "now")[0], 1)


if __name__ == "__main__":
    unittest.main()
