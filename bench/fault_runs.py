"""Runs of the built program for the scripts of hostile use: with a call refused, as another user or under a limit."""

import collections
import concurrent.futures
import os
import pathlib
import resource
import shutil
import subprocess
import sys
import tempfile

# after this a run counts as one that hangs: long, since a busy machine may give a run with threads a second in a minute
SECONDS = 120
WORKERS = 2

# how many numbers of calls are tried before it is seen whether any of them was reached
BATCH = 32

USAGE, BAD_TRACE, READ_FAULT, STORE_FAULT, WRITE_FAULT, NO_MEMORY, BAD_FILE = range(1, 8)

# what is refused, by the variable that gives its number to the library that refuses it
FILES, MEMORY = "REFUSE_CALL", "REFUSE_MEMORY"

Done = collections.namedtuple("Done", "status out err")


class Tried:
    """The cases of a part: how many, by what came, and those that went wrong."""

    def __init__(self, name):
        self.name = name
        self.came = collections.Counter()
        self.wrong = []

    def add(self, came, case, problem):
        """A case, what came of it, and what is wrong with that, if anything."""
        self.came[came] += 1
        if problem:
            self.wrong.append(f"{case}: {problem}")

    def report(self):
        """Prints the part, and answers how many cases went wrong."""
        came = ", ".join(f"{what} {count}" for what, count in sorted(self.came.items(), key=str))
        print(f"{self.name}: {sum(self.came.values())} cases ({came}), {len(self.wrong)} wrong")
        for wrong in self.wrong[:10]:
            print(f"    {wrong}")
        sys.stdout.flush()
        return len(self.wrong)


class Dcpi:
    """The program, with a library that refuses one call of it."""

    def __init__(self, program, refuser, scratch):
        self.program = program
        self.refuser = refuser
        self.scratch = pathlib.Path(scratch)

    def run(self, words, given=b"", user=None, limit=None, **refused):
        """Runs the program, as a user, or with a limit of its resources.

        A run that hangs has the status `hangs`.
        """
        more = {"user": user} if user is not None else {}
        if limit is not None:
            # a file that may not grow is an error then, and no signal
            more = {"preexec_fn": lambda: resource.setrlimit(*limit), "restore_signals": False}
        try:
            done = subprocess.run(
                [self.program, *words],
                input=given,
                capture_output=True,
                check=False,
                timeout=SECONDS,
                env={**os.environ, **refused},
                **more,
            )
        except subprocess.TimeoutExpired:
            return Done("hangs", b"", b"")
        return Done(done.returncode, done.stdout, done.stderr)

    def refuse(self, what, number, words, given=b""):
        """Runs the program with one call refused; says also whether so many calls were made."""
        place = pathlib.Path(tempfile.mkdtemp(dir=self.scratch))
        mark = place / "mark"
        refused = {"LD_PRELOAD": self.refuser, what: str(number), "REFUSE_MARK": str(mark)}
        done = self.run(words, given, **refused)
        made = mark.exists()
        shutil.rmtree(place)
        return done, made

    def folder(self, trace=None):
        """A new folder, into which a trace was replayed."""
        folder = tempfile.mkdtemp(dir=self.scratch)
        if trace is not None and self.run(["replay", folder], trace).status != 0:
            sys.exit("faults.py: a plain replay is refused")
        return folder

    def state(self, folder):
        """What `cat` and `runs` print of a folder; nothing where one of them is refused."""
        counts, runs = self.run(["cat", folder]), self.run(["runs", folder])
        return (counts.out, runs.out) if counts.status == runs.status == 0 else None


def until_fewer(case):
    """What came of a case with the first call refused, with the second, and so on, until no run makes so many.

    `case` answers whether its run made so many calls, and what came of it, if that is to be told. How many a run with
    threads makes, differs from run to run.
    """
    with concurrent.futures.ThreadPoolExecutor(WORKERS) as workers:
        first, reached = 1, True
        while reached:
            tried = list(workers.map(case, range(first, first + BATCH)))
            yield from (came for _, came in tried if came)
            first, reached = first + BATCH, any(made for made, _ in tried)
