"""Hostile use of the built program, over folders: each call on files and each request for memory refused in turn, bytes of a
trace and of the files of a database changed, and folders that are none, are full or go away.

usage: faults.py PROGRAM REFUSE.so [files|memory|bytes|folders]..
EVERY, of the environment, is a number: of the changed bytes every so many is tried, by default each.

Each part prints how many cases it ran and which statuses came, and the first cases that went wrong; the status is 1 where
any did. A case goes wrong where the program ends by a signal, hangs or answers a status that is not in the table for it,
where what it prints with the status 0 does not balance, or where the database is afterwards none that the run may leave.
"""

import concurrent.futures
import itertools
import os
import pathlib
import re
import shutil
import sys
import tempfile

from fault_folders import Folders, contents
from fault_runs import (
    BAD_FILE,
    BAD_TRACE,
    FILES,
    MEMORY,
    NO_MEMORY,
    READ_FAULT,
    STORE_FAULT,
    WORKERS,
    WRITE_FAULT,
    Dcpi,
    Tried,
    until_fewer,
)
from fault_traces import EMPTY, EXACT, FREE, REPLAY, TRACES, WORK, readers, states_of, words_of

EVERY = int(os.environ.get("EVERY", "1"))

# what a run of which a call on files is refused may answer, and one of which a request for memory is
FAULTS = {FILES: (READ_FAULT, STORE_FAULT, WRITE_FAULT), MEMORY: (0, NO_MEMORY)}

# which traces are run in which ways with a call refused
REFUSED_FILES = (
    (REPLAY, ("flush", "epochs", "work")),
    (FREE, ("work", "epochs")),
    (EXACT, ("work", "epochs")),
)
REFUSED_MEMORY = (
    (REPLAY, ("flush", "work", "pair")),
    (FREE, ("work", "pair")),
    (EXACT, ("work", "pair")),
)

REFUSED = {FILES: "calls on files", MEMORY: "requests for memory"}


def stopped(what, done, state, states):
    """What is wrong with a run of which one call was refused, where it may leave these states by the number of commits."""
    if done.status not in FAULTS[what]:
        return f"status {done.status}: {done.err.decode()}"
    if done.status not in (0, WRITE_FAULT) and done.out:
        return f"status {done.status}, and something was printed"
    if not any(state in some for some in states):
        return f"status {done.status}, and the database is another one"
    if done.status in (0, WRITE_FAULT) and state not in states[-1]:
        return f"status {done.status}, and the database is not whole"
    if done.status == READ_FAULT and state not in states[0]:
        return "the input could not be read, and the database has changed"
    if done.status == 0 and state[1].splitlines()[1:] != tallies(done.out):
        return "status 0, and the summary is not that of the run"
    return ""


def unrefused(done):
    """What is wrong with a run that ended before the call to refuse."""
    return "" if done.status == 0 else f"status {done.status}, and no call was refused"


def tallies(summary):
    """The lines of a summary that are those of a listing of its run."""
    return [line for line in summary.splitlines() if line.startswith(b"c ")]


def refuse_each(dcpi, what, way, name, tried):
    """Refuses each call in turn to a run of a trace, until it makes fewer."""
    states = states_of(name, way)

    def case(number):
        folder = dcpi.folder()
        words = words_of(way, folder)
        done, made = dcpi.refuse(what, number, words, TRACES[name])
        problem = stopped(what, done, dcpi.state(folder), states) if made else unrefused(done)
        again = dcpi.run(words, TRACES[name]).status if made and not problem else 0
        shutil.rmtree(folder)
        if again != 0:
            problem = f"the next run answers {again}"
        came = f"status {done.status}:", f"{' '.join(way)}, {name}, {number}", problem
        return made, came if made or problem else None

    none = True
    for came in until_fewer(case):
        tried.add(*came)
        none = False
    if none:
        tried.add("none", name, "no call was refused")


def refuse_runs(dcpi, what, table):
    """Refuses each call in turn to runs of traces; answers how many cases went wrong."""
    wrong = 0
    for way, names in table:
        tried = Tried(f"{REFUSED[what]} refused to {' '.join(way)}, of {', '.join(names)}")
        for name in names:
            refuse_each(dcpi, what, way, name, tried)
        wrong += tried.report()
    return wrong


def refuse_listings(dcpi, what):
    """Refuses each call in turn to each command that only reads; answers how many cases went wrong."""
    tried = Tried(f"{REFUSED[what]} refused to a listing")
    folder = dcpi.folder(WORK)
    before = dcpi.state(folder)
    for words, given in readers(folder):
        whole = dcpi.run(words, given)

        def case(number, words=words, given=given, whole=whole):
            done, made = dcpi.refuse(what, number, words, given)
            problem = "" if made else unrefused(done)
            if made and done.status not in FAULTS[what]:
                problem = f"status {done.status}: {done.err.decode()}"
            elif not whole.out.startswith(done.out) or (done.status == 0 and done.out != whole.out):
                problem = "what is printed is no front of the text, or with the status 0 not all"
            came = f"status {done.status}:", f"{words[0]}, {number}", problem
            return made, came if made or problem else None

        for came in until_fewer(case):
            tried.add(*came)
    if dcpi.state(folder) != before:
        tried.add("changed", "listings", "the database has changed")
    return tried.report()


def files(dcpi):
    """Refuses each call on files in turn."""
    return refuse_runs(dcpi, FILES, REFUSED_FILES) + refuse_listings(dcpi, FILES)


def memory(dcpi):
    """Refuses each request for memory in turn."""
    return refuse_runs(dcpi, MEMORY, REFUSED_MEMORY) + refuse_listings(dcpi, MEMORY)


def others(byte):
    """What a byte is changed to: each bit turned, and some that mean something in a format."""
    turned = {byte ^ (1 << bit) for bit in range(8)}
    return sorted((turned | {0, 255, 10, 32, 48, 57, 102, (byte + 1) % 256}) - {byte})


def changed(whole):
    """The copies of some bytes with one of them changed, every so many."""
    cases = ((place, other) for place, byte in enumerate(whole) for other in others(byte))
    for place, other in itertools.islice(cases, 0, None, EVERY):
        yield place, other, whole[:place] + bytes([other]) + whole[place + 1 :]


COUNT = re.compile(rb"(?:k \d+ [!-~]+|u \d+) (?:cycles|imiss|dmiss|branchmp) [0-9a-f]+ (\d+)")
SUMS = rb"taken (\d+) known (\d+) unknown (\d+) lost (\d+)"
TALLY = re.compile(rb"c \d+ (?:cycles|imiss|dmiss|branchmp) " + SUMS)
RUN = re.compile(rb"run \d+ parts \d+ (?:whole|cut)")
TOTAL = re.compile(rb"total " + SUMS)
BAD_FILE_LINE = re.compile(rb"dcpi: database file [a-z0-9.]+ is bad\n")


def sum_of(counts):
    """The sum of a listing of counts; nothing where a line is none."""
    lines = [COUNT.fullmatch(line) for line in counts.splitlines()]
    return sum(int(line[1]) for line in lines) if all(lines) else None


def balances(runs):
    """Whether each tally of a listing of runs balances."""
    for line in runs.splitlines():
        tally = TALLY.fullmatch(line)
        taken, *parts = map(int, tally.groups()) if tally else (0,)
        if not RUN.fullmatch(line) and not (tally and taken == sum(parts)):
            return False
    return True


def number_of_samples(trace):
    """How many samples an accepted trace has."""
    return sum(line.startswith(b"s ") for line in trace.split(b"\n"))


def trace_case(dcpi, case):
    """A changed trace: refused, or each of its samples is counted."""
    place, other, trace = case
    done = dcpi.run(["plain"], trace)
    problem = ""
    if done.status not in (0, BAD_TRACE):
        problem = f"status {done.status}"
    elif done.status == 0 and sum_of(done.out) != number_of_samples(trace):
        problem = "the counts do not add up"
    if not problem and other % 16 == 0:
        problem = replay_problem(dcpi, trace, done.status)
    return f"status {done.status}:", f"trace, byte {place} is {other}", problem


def replay_problem(dcpi, trace, status):
    """What is wrong with the replay of a trace for which `plain` answers this status."""
    folder = dcpi.folder()
    replay = dcpi.run(["replay", folder], trace)
    state = dcpi.state(folder)
    shutil.rmtree(folder)
    if replay.status != status:
        return f"plain answers {status} and replay {replay.status}"
    if status != 0:
        return "" if state == EMPTY else "refused, and the database has changed"
    total = TOTAL.fullmatch(replay.out.splitlines()[-1])
    taken, known, unknown, lost = map(int, total.groups())
    if taken != number_of_samples(trace) or taken != known + unknown + lost:
        return "the summary does not balance"
    if sum_of(state[0]) != known + unknown or not balances(state[1]):
        return "the database does not balance"
    return ""


def file_problem(name, answers, whole):
    """What is wrong with the answers of the commands over a database of which one file is changed."""
    for command, done in answers.items():
        if done.status not in (0, BAD_FILE):
            return f"{command} answers {done.status}"
        if done.status == BAD_FILE and not BAD_FILE_LINE.fullmatch(done.err):
            return f"{command} prints {done.err!r}"
    counts, runs = answers["cat"], answers["runs"]
    if counts.status == 0:
        found = sum_of(counts.out)
        if found is None or (not name.startswith(("p", "u")) and found != sum_of(whole[0])):
            return "the counts do not add up"
    return "" if runs.status != 0 or balances(runs.out) else "the runs do not balance"


def file_case(dcpi, folder, name, whole, case):
    """A database of which one file is changed: each command serves or names a file."""
    place, other, content = case
    copy = tempfile.mkdtemp(dir=dcpi.scratch)
    shutil.copytree(folder, copy, dirs_exist_ok=True)
    pathlib.Path(copy, name).write_bytes(content)
    answers = {
        " ".join([words[0], *words[2:3]]): dcpi.run(words, given)
        for words, given in readers(copy)[:4]
    }
    before = contents(pathlib.Path(copy))
    answers["replay"] = dcpi.run(["replay", copy], WORK)
    after = contents(pathlib.Path(copy))
    shutil.rmtree(copy)
    problem = file_problem(name, answers, whole)
    if answers["replay"].status != 0 and before != after:
        problem = "replay is refused, and files have changed"
    statuses = "/".join(str(done.status) for done in answers.values())
    return f"statuses {statuses}:", f"{name}, byte {place} is {other}", problem


def bytes_changed(dcpi):
    """Changes each byte of a trace, and of each file of a database, in turn."""
    wrong = 0
    with concurrent.futures.ThreadPoolExecutor(WORKERS) as workers:
        tried = Tried("a byte of a trace changed")
        for came in workers.map(lambda case: trace_case(dcpi, case), changed(WORK)):
            tried.add(*came)
        wrong += tried.report()
        folder = dcpi.folder(WORK)
        whole = dcpi.state(folder)
        for name in ("head.1", "p.0.0.0.1", "u.0.0.1", "r.1"):
            tried = Tried(f"a byte of {name} changed (cat/runs/prof image/prof procedure/replay)")
            content = pathlib.Path(folder, name).read_bytes()

            def case(one, name=name):
                return file_case(dcpi, folder, name, whole, one)

            for came in workers.map(case, changed(content)):
                tried.add(*came)
            wrong += tried.report()
    return wrong


PARTS = {
    "files": files,
    "memory": memory,
    "bytes": bytes_changed,
    "folders": lambda dcpi: Folders(dcpi).run(),
}


def main():
    """Runs the parts that are named, or all."""
    program, refuser, *parts = sys.argv[1:]
    if any(part not in PARTS for part in parts):
        sys.exit(__doc__)
    above = "/dev/shm" if os.access("/dev/shm", os.W_OK) else None
    with tempfile.TemporaryDirectory(dir=above) as scratch:
        os.chmod(scratch, 0o755)
        copy = shutil.copy(program, scratch)
        os.chmod(copy, 0o755)
        dcpi = Dcpi(copy, os.path.abspath(refuser), scratch)
        wrong = sum(PARTS[part](dcpi) for part in parts or PARTS)
    return 1 if wrong else 0


if __name__ == "__main__":
    sys.exit(main())
