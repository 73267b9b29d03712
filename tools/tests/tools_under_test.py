"""How the tests run the tools, and what a trace says, worked out by the rules of its format."""

import importlib.machinery
import importlib.util
import pathlib
import subprocess
import sys

TOOLS = pathlib.Path(__file__).resolve().parent.parent
EXAMPLES = TOOLS.parent / "examples"
sys.dont_write_bytecode = True


def run(tool, *words, given=b"", environment=None):
    """Runs a tool; answers status, standard output and standard error."""
    done = subprocess.run(
        [sys.executable, str(TOOLS / tool), *words],
        input=given,
        capture_output=True,
        env=environment,
        check=False,
    )
    return done.returncode, done.stdout, done.stderr.decode()


def module(tool):
    """A tool as a module, for tests of its parts and of smaller limits."""
    if str(TOOLS) not in sys.path:
        sys.path.insert(0, str(TOOLS))
    name = tool.replace("-", "_")
    loader = importlib.machinery.SourceFileLoader(name, str(TOOLS / tool))
    found = importlib.util.module_from_spec(importlib.util.spec_from_loader(name, loader))
    loader.exec_module(found)
    return found


def body(trace):
    """The lines of a trace between its header and its end, each cut at the spaces. Refuses what the
    grammar refuses."""
    lines = trace.split(b"\n")
    header = lines[0].split(b" ")
    assert header[:3] == [b"dcpi-trace", b"1", b"cpus"] and len(header) == 4, header
    assert lines[-2:] == [b"end", b""], lines[-2:]
    found = [line.split(b" ") for line in lines[1:-2]]
    late = False
    for number, line in enumerate(found, 2):
        check(line, number, int(header[3]), late)
        late = late or line[0] not in (b"scan", b"kernel")
    return found


def check(line, number, cpus, late):
    """Refuses a line of a body that is not in the grammar."""
    sizes = {b"s": 5, b"scan": 5, b"load": 5, b"exec": 5, b"unload": 4, b"exit": 2, b"kernel": 4}
    assert len(line) == sizes.get(line[0]), (number, line)
    assert not (late and line[0] == b"scan"), (number, line)
    if line[0] == b"s":
        assert int(line[1]) < cpus <= 16 and int(line[2]) < 2**32, (number, line)
        assert int(line[3], 16) % 4 == 0 and int(line[3], 16) < 2**64, (number, line)
        assert line[4] in (b"cycles", b"imiss", b"dmiss", b"branchmp"), (number, line)
        return
    if line[0] != b"exit":
        base, length = [int(word, 16) for word in line[-3 if line[0] != b"unload" else -2 :][:2]]
        assert base % 4 == 0 and length % 4 == 0 and length, (number, line)
        assert base + length <= 2**64 - 4, (number, line)
    if line[0] not in (b"exit", b"unload"):
        assert 1 <= len(line[-1]) <= 255, (number, line)
        assert all(33 <= byte <= 126 for byte in line[-1]), (number, line)


def place(records, pid, address):
    """Where an address of a process lies by the records before it: (image, offset), or None."""
    for line in reversed(records):
        if line[0] == b"kernel" or line[1] != pid:
            continue
        if line[0] == b"exit":
            break
        base, length = int(line[2], 16), int(line[3], 16)
        covers = base <= address < base + length
        if covers and line[0] == b"unload":
            break
        if covers:
            return line[4], address - base
        if line[0] == b"exec":
            break
    for line in reversed(records):
        if line[0] == b"kernel":
            base, length = int(line[1], 16), int(line[2], 16)
            if base <= address < base + length:
                return line[3], address - base
    return None


def places(trace):
    """The place of each sample of a trace, in order."""
    records = []
    found = []
    for line in body(trace):
        if line[0] == b"s":
            found.append(place(records, line[2], int(line[3], 16)))
        else:
            records.append(line)
    return found
