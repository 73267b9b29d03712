"""Folders that are none, are closed, are full or go away, and other things in the place of files."""

import os
import pathlib
import resource
import shutil
import subprocess
import time

from fault_runs import BAD_FILE, SECONDS, STORE_FAULT, USAGE, Tried
from fault_traces import EPOCHS, WORK, readers

# the file that a write fills before it takes its place
ASIDE = "new file"

NOBODY = 65534

# the answers of `cat`, `runs`, `prof image`, `prof procedure` and `replay` where one of those files is no file: all of them
# read the head; all but `runs` the profiles; `runs` alone the part of a run; and none the seal
READERS_OF_HEAD = (STORE_FAULT, STORE_FAULT, STORE_FAULT, STORE_FAULT, STORE_FAULT)
READERS_OF_PROFILE = (STORE_FAULT, 0, STORE_FAULT, STORE_FAULT, STORE_FAULT)
READERS_OF_PART = (0, STORE_FAULT, 0, 0, 0)
READERS_OF_SEAL = (0, 0, 0, 0, 0)


def link_to(target):
    """Makes a link that leads there."""
    return lambda path: os.symlink(target, path)


class Folders:
    """What an operator meets in the place of a sound folder."""

    def __init__(self, dcpi):
        self.dcpi = dcpi
        self.tried = Tried("folders")

    def case(self, name, expected, words, given=b"", **how):
        """A case by its name, with the status that has to come."""
        done = self.dcpi.run(words, given, **how)
        wrong = f"status {done.status}, not {expected}: {done.err.decode()}"
        self.tried.add(f"status {done.status}:", name, "" if done.status == expected else wrong)

    def holds(self, name, fact):
        """Something that is so after a case."""
        self.tried.add("what is left:", name, "" if fact else "it is not so")

    def all_commands(self, name, folder, expected):
        """Each command with a database over one folder."""
        for words, given in [*readers(folder)[:4], (["replay", folder], EPOCHS)]:
            self.case(f"{name}, {words[0]}", expected, words, given)

    def no_folders(self):
        """What is there is no folder, or nothing is there."""
        above = pathlib.Path(self.dcpi.folder())
        (above / "file").write_bytes(b"")
        (above / "link").symlink_to(above / "nowhere")
        (above / "loop").symlink_to(above / "loop")
        for name in ("missing", "file", "file/below", "link", "loop", "x" * 300):
            self.all_commands(f"{name[:12]} in the folder's place", str(above / name), STORE_FAULT)
        self.all_commands("no name", "", STORE_FAULT)
        (above / "sound").mkdir()
        (above / "to sound").symlink_to(above / "sound")
        self.all_commands("a link to a folder", str(above / "to sound"), 0)

    def closed_folders(self):
        """The folder may not be read, or not be written."""
        if os.geteuid() != 0:
            user = None
        elif shutil.which("true") and self.dcpi.run([], user=NOBODY).status == USAGE:
            user = NOBODY
        else:
            print("folders: skipped, as nobody cannot run the program: folders that are closed")
            return
        folder = pathlib.Path(self.dcpi.folder(EPOCHS))
        for mode, read, written in ((0o000, STORE_FAULT, STORE_FAULT), (0o555, 0, STORE_FAULT)):
            folder.chmod(mode)
            replay = ["replay", str(folder)]
            self.case(f"mode {mode:o}, cat", read, ["cat", str(folder)], user=user)
            self.case(f"mode {mode:o}, replay", written, replay, EPOCHS, user=user)
        folder.chmod(0o755)
        (folder / "head.2").chmod(0)
        self.case("a closed head, cat", STORE_FAULT, ["cat", str(folder)], user=user)

    def full_disks(self):
        """The disk has no room for a file."""
        folder = self.dcpi.folder(EPOCHS)
        none = (resource.RLIMIT_FSIZE, (0, 0))
        replay = ["replay", folder]
        self.case("no file may grow, replay", STORE_FAULT, replay, EPOCHS, limit=none)
        self.case("no file may grow, cat", 0, ["cat", folder], limit=none)
        self.case("afterwards, replay", 0, replay, EPOCHS)
        disk = pathlib.Path(self.dcpi.folder())
        mount = ["mount", "-t", "tmpfs", "-o", "size=32k", "none", disk]
        if subprocess.run(mount, capture_output=True, check=False).returncode != 0:
            print("folders: skipped, no disk can be mounted here: a full disk")
            return
        try:
            self.fill(disk)
        finally:
            subprocess.run(["umount", disk], check=False)

    def fill(self, disk):
        """Replays until the disk is full; what was replayed before that stays."""
        replays, status = 0, 0
        while status == 0 and replays < 100:
            before = self.dcpi.run(["cat", str(disk)])
            status = self.dcpi.run(["replay", str(disk)], WORK).status
            replays += 1
        problem = "" if status == STORE_FAULT else f"status {status}"
        self.tried.add(f"status {status}:", "a full disk, replay", problem)
        after = self.dcpi.run(["cat", str(disk)])
        problem = "" if after == before else "the database is another one"
        self.tried.add(f"status {after.status}:", "a full disk, cat", problem)

    def other_entries(self):
        """Links, pipes and folders among the names."""
        self.entry("another name is a pipe", 0, "notes", os.mkfifo)
        self.entry("another name is a folder", 0, "p.0.0", os.mkdir)
        self.entry("another name is a link to nowhere", 0, "notes", link_to("nowhere"))
        self.entry("a seal without a head is a folder", BAD_FILE, "seal.9", os.mkdir)
        self.entry("the head is a folder", STORE_FAULT, "head.2", os.mkdir)
        self.entry("the head is a link to nowhere", BAD_FILE, "head.2", link_to("nowhere"))
        self.entry("the head is a link to itself", STORE_FAULT, "head.2", link_to("head.2"))
        self.entry("the head is a link to another head", BAD_FILE, "head.2", link_to("head.1"))

    def entry(self, name, expected, file, make):
        """A database in which an entry is made in the place of a file."""
        folder = pathlib.Path(self.dcpi.folder(EPOCHS))
        (folder / file).unlink(missing_ok=True)
        make(folder / file)
        self.case(name, expected, ["cat", str(folder)])

    def in_its_place(self, name, file, make, expected):
        """A database in which something stands in the place of a file: the status of each command."""
        folder = pathlib.Path(self.dcpi.folder(WORK))
        (folder / file).rename(folder / "before")
        make(folder / file)
        commands = [*readers(str(folder))[:4], (["replay", str(folder)], WORK)]
        for status, (words, given) in zip(expected, commands):
            self.case(f"{file} is {name}, {words[0]}", status, words, given)

    def pipes(self):
        """A pipe to which nobody writes, in the place of a file: whoever opens it waits for ever."""
        for file, expected in (
            ("head.1", READERS_OF_HEAD),
            ("p.0.0.0.1", READERS_OF_PROFILE),
            ("u.0.0.1", READERS_OF_PROFILE),
            ("r.1", READERS_OF_PART),
            ("seal.1", READERS_OF_SEAL),
        ):
            self.in_its_place("a pipe", file, os.mkfifo, expected)

    def linked_profiles(self):
        """A link in the place of a profile: it is read through to a regular file, and to nothing else."""
        nowhere = (BAD_FILE, 0, BAD_FILE, BAD_FILE, BAD_FILE)
        pipe = self.dcpi.folder() + "/pipe"
        os.mkfifo(pipe)
        for name, target, expected in (
            ("a link to that file", "before", (0, 0, 0, 0, 0)),
            ("a link to nowhere", "nowhere", nowhere),
            ("a link to a folder", ".", READERS_OF_PROFILE),
            ("a link to a pipe", pipe, READERS_OF_PROFILE),
            ("a link to a device without end", "/dev/zero", READERS_OF_PROFILE),
            ("a link in a ring", "p.0.0.0.1", READERS_OF_PROFILE),
        ):
            self.in_its_place(name, "p.0.0.0.1", link_to(target), expected)

    def entries_aside(self):
        """Something stands under the name of the file that a write fills first, or of one that it puts in place."""
        for file in (ASIDE, "p.0.0.0.1", "r.1", "head.1"):
            self.taken_away(f"{file} is a file", file, lambda path: path.write_bytes(b"left"))
            self.taken_away(f"{file} is a pipe", file, os.mkfifo)
            self.linked_away(file)
            self.stays(f"{file} is a folder", file)

    def taken_away(self, name, file, make):
        """What stands there is taken away by a replay, and the database is as ever."""
        folder = pathlib.Path(self.dcpi.folder())
        make(folder / file)
        self.case(f"{name}, replay", 0, ["replay", str(folder)], EPOCHS)
        sound = pathlib.Path(self.dcpi.folder(EPOCHS))
        self.holds(f"{name}, files as ever", contents(folder) == contents(sound))

    def linked_away(self, file):
        """A link is taken away by a replay, and what it leads to stays as it was."""
        aside = pathlib.Path(self.dcpi.folder())
        (aside / "kept").write_bytes(b"kept")
        (aside / "folder").mkdir()
        for target in ("kept", "folder", "nowhere"):
            self.taken_away(f"{file} is a link to {target}", file, link_to(aside / target))
        kept = (aside / "kept").read_bytes() == b"kept" and not any((aside / "folder").iterdir())
        self.holds(f"{file} was a link, what it led to", kept and not (aside / "nowhere").exists())

    def stays(self, name, file):
        """A folder in the place of a file that is written: the write fails, and what was committed stays."""
        folder = pathlib.Path(self.dcpi.folder())
        (folder / file).mkdir()
        self.case(f"{name}, replay", STORE_FAULT, ["replay", str(folder)], EPOCHS)
        self.case(f"{name}, cat", 0, ["cat", str(folder)])
        self.holds(f"{name}, the folder", (folder / file).is_dir())

    def going_away(self):
        """The folder goes away while a trace is read: the database was opened, and then its files are missing."""
        for name, take in (
            ("taken away", shutil.rmtree),
            ("a file", lambda path: (shutil.rmtree(path), pathlib.Path(path).write_bytes(b""))),
            ("renamed", lambda path: os.rename(path, path + " before")),
        ):
            expected = STORE_FAULT if name == "a file" else BAD_FILE
            self.goes(f"an empty folder is {name}", self.dcpi.folder(), take, STORE_FAULT)
            self.goes(f"a folder is {name}", self.dcpi.folder(EPOCHS), take, expected)

    def goes(self, name, folder, take, expected):
        """A replay whose folder goes away before the trace is at its end."""
        pipes = {"stdin": subprocess.PIPE, "stdout": subprocess.PIPE, "stderr": subprocess.PIPE}
        with subprocess.Popen([self.dcpi.program, "replay", folder], **pipes) as running:
            running.stdin.write(EPOCHS[:40])
            running.stdin.flush()
            time.sleep(0.5)
            take(folder)
            out, err = running.communicate(EPOCHS[40:], timeout=SECONDS)
        status = running.returncode
        wrong = f"status {status}, not {expected}: {err.decode()}"
        problem = "" if status == expected and out == b"" else wrong
        self.tried.add(f"status {status}:", f"{name} in the midst", problem)

    def run(self):
        """All of them."""
        self.no_folders()
        self.closed_folders()
        self.full_disks()
        self.other_entries()
        self.pipes()
        self.linked_profiles()
        self.entries_aside()
        self.going_away()
        return self.tried.report()


def contents(folder):
    """The entries of a folder: the bytes of each regular file, nothing of what is none."""
    return {
        entry.name: entry.read_bytes() if entry.is_file() and not entry.is_symlink() else None
        for entry in folder.iterdir()
    }
