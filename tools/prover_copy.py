"""Copies of crates in which wrong variants are checked, one at a time, over the prover's incremental folder."""

import argparse
import fcntl
import queue
import re
import shutil
import subprocess
import sys
from multiprocessing.pool import ThreadPool
from pathlib import Path

from prover_log import judged

ROOT = Path(__file__).resolve().parent.parent
# Where copies stand: in a folder that git ignores.
WORKPLACE = ROOT / "target"
EDITS = "must-fail"
# What the prover keeps of a crate, in the crate's folder.
KEPT = "out"
# A crate that another stands on and that is not proved.
UNPROVED_CRATE = re.compile(r"^rt: the library (\w+) did not build", re.M)


class CannotCheck(Exception):
    """Why no variant can be checked, and what to do: told before the tool ends with exit status 2."""


def need_prover():
    """Fails with CannotCheck where the prover is missing."""
    if not shutil.which("rt"):
        raise CannotCheck("'rt' is missing: install the Rattle kit and put its bin folder on PATH")


def jobs_named(text):
    """The number of jobs that a text names. Fails with ArgumentTypeError."""
    if not text.isdecimal() or int(text) < 1:
        raise argparse.ArgumentTypeError(f"found {text!r}: expected a number of jobs, 1 or more")
    return int(text)


def listed(root):
    """The crates of crates.txt in its order, each with the names that it stands on."""
    rows = [row.partition("#")[0].partition(":") for row in (root / "crates.txt").read_text("utf-8").splitlines()]
    return {name.strip(): below.split() for name, colon, below in rows if colon}


def standing_on(crate, crates):
    """A crate and all those of the repository that it stands on; `crates` are those that are listed."""
    found = []
    wanted = [crate]
    while wanted:
        name = wanted.pop()
        if name in crates and name not in found:
            found.append(name)
            wanted += crates[name]
    return found


def below(folder):
    """The paths below a folder by their names in it, but for the must-fail edits and what the prover keeps."""
    found = {path.relative_to(folder): path for part in folder.glob("*") if part.name not in (EDITS, KEPT) for path in (part, *part.rglob("*"))}
    return dict(sorted(found.items(), reverse=True))


def files_of(folder):
    """Those of them that are files."""
    return {name: path for name, path in below(folder).items() if path.is_file()}


def mirror(source, target):
    """Makes the files below a folder those of another: removes what is gone, writes what is new or differs."""
    wanted = files_of(source)
    for name, path in files_of(target).items():
        if name not in wanted:
            path.unlink()
    for folder in below(target).values():
        if folder.is_dir() and not any(folder.iterdir()):
            folder.rmdir()
    for name, path in wanted.items():
        write(target / name, path.read_bytes())


def write(file, data):
    """Gives a file these bytes, if it has others or is not there."""
    if not file.is_file() or file.read_bytes() != data:
        file.parent.mkdir(parents=True, exist_ok=True)
        file.write_bytes(data)


class Copy:
    """A copy of some crates and of those below them."""

    def __init__(self, folder):
        self.folder = folder
        self.faults = {}
        self.lock = None

    def take(self):
        """Takes the copy for this run; false if another run has it."""
        self.folder.parent.mkdir(parents=True, exist_ok=True)
        self.lock = open(self.folder.with_suffix(".lock"), "w")
        try:
            fcntl.flock(self.lock, fcntl.LOCK_EX | fcntl.LOCK_NB)
        except OSError:
            self.lock.close()
            return False
        return True

    def update(self, root, wanted, fresh):
        """Brings these crates up to date with the working tree, or copies them anew. What the prover made of them stays."""
        if fresh:
            shutil.rmtree(self.folder, ignore_errors=True)
        crates = listed(root)
        for folder in (self.folder / "crates").glob("*"):
            if folder.name not in crates:
                shutil.rmtree(folder)
        for crate in {name for one in wanted for name in standing_on(one, crates)}:
            mirror(root / "crates" / crate, self.folder / "crates" / crate)
        there = {path.name for path in (self.folder / "crates").glob("*")}
        rows = [f"{name}: {' '.join(below)}".rstrip() + "\n" for name, below in crates.items() if name in there]
        write(self.folder / "crates.txt", "".join(rows).encode())

    def run(self, crate):
        """Exit status and log of the prover's check of a crate."""
        folder = self.folder / "crates" / crate
        done = subprocess.run(["rt", "check"], cwd=folder, stdout=subprocess.PIPE, stderr=subprocess.STDOUT)
        return done.returncode, done.stdout.decode("utf-8", "replace")

    def prove(self, crate):
        """Proves a crate as it stands, once. Fails with CannotCheck."""
        if crate not in self.faults:
            self.faults[crate] = self.fault(crate)
        if self.faults[crate]:
            raise CannotCheck(self.faults[crate])

    def fault(self, crate):
        """Why a crate is not proved as it stands; empty if it is."""
        if not (self.folder / "crates" / crate / KEPT).exists():
            print(f"{self.folder.relative_to(ROOT)}: proving crate '{crate}' for the first time there", file=sys.stderr)
        code, log = self.run(crate)
        name = (UNPROVED_CRATE.findall(log) or [crate])[0]
        said = f"the crate '{name}' is not proved as it stands ({judged(code, log).said()}): mend it first, with 'rt check' in crates/{name}"
        return said if code != 0 else ""

    def check(self, crate, changes):
        """The verdict on a variant of a crate, and the log: `changes` has the new texts of files."""
        self.prove(crate)
        before = {name: (self.folder / name).read_bytes() for name in changes}
        try:
            for name, text in changes.items():
                (self.folder / name).write_bytes(text.encode())
            code, log = self.run(crate)
        finally:
            for name, data in before.items():
                (self.folder / name).write_bytes(data)
        return judged(code, log), log


def copies_in(work, count, wanted, fresh=False):
    """So many copies of some crates, up to date, of those in a folder that no other run has. Fails with CannotCheck."""
    found = []
    number = 0
    try:
        while len(found) < count:
            copy = Copy(work / str(number))
            if copy.take():
                copy.update(ROOT, wanted, fresh)
                found.append(copy)
            number += 1
    except OSError as error:
        raise CannotCheck(f"the crates cannot be copied: {error.filename}: {error.strerror}; try again") from None
    return found


def shared_out(tasks, copies, work):
    """What `work` gives for a copy and a task, as it comes: each copy takes one task after another."""
    free = queue.SimpleQueue()
    for copy in copies:
        free.put(copy)

    def one(task):
        copy = free.get()
        try:
            return work(copy, task)
        finally:
            free.put(copy)

    pool = ThreadPool(len(copies))
    try:
        yield from pool.imap_unordered(one, tasks)
    finally:
        pool.terminate()
        pool.join()
