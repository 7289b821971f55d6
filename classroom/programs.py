"""The proved programs: built when they are missing or older than their sources, and what they answer."""

import contextlib
import fcntl
import os
import re
import select
import shutil
import subprocess
import sys
import time
from pathlib import Path

from classroom.command import Failure
from classroom.lines import Replay, lines_of

PROJECT = Path(__file__).resolve().parent.parent
BIN = PROJECT / "target/bin"
CRATES = PROJECT / "crates.txt"
PROGRAMS = ("line_bytes", "listing", "clock_bytes", "card_bytes")
PROVED = re.compile(r"rt: (\w+) proved(?: \((\d+) s\))?")
BAR = 24  # characters of the bar, with which a row has room on 80 columns
NO_RT = "'rt' is missing: install the Rattle kit and put its bin folder on PATH; it proves and builds the programs"


def replay(tape):
    """What the programs say of a tape. Fails with Failure, also where they run different lines."""
    build()
    try:
        lines = lines_of(answer("line_bytes", tape))
    except ValueError as error:
        raise Failure(f"target/bin/line_bytes: {error}") from None
    *rows, last = listing(tape).splitlines() or [""]
    if len(lines) != len(rows[1:]):
        raise Failure(f"the programs disagree: line_bytes ran {len(lines)} lines, listing {len(rows[1:])}")
    return Replay(lines, last)


def listing(tape):
    """The listing of a tape as text. Fails with Failure."""
    build()
    return answer("listing", tape).decode("ascii", "replace")


def clock_bytes(tape, number):
    """The records of the clocks of a tape's line, as one string of bytes; none for a line that is not run. Fails with Failure."""
    build()
    return answer("clock_bytes", number.to_bytes(2, "big") + tape)


def card_bytes():
    """The bytes of both classroom cards. Fails with Failure."""
    build()
    return answer("card_bytes", b"")


def answer(program, data):
    """What a built program writes for its input. Fails with Failure where it does not end well."""
    try:
        done = subprocess.run([BIN / program], input=data, stdout=subprocess.PIPE, check=False)
    except OSError as error:
        raise Failure(f"target/bin/{program}: {error.strerror}") from None
    if done.returncode != 0:
        raise Failure(f"target/bin/{program} failed with status {done.returncode}")
    return done.stdout


def build():
    """Makes sure that the programs are built from the sources that are there. Fails with Failure."""
    if not is_stale():
        return
    if shutil.which("rt") is None:
        if not missing():
            print("the programs are older than their sources, and 'rt' is missing: they are used as they are", file=sys.stderr)
            return
        raise Failure(NO_RT)
    with open(CRATES, encoding="ascii") as lock:
        take(lock)  # of several calls at once, one builds
        if is_stale():
            prove()


def missing():
    """The programs that are not built."""
    return [program for program in PROGRAMS if not (BIN / program).exists()]


def take(lock):
    """Takes the lock on an open file, and says so where it must wait for it."""
    try:
        fcntl.flock(lock, fcntl.LOCK_EX | fcntl.LOCK_NB)
    except BlockingIOError:
        print("the programs are being built by another call: waiting for it", file=sys.stderr)
        fcntl.flock(lock, fcntl.LOCK_EX)


def is_stale():
    """Whether a program is missing or older than a source."""
    if missing():
        return True
    newest = max(path.stat().st_mtime for path in sources())
    return any((BIN / program).stat().st_mtime < newest for program in PROGRAMS)


def sources():
    """The files that the programs are built from."""
    return [CRATES] + [path for crate in crates_of(PROGRAMS) for path in (PROJECT / "crates" / crate / "src").rglob("*.rt")]


def crates_of(programs):
    """The project's crates that these programs stand on, they themselves included."""
    rows = [row.partition(":") for row in CRATES.read_text("ascii").splitlines() if not row.startswith("#")]
    stands_on = {name: rest.split() for name, _, rest in rows}
    found = []
    left = list(programs)
    while left:
        crate = left.pop()
        if crate in stands_on and crate not in found:
            found.append(crate)
            left += stands_on[crate]
    return found


def prove():
    """Proves and builds the programs and says on standard error how far it is. Fails with Failure."""
    total = len(crates_of(PROGRAMS))
    print(f"building the programs: {total} crates are proved first, which may take five minutes", file=sys.stderr)
    begun = time.monotonic()
    command = ["tools/build", *PROGRAMS]
    with subprocess.Popen(command, cwd=PROJECT, stdout=subprocess.PIPE, stderr=subprocess.STDOUT) as process:
        with ended_with(process), Progress(total, sys.stderr) as progress:
            for row in rows_from(process.stdout, progress.tick):
                match = PROVED.match(row)
                if match:
                    progress.proved(match[1])
    if process.returncode != 0:
        raise Failure(f"the programs could not be built: run '{' '.join(command)}' in the folder {PROJECT} to see why")
    if missing():
        raise Failure(f"'{' '.join(command)}' left no {missing()[0]}: remove the folder {PROJECT / 'target'} and call again")
    for program in PROGRAMS:
        os.utime(BIN / program)
    print(f"built in {time.monotonic() - begun:.0f} seconds", file=sys.stderr)


@contextlib.contextmanager
def ended_with(process):
    """Ends a process where what it is used for is broken off."""
    try:
        yield
    except BaseException:
        process.terminate()
        raise


def rows_from(pipe, tick):
    """The rows that come through a pipe, as text; calls tick about once a second while it waits."""
    rest = b""
    while True:
        ready, _, _ = select.select([pipe], [], [], 1)
        tick()
        if not ready:
            continue
        data = os.read(pipe.fileno(), 65536)
        *rows, rest = (rest + data).split(b"\n")
        yield from (row.decode("utf-8", "replace") for row in rows)
        if not data:
            return


class Progress:
    """How far a build is: a bar on a terminal, elsewhere a row for each crate."""

    def __init__(self, total, stream):
        self.total = total
        self.stream = stream
        self.done = []
        self.begun = time.monotonic()

    def __enter__(self):
        self.tick()
        return self

    def __exit__(self, *error):
        if self.stream.isatty():
            self.stream.write("\n")

    def proved(self, crate):
        """Counts a crate that is proved."""
        self.done.append(crate)
        if not self.stream.isatty():
            print(f"  {len(self.done)} of {self.total} crates proved: {crate}", file=self.stream, flush=True)
        self.tick()

    def tick(self):
        """Draws the bar anew."""
        if self.stream.isatty():
            filled = BAR * len(self.done) // self.total
            bar = "#" * filled + "." * (BAR - filled)
            last = f", last {self.done[-1]}" if self.done else ""
            seconds = time.monotonic() - self.begun
            self.stream.write(f"\r  [{bar}] {len(self.done)} of {self.total} crates proved{last}, {seconds:.0f} s\x1b[K")
            self.stream.flush()
