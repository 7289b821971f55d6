"""What the prover's log says of a wrong variant of the code."""

import re
from dataclasses import dataclass

# What is said of a place: its file and line, the kind of error if the compiler says it, and the message, whose further rows are
# indented.
OBJECTION = re.compile(r"^(?!so far: )(.+?):(\d+):\d+: error((?:\[[\w-]+\])?): (.*(?:\n  .*)*)", re.M)
# What stands before a message: the declaration that it is about, and a name in it.
ABOUT = r"(?:`[^`]*`: )"
# A message that only follows from another.
CONSEQUENCE = re.compile(ABOUT + r"*`[^`]*` (?:cannot be unfolded because it )?was not admitted|\d+ declarations? that depends? on `|this file exports no `")
# The text names what is not there, or hands over what is not asked for: it no longer fits the code or the definitions.
MISFIT = re.compile(
    ABOUT + r"*(?:(?:module|record) `[^`]*` has no (?:field )?`"
    r"|`[^`]*` is not a field of record"
    r"|`[^`]*` is not in scope\b(?! here)|no constructor `[^`]*` is in scope"
    r"|[\w` ]*needs a function (?:\(or path\) )?type to bind"
    r"|[^`]*(?:`[^`]*`)? (?:takes \d+ arguments|too many arguments))"
)
# A function with facts that no answer proves and that the prover does not prove by itself: where the first of these facts is asked
# for, the function, the file that answers would stand in, and the facts.
UNPROVED = re.compile(
    r"^(?:note: (.+?\.rt:\d+):\d+: .*\n(?:(?!fn |struct |enum ).*\n)*)?"
    r"fn (\S+): no proof: expected [\w ]+ in (.+?)(?:; (`search` did not prove (?:`[^`]*`(?:, )?)+))?(?:; it calls .*)?$",
    re.M,
)
# The modules before a name that is written in full, and the steps back from a place of the code.
MODULES = re.compile(r"(?<![\w·/.])(?:Rattle|mathlib|lib|Prim|native|borrow|denote|types)\.(?:[\w·'+-]+\.)*(?=[^\s.`])")
STEPS_BACK = re.compile(r"(?:\.before)+")


@dataclass(frozen=True)
class Objection:
    """What is said of one place: its file in the crate and line, and the message."""

    where: str
    message: str

    def plain(self):
        """The message, the prover's without the modules of its names."""
        from_compiler = self.message.startswith("[")
        return self.message if from_compiler else STEPS_BACK.sub(".before", MODULES.sub("", self.message))

    def kind(self):
        """What it shows, as an outcome: a fact that does not hold, a proof that no longer fits, or nothing to prove."""
        if MISFIT.match(self.message):
            return "hollow" if self.where.startswith("proofs/") else "no program"
        readable = re.match(ABOUT, self.message) and not self.where.startswith("src/")
        return "refused" if readable else "no program"


@dataclass(frozen=True)
class Verdict:
    """What became of a variant: `refused` (a fact does not hold), `hollow` (a proof no longer fits the code: it shows nothing),
    `passed`, `no program` (the code, a contract or a definition cannot be read) or, where the log does not tell, `unknown`; the
    prover's first error; and where, after a fact that does not hold, a proof no longer fits."""

    outcome: str
    where: str = ""
    message: str = ""
    misfit: str = ""

    def said(self, longest=200):
        """The verdict in one row, with so many characters of the message."""
        return ": ".join(part for part in (self.outcome, self.where, shortened(self.message, longest)) if part)


def shortened(message, longest):
    """The start of a message."""
    return message if len(message) <= longest else message[: longest - 2] + ".."


def in_crate(file):
    """A file's name in its crate."""
    return re.sub(r"^(?:.*/crates/\w+/|\./)", "", file)


def objections(log):
    """What the log says of places, but for what only follows from something else."""
    found = (Objection(f"{in_crate(m[1])}:{m[2]}", " ".join(f"{m[3]} {m[4]}".split())) for m in OBJECTION.finditer(log))
    return [objection for objection in found if not CONSEQUENCE.match(objection.message)]


def judged(code, log):
    """The verdict that the prover's exit status and log give."""
    if code == 0:
        return Verdict("passed")
    found = objections(log) if code == 1 else []
    if found:
        first, *later = found
        misfit = next((other.where for other in later if other.kind() == "hollow"), "")
        return Verdict(first.kind(), first.where, first.plain(), misfit if first.kind() == "refused" else "")
    unproved = list(UNPROVED.finditer(log)) if code == 1 else []
    return without_proof(unproved) if unproved else Verdict("unknown", "", f"exit status {code}{last_row(log)}")


def without_proof(unproved):
    """The verdict on a variant in which only functions without a proof of their own are not proved."""
    place, name, file, facts = next((m.groups() for m in unproved if m[4]), unproved[0].groups())
    if facts:
        return Verdict("refused", in_crate(place or file), f"fn {name}: no proof: {facts}")
    return Verdict("hollow", in_crate(file), f"fn {name}: no proof: the prover asks for one in a file")


def last_row(log):
    """The log's last row, to be set after the exit status."""
    rows = log.split("\n")
    return next((f": {row.strip()}" for row in reversed(rows) if row.strip()), "")
