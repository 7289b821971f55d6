#!/usr/bin/env python3
"""Lists the places in the crates' src/ where a form of the older language may stand: one a row, under the point of docs/DESIGN-PASS.md that
it belongs to. Run: python3 tools/places.py [COMMIT] (without one, the checkout as it is)."""

import re
import subprocess
import sys
from collections import defaultdict
from pathlib import Path

sys.dont_write_bytecode = True

ROOT = Path(__file__).resolve().parent.parent
# The first row of a function: its indentation and its name.
BEGINNING = re.compile(r"( *)(?:pub(?:\(crate\))? )?(?:final )?fn (\w+)")
# A loop over a range, and its number.
RANGE = re.compile(r"^( *)for (\w+) in \(?0(?:u8|u32|usize)?\.\.")
COMMENT = re.compile(r"//[^\n]*")
WORD = re.compile(r"[A-Za-z_]\w*|\d\w*")
# Words that make a function's shape; every other name and number may differ between twins.
SHAPE = {"let", "mut", "if", "else", "for", "in", "while", "match", "return", "self", "Self", "loop", "as"}
# The least length of twins, in words and signs of the body.
LEAST = 14

LINES = {
    1: {
        "an enum of the shape of Option or Result, or with refusals": r"^(?:pub(?:\(crate\))? )?enum \w+",
        "a number for a refusal or a kind": r"\bnumber: u8\b|Refused\(u8\)|\bkind: u8\b|-> (?:Found|Fault)\b"
        r"|const (?:LIST_LENGTH|VERSION|TAPE_END|BAD_STATE|LINE_CLOCK|BUFFER_LENGTH|CLOCK_OVER|CLOCK_ORDER|UNKNOWN_REGISTER|NO_SUCH_OBJECT|COLOUR_LENGTH): u8",
    },
    3: {
        "a loop with a condition": r"^\s*while (?!let\b)",
    },
    4: {
        "a conversion by `as`": r"\bas (?:u8|u16|u32|u64|usize)\b",
        "a number put together from its bytes": r"\b(?:256|65536) \*|\* (?:256|65536|4294967296)\b",
        "digits by hand": r"b'[0A]' \+",
        "a zero of a start by hand": r"^\s*\w+: (?:0|false),$",
    },
    6: {
        "a room with a place or a length beside it": r"\bout: &mut \[u8; \d+\]|\broom: \[u8; \d+\]|\broom\[(?:\.\.|0\.\.)|\bspace\b.*\[u8|&\w+\[0\.\.\w+\]",
    },
    7: {
        "a number that says which step is run": r"^\s*match kind\b",
    },
}


def sources(commit):
    """The text of each file of src/, by its path."""
    if commit is None:
        return {str(path.relative_to(ROOT)): path.read_text("utf-8") for path in sorted(ROOT.glob("crates/*/src/*.rt"))}
    listed = subprocess.run(["git", "-C", str(ROOT), "ls-tree", "-r", "--name-only", commit, "crates"], check=True, capture_output=True, text=True)
    paths = [path for path in listed.stdout.split() if re.fullmatch(r"crates/\w+/src/\w+\.rt", path)]
    show = lambda path: subprocess.run(["git", "-C", str(ROOT), "show", f"{commit}:{path}"], check=True, capture_output=True, text=True).stdout
    return {path: show(path) for path in paths}


def functions(text):
    """Name, parameters, clauses and body of each function of a file."""
    rows = COMMENT.sub("", text).splitlines()
    found = []
    for number, row in enumerate(rows):
        begun = BEGINNING.match(row)
        if not begun:
            continue
        closing = begun[1] + "}"
        end = next(at for at in range(number, len(rows)) if rows[at] == closing or rows[at].endswith(";") and at == number)
        opens = lambda at: rows[at] == begun[1] + "{" or rows[at].endswith(" {") and (at == number or rows[at].startswith(begun[1] + ")"))
        opening = next((at for at in range(number, end) if opens(at)), end)
        head = "\n".join(rows[number : opening + 1])
        clause = re.search(r"^ *(?:requires|ensures)", head, re.M)
        at = clause.start() if clause else len(head)
        found.append((begun[2], head[:at], head[at:], "\n".join(rows[opening + 1 : end])))
    return found


def indexing(files):
    """Loops over a range whose number is used as an index."""
    found = []
    for path, text in files.items():
        rows = text.splitlines()
        for number, row in enumerate(rows):
            begun = RANGE.match(row)
            if begun:
                end = rows.index(begun[1] + "}", number)
                if re.search(rf"\[{begun[2]}\]", "\n".join(rows[number:end])):
                    found.append(f"{path}:{number + 1}: {row.strip()}")
    return found


def shape(body):
    """A body with every name and number made alike."""
    return tuple(
        word if word in SHAPE or not WORD.fullmatch(word) else "x" for word in re.findall(r"[A-Za-z_]\w*|\d\w*|[^\s\w]", body)
    )


def twins(files):
    """Groups of functions of the same shape."""
    groups = defaultdict(list)
    for path, text in files.items():
        for name, _, _, body in functions(text):
            if len(shape(body)) >= LEAST:
                groups[shape(body)].append(f"{path}: {name}")
    return [", ".join(group) for group in groups.values() if len(group) > 1]


def travelling(files):
    """Groups of three or more parameters that three or more functions take together."""
    takers = defaultdict(set)
    for path, text in files.items():
        for name, parameters, _, _ in functions(text):
            taken = sorted(set(re.findall(r"(\w+): ", parameters)))
            for i, one in enumerate(taken):
                for j in range(i + 1, len(taken)):
                    for k in range(j + 1, len(taken)):
                        takers[one, taken[j], taken[k]].add(f"{path}: {name}")
    groups = defaultdict(list)
    for names, there in takers.items():
        if len(there) > 2:
            groups[tuple(sorted(there))].append(names)
    return [f"{sorted({name for names in found for name in names})} in {', '.join(there)}" for there, found in groups.items()]


def repeated(files):
    """Facts that three or more functions require."""
    askers = defaultdict(set)
    for path, text in files.items():
        for name, _, clauses, _ in functions(text):
            for clause in re.findall(r"requires(?: \w+)? \{ (.*) \}", clauses):
                for fact in re.split(r" × ", clause):
                    askers[re.sub(r"\w+(?:\.\w+)*\.(h|slot)\b", r"\1", fact.strip("() "))].add(f"{path}: {name}")
    return [f"{fact} in {', '.join(sorted(there))}" for fact, there in askers.items() if len(there) > 2]


def places(files):
    """The places of each point, in its kinds."""
    found = {point: {kind: [] for kind in kinds} for point, kinds in LINES.items()}
    for path, text in files.items():
        for number, row in enumerate(text.splitlines(), 1):
            for point, kinds in LINES.items():
                for kind, pattern in kinds.items():
                    if re.search(pattern, row.split("//")[0].rstrip()):
                        found[point][kind].append(f"{path}:{number}: {row.strip()}")
    found[2] = {"functions of one shape": twins(files)}
    found[3]["a loop over a range that indexes by its number"] = indexing(files)
    found[5] = {"parameters that travel together": travelling(files), "a fact that three or more require": repeated(files)}
    return found


def main():
    found = places(sources(sys.argv[1] if len(sys.argv) > 1 else None))
    for point in sorted(found):
        for kind, there in found[point].items():
            print(f"{point}. {kind}: {len(there)}")
            for place in there:
                print(f"    {place}")


if __name__ == "__main__":
    main()
