#!/usr/bin/env python3
"""Brings the names of this repository's own definitions and laws to snake case, once, after port.py and before its result is committed.

usage: python3 tools/snake_names.py     at the top of the repository

Types, facts and modules keep upper camel case; every other name that specs/ or proofs/ declares has underscores, as `stepAnswer` and
`card-agrees` become `step_answer` and `card_agrees`; a law that would get the name of a definition has `_lem` behind it. Names turn as whole
words in .antt and .rt files, in must-fail edits and in the code spans of the pages. Names of source functions, generated names and names of the
library stay. A name that would meet another in a file is printed, and nothing is written then.
"""

import collections
import os
import re
import subprocess

WORD = r"[^\s(){}.;,@\"«»`]+"
DECLARED = re.compile(
    r"(?m)^ *(?:(?:abbrev|unfoldable|pub|record|data|opaque|let) )*([^\s(){}.;,@\"«»]+(?: [a-z][^\s(){}.;,@\"«»:]*)*)((?: [({][^{}()\n]*[)}])*) :(?!:)(.*)$"
)
ODD = re.compile(r"[a-z0-9₀-₉'][A-Z]|-")
DOCS = ("DECISIONS", "PROMISES", "REFUSALS", "TRACE", "VALIDATION", "SPEED")
PAGES = ("README.md", "CONTRIBUTING.md", *(f"docs/{name}.md" for name in DOCS), "second/README.md")
# Names that would fall together with a word of the library or with another name, and what they are called.
INSTEAD = {"recordOf": "record_bytes_of", "fourBytes": "four_bytes_of", "extra-pulses": "extra_pulses_of", "first-lit": "first_lit_in"}


def in_snake_case(name):
    """A name with underscores."""
    words = re.sub(r"(?<=[a-z0-9₀-₉'])[A-Z]+", lambda m: "_" + m[0].lower(), name)
    return words.replace("-", "_")


def declared(text, of_a_function):
    """The names that a file declares, those of a function's goals left out."""
    for m in DECLARED.finditer(text):
        if of_a_function and (m[3].lstrip().startswith(("tie.", "goal.")) or "statement M" in m[3] or m[3].lstrip().startswith("{M")):
            continue
        for name in m[1].split():
            if ODD.search(name) and re.match(r"[a-z]", name) and re.fullmatch(r"[\w'-]+", name):
                yield name


def is_of_a_function(path):
    """Whether a file belongs to the proof of one function."""
    parts = path.split("/")
    return "proofs" in parts and len(parts) - parts.index("proofs") > 2


def git(*words):
    """What a command of git prints."""
    return subprocess.run(["git", *words], capture_output=True, text=True, check=True).stdout


def files():
    """The texts of the crates."""
    for folder, dirs, names in os.walk("crates"):
        dirs[:] = sorted(d for d in dirs if d != "out")
        for name in sorted(names):
            if name.endswith((".antt", ".rt", ".edit")):
                yield os.path.join(folder, name)


def read(path):
    """A file's text."""
    with open(path, encoding="utf-8") as f:
        return f.read()


def table():
    """The names to turn, each with its new spelling: those of the tree and those of the last commit, which port.py may have turned."""
    names = set()
    for path in files():
        if path.endswith(".antt"):
            names.update(declared(read(path), is_of_a_function(path)))
    for path in git("ls-files", "crates").splitlines():
        if path.endswith(".antt"):
            names.update(declared(git("show", "HEAD:" + path), is_of_a_function(path)))
    defined = {in_snake_case(n) for n in names if "-" not in n}
    new = {n: in_snake_case(n) for n in names}
    return {n: INSTEAD.get(n, s + "_lem" if "-" in n and s in defined else s) for n, s in new.items()}


def turned(text, names, behind):
    """The text with the names turned, as whole words; `behind`: also behind a dot that follows a name of one letter."""

    def put(m):
        if not behind and re.search(r"(?<![\w'.])(?:[a-z]|tie|goal)(?:\.[^\s(){},;]*)?\.$", text[max(0, m.start() - 80) : m.start()]):
            return m[0]
        return names.get(m[0], m[0])

    return re.sub(WORD, put, text)


def turned_spans(text, names):
    """A page's text with the names turned in its code spans."""
    return re.sub(r"`[^`\n]+`", lambda m: re.sub(r"[\w'-]+", lambda w: names.get(w[0], w[0]), m[0]), text)


def main():
    """Turns the names; exit status 1 if two would meet."""
    names = table()
    words = collections.defaultdict(set)
    for path in files():
        if not path.endswith(".edit"):
            for w in set(re.findall(WORD, read(path))):
                words[w].add(path)
    meets = 0
    by_new = collections.defaultdict(set)
    for old, new in names.items():
        by_new[new].add(old)
    for new, olds in sorted(by_new.items()):
        laws = [p for p in words.get(new, ()) if p.endswith(".antt") and not is_of_a_function(p)]
        both = [p for p in laws if any(p in words.get(old, ()) for old in olds)]
        if len(olds) > 1 or both:
            print("meets:", new, sorted(olds), both[:4])
            meets += 1
    if meets:
        return 1
    for path in files():
        text = read(path)
        new = turned(text, names, not is_of_a_function(path))
        if new != text:
            with open(path, "w", encoding="utf-8") as f:
                f.write(new)
    for path in PAGES:
        if os.path.exists(path):
            text = read(path)
            new = turned_spans(text, names)
            if new != text:
                with open(path, "w", encoding="utf-8") as f:
                    f.write(new)
    return 0


if __name__ == "__main__":
    raise SystemExit(main())
