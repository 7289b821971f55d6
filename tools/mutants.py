"""Small wrong variants of Rattle code: one operator, constant, operand or condition of one function changed, or an entry of a table."""

import random
import re
from dataclasses import dataclass

FUNCTION = re.compile(r"^( *)(?:pub(?:\(crate\))? )?fn (\w+)(?:<[^>]*>)?\(")
OWNER = re.compile(r"^impl (?:\w+(?:<\w+>)? for )?(\w+) \{")
CONSTANT = re.compile(r"^(?:pub(?:\(crate\))? )?const (\w+): (\w+) = (\w+);")
# A case of an enum with its number.
CASE = re.compile(r"^    (\w+) = (\d+),$", re.M)
TABLE = re.compile(r"^(?:pub(?:\(crate\))? )?const (\w+): \[u8; \w+\] = \[\n(.*?)^\];", re.M | re.S)
ENTRY = re.compile(r"\b0b([01]+),")
FIELD = re.compile(r"^    (?:pub(?:\(crate\))? )?(\w+): ([\w\[\]; ]+),$")
PARAMETER = re.compile(r"(\w+): (u8\b|u32\b|usize\b|bool\b|&(?:mut )?\[u8\])")
TOKEN = re.compile(r"0x[0-9A-Fa-f]+|\d+|\w+|<=|>=|==|!=|<<|>>|=>|->|\+=|&&|\|\||\.\.=|\.\.|::|[-+*/%&|!<>.]")
# What a file takes from another of its crate.
IMPORTS = re.compile(r"^use crate::\w+::(\w+|\{[^}]*\});", re.M)
# A comparison in brackets, without further brackets inside.
CONDITION = re.compile(r"\((?!\()[^()]*(?:==|!=| <= | >= | < | > )[^()]*\)")
# A comment to the end of its row.
COMMENT = re.compile(r"//[^\n]*")
# What an `if` asks.
BRANCH = re.compile(r"\bif ([^{]+) \{")

OPERATORS = {
    "<": "<=", "<=": "<", ">": ">=", ">=": ">", "==": "!=", "!=": "==",
    "+": "-", "-": "+", "*": "+", "/": "*", "%": "/", "&": "|", "|": "&", "&&": "||", "||": "&&", ">>": "<<",
    "true": "false", "false": "true",
}  # fmt: skip


@dataclass(frozen=True)
class Mutant:
    """One change: `kind` of it, in `file` and `function`, at `line`; `start` to `end` of the file becomes `new`."""

    file: str
    function: str
    line: int
    kind: str
    start: int
    end: int
    old: str
    new: str


@dataclass(frozen=True)
class Body:
    """A function's code without its contract: its place in the file, and its parameters by name."""

    file: str
    name: str
    start: int
    end: int
    parameters: dict


def bodies(file, text):
    """The functions of a file. A contract ends at a line that is only a bracket, if there is one."""
    found = []
    owner = ""
    lines = text.splitlines(keepends=True)
    starts = [0]
    for line in lines:
        starts.append(starts[-1] + len(line))
    for i, line in enumerate(lines):
        of = OWNER.match(line)
        if of:
            owner = of[1] + "::"
        elif line.startswith("}"):
            owner = ""
        head = FUNCTION.match(line)
        if not head:
            continue
        indent = head[1]
        first = i + 1
        if not line.rstrip().endswith("{"):
            while lines[first].rstrip("\n") != indent + "{" and not re.match(rf"{indent}\).* \{{$", lines[first]):
                first += 1
            first += 1
        last = first
        while lines[last].rstrip("\n") != indent + "}":
            last += 1
        name = f"{owner}{head[2]}"
        found.append(Body(file, name, starts[first], starts[last], dict(PARAMETER.findall("".join(lines[i:first])))))
    return found


def fields(texts):
    """The fields of every struct that have a sibling of the same type: name to the siblings' names."""
    siblings = {}
    for text in texts.values():
        for struct in re.findall(r"struct \w+ \{\n(.*?)\n\}", text, re.S):
            types = {m[1]: m[2] for m in (FIELD.match(line) for line in struct.split("\n")) if m}
            for name, kind in types.items():
                others = [other for other, same in types.items() if same == kind and other != name]
                siblings.setdefault(name, []).extend(o for o in others if o not in siblings.get(name, []))
    return siblings


def constants(texts):
    """The named constants: name to its file, type, value and place, in the order of the files."""
    found = {}
    for file, text in texts.items():
        offset = 0
        for number, line in enumerate(text.splitlines(keepends=True), 1):
            m = CONSTANT.match(line)
            if m:
                found[m[1]] = (file, number, m[2], m[3], offset + m.start(3), offset + m.end(3))
            offset += len(line)
    return found


def neighbour(name, table, file, text):
    """Of the constants that a file's text can name, the one of the same type that is declared next after this, else before."""
    named = {name for names in IMPORTS.findall(text) for name in re.findall(r"\w+", names)}
    kind = table[name][2]
    same = [other for other, entry in table.items() if entry[2] == kind and (other in named or entry[0] == file)]
    if name not in same:
        return None
    at = same.index(name)
    others = same[at + 1 :] + same[:at][::-1]
    return others[0] if others else None


def numbers(token):
    """Other numbers than a literal's: one more, and one less where there is one."""
    value = int(token, 0)
    return [str(value + 1)] + ([str(value - 1)] if value > 0 else [])


def replacements(token, before, after, body, siblings, others):
    """What a token can become, with the kind of the change; `before` and `after` are the code around it. `others` has for each
    named constant another."""
    if re.fullmatch(r"0x[0-9A-Fa-f]+|\d+", token):
        return [("constant", new) for new in numbers(token)]
    if token == "!":
        return [("dropped negation", "")]
    if token in OPERATORS:
        spaced = token in ("true", "false") or (before.endswith(" ") and after.startswith((" ", "\n")))
        return [("operator", OPERATORS[token])] if spaced else []
    if token in others:
        return [("constant", others[token])]
    if before.endswith(".") and not after.startswith("("):
        return [("operand", other) for other in siblings.get(token, [])]
    if token in body.parameters and not before.endswith(".") and not after.startswith(("(", ":")):
        return of_parameter(token, body.parameters)
    return []


def of_parameter(name, parameters):
    """What a parameter can become: another of its type; a condition also true or false, a number without another also 0."""
    kind = parameters[name]
    others = [("operand", other) for other, same in parameters.items() if same == kind and other != name]
    if kind == "bool":
        return others + [("dropped condition", "true"), ("dropped condition", "false")]
    return others or ([] if kind.startswith("&") else [("constant", "0")])


def of_body(body, text, siblings, table):
    """Every mutant of a function. Its comments are left alone."""
    made = []
    text = COMMENT.sub(lambda comment: " " * len(comment[0]), text)

    def add(kind, start, end, new):
        line = text.count("\n", 0, start) + 1
        made.append(Mutant(body.file, body.name, line, kind, start, end, text[start:end], new))

    named = {name: neighbour(name, table, body.file, text) for name in table}
    others = {name: other for name, other in named.items() if other}
    for m in TOKEN.finditer(text, body.start, body.end):
        before, after = text[body.start : m.start()], text[m.end() : body.end]
        for kind, new in replacements(m[0], before, after, body, siblings, others):
            add(kind, m.start(), m.end(), new)
    for m in CONDITION.finditer(text, body.start, body.end):
        if text[m.start() - 1] in " (!":
            add("dropped condition", m.start(), m.end(), "true")
            add("dropped condition", m.start(), m.end(), "false")
    for m in BRANCH.finditer(text, body.start, body.end):
        add("negated condition", m.start(1), m.end(1), f"!({m[1]})")
    return made


def of_constants(table):
    """A mutant of each named constant of numbers: one more."""
    return [
        Mutant(file, f"const {name}", line, "constant", start, end, value, numbers(value)[0])
        for name, (file, line, _, value, start, end) in table.items()
        if re.fullmatch(r"0x[0-9A-Fa-f]+|\d+", value)
    ]


def of_cases(texts):
    """A mutant of each numbered case of an enum: a number over those of all cases of its file."""
    return [
        Mutant(file, f"case {case[1]}", text.count("\n", 0, case.start()) + 1, "number", *case.span(2), case[2], over)
        for file, text in texts.items()
        for over in [str(max((int(case[2]) for case in CASE.finditer(text)), default=0) + 1)]
        for case in CASE.finditer(text)
    ]


def of_tables(texts):
    """The mutants of each table of bytes: two bits of an entry exchanged."""
    return [
        Mutant(file, f"const {table[1]}", text.count("\n", 0, entry.start()) + 1, "entry", *entry.span(1), entry[1], exchanged(entry[1]))
        for file, text in texts.items()
        for table in TABLE.finditer(text)
        for entry in ENTRY.finditer(text, *table.span(2))
        if len(set(entry[1])) > 1
    ]


def exchanged(bits):
    """A string of bits with the first two that differ, side by side, exchanged."""
    at = next(at for at in range(len(bits)) if bits[at] != bits[at + 1])
    return bits[:at] + bits[at + 1] + bits[at] + bits[at + 2 :]


def in_turn(made, seed):
    """The mutants of one function in a fixed random order that takes each kind of change in turn."""
    shuffled = sorted(made, key=lambda m: (m.start, m.new))
    random.Random(seed).shuffle(shuffled)
    kinds = {}
    for mutant in shuffled:
        kinds.setdefault(mutant.kind, []).append(mutant)
    ordered = []
    while any(kinds.values()):
        ordered.extend(of_kind.pop() for of_kind in kinds.values() if of_kind)
    return ordered


def of_files(texts, seed):
    """The mutants of every function, constant, numbered case and table of some files (name to text): function to its mutants in turn."""
    siblings, table = fields(texts), constants(texts)
    found = {}
    for file, text in texts.items():
        for body in bodies(file, text):
            made = of_body(body, text, siblings, table)
            found.setdefault((file, body.name), []).extend(made)
    for mutant in of_constants(table) + of_cases(texts):
        found[(mutant.file, mutant.function)] = [mutant]
    for mutant in of_tables(texts):
        found.setdefault((mutant.file, mutant.function), []).append(mutant)
    return {key: in_turn(made, f"{seed} {key}") for key, made in found.items()}


def applied(mutant, text):
    """The file's text with the change made."""
    return text[: mutant.start] + mutant.new + text[mutant.end :]
