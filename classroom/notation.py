"""The notation of tapes as text: its reader with every mistake of a source, the assembler and the disassembler."""

import difflib
import re
from typing import NamedTuple

from classroom.registers import LEFT_OUT, NAMES, REGISTERS, is_strobe, takes_motion
from classroom.tape_forms import LENGTH, MOST_BYTES, MOST_WRITES, RECORD, pack, unpack

LINE_END = re.compile("\r\n|\r|\n")
WORD = re.compile("[^ \t\xa0]+")
COMMENTS = ("#", "//")  # of other notations
NUMBER = re.compile(r"\$(?P<hexadecimal>[0-9A-Fa-f]+)|%(?P<binary>[01]+)|(?P<decimal>[0-9]+)")
BASES = {"hexadecimal": 16, "binary": 2, "decimal": 10}
SIGNED = re.compile("([+-])0*([0-9])")
NOTHING_MORE = "expected nothing more; a comment begins with ';'"
TOO_LONG = f"here the tape passes {MOST_BYTES:,} bytes, the most that it may have: write fewer lines or fewer repeats"

# Marks of other notations: a number with them, the number without them, and what is wrong.
FOREIGN = (
    (re.compile("[\u2212\u2013\u2014\uff0d]([0-9]+)"), "-{}", "minus is written with '-'"),
    (re.compile("\uff0b([0-9]+)"), "+{}", "plus is written with '+'"),
    (re.compile("#+(.+)"), "{}", "a number is written without '#'"),
    (re.compile("0[xX]0*([0-9A-Fa-f]+)"), "${:0>2}", "hexadecimal is written with '$', not with '0x'"),
    (re.compile("0*([0-9A-Fa-f]+)[hH]"), "${:0>2}", "hexadecimal is written with '$', not with 'h'"),
    (re.compile("0[bB]([01]+)"), "%{}", "binary is written with '%', not with '0b'"),
)


class Wanted(NamedTuple):
    """A number that a row has a place for: its name, all that may stand there, why it has no sign, the lowest number, the
    highest with a meaning and the highest that is taken."""

    name: str
    words: str
    unsigned: str
    least: int
    most: int
    limit: int


UNSIGNED_VALUE = "only the value of a motion register, such as HMM0, has a sign"
CLOCK = Wanted("a clock", "'line', 'repeat', 'end' or a clock", "a clock has no sign", 0, 227, 255)
ADDRESS = Wanted("an address", "an address", "an address has no sign", 0, 255, 255)
VALUE = Wanted("a value", "a value", UNSIGNED_VALUE, 0, 255, 255)
MOTION_VALUE = VALUE._replace(words="a motion value with its sign (-8 to +7) or a value")
TIMES = Wanted("a number of times", "a number of times", "a number of times has no sign", 1, 32767, 32767)


class SourceError(Exception):
    """A mistake in a source: the line of the text, counted from 1, and what was found and expected."""

    def __init__(self, line, message):
        super().__init__(line, message)
        self.line = line
        self.message = message

    def __str__(self):
        return f"{self.line}: {self.message}"


class SourceErrors(Exception):
    """A source that is no tape in the notation: a SourceError for each line of the text that is wrong, in their order."""

    def __init__(self, errors):
        super().__init__(errors)
        self.errors = errors

    def __str__(self):
        return "\n".join(map(str, self.errors))


class Written(NamedTuple):
    """A write of a source: its row in the text, counted from 1, its clock, address and value."""

    row: int
    clock: int
    address: int
    value: int


def source_text(data):
    """The text of a source file's bytes. Fails with SourceError at the first byte that is no UTF-8 text."""
    try:
        return data.decode("utf-8-sig")
    except UnicodeDecodeError as error:
        before = error.object[: error.start].decode("utf-8")
        line = 1 + len(LINE_END.findall(before))
        message = f"found the byte ${error.object[error.start]:02X}: expected UTF-8 text; save it as UTF-8"
        raise SourceError(line, message) from None


def assemble(text, version=1):
    """The tape that a text describes. Fails with SourceErrors, which has every line of the text that is wrong."""
    return packed(parsed(text), version)


def parsed(text):
    """The scanlines that a text describes, each a list of Written, repeats expanded: a scanline that is repeated is the same list
    each time. Fails as assemble does."""
    reader = Reader()
    for row, tokens in rows(text):
        reader.take(row, tokens)
    return reader.scanlines()


def packed(lines, version=1):
    """The tape of scanlines as parsed gives them."""
    return pack(version, [[(clock, address, value) for _, clock, address, value in writes] for writes in lines])


def disassemble(tape):
    """The notation of a tape; assembled, it is the tape again. Fails with TapeError on a tape that is damaged."""
    text = []
    for number, writes in enumerate(unpack(tape)):
        text.append(f"line  ; {number}\n")
        text += [f"  {write_text(*write)}\n" for write in writes]
    return "".join(text) or "; a tape of no lines\n"


def rows(text):
    """The rows of a text that say something: their numbers, counted from 1, and their tokens."""
    split = ((number, re.findall(WORD, row.partition(";")[0])) for number, row in enumerate(LINE_END.split(text), start=1))
    return [(number, tokens) for number, tokens in split if tokens]


class Repeat(NamedTuple):
    """A repeat that is not yet ended: its row, how often it repeats, and the scanlines and bytes of the tape before it."""

    row: int
    times: int
    lines: int
    size: int


class Reader:
    """Reads the rows of a text one after another into scanlines, and keeps the first error of each row."""

    def __init__(self):
        self.lines = []  # scanlines: the row of their 'line', and their writes
        self.size = 1  # bytes of the tape; where they are too many, no repeat is expanded any more
        self.repeats = []  # those not yet ended, the outermost first
        self.missing = "before the first 'line'"  # where a write would stand without a scanline; empty where it has one
        self.errors = {}  # messages by row

    def take(self, row, tokens):
        """Takes a row of the text. A row with commas is wrong, and is taken as if it had blanks in their place."""
        if is_comment(tokens):
            self.errors[row] = f"found {shown(tokens[0])}: a comment begins with ';'"
            return
        if any("," in token for token in tokens):
            self.errors[row] = commas(tokens)
            tokens = " ".join(tokens).replace(",", " ").split()
        try:
            if tokens:
                self.method(tokens[0].lower())(row, tokens)
        except ValueError as error:
            self.errors.setdefault(row, str(error))

    def method(self, word):
        """What takes a row that begins with this word."""
        words = {"line": self.take_line, "repeat": self.take_repeat, "end": self.take_end}
        return words.get(word, self.take_unknown if word[0].isalpha() else self.take_write)

    def scanlines(self):
        """The writes of every scanline, after the last row. Fails with SourceErrors where a row was wrong."""
        for repeat in self.repeats:
            self.errors.setdefault(repeat.row, "found no 'end' for this 'repeat': write 'end' after the lines that it repeats")
        if self.errors:
            raise SourceErrors([SourceError(row, message) for row, message in sorted(self.errors.items())])
        return [writes for _, writes in self.lines]

    def take_line(self, row, tokens):
        """Begins a scanline. Fails with ValueError."""
        self.begin(row)
        nothing_after(tokens, 1)

    def take_repeat(self, row, tokens):
        """Begins a repeat. Fails with ValueError; its lines then stand once."""
        self.missing = "after 'repeat'"
        self.repeats.append(Repeat(row, 1, len(self.lines), self.size))
        self.repeats[-1] = self.repeats[-1]._replace(times=times_of(tokens))

    def take_end(self, _, tokens):
        """Ends the innermost repeat. Fails with ValueError where there is none."""
        if not self.repeats:
            raise ValueError("found 'end' without a 'repeat': write 'repeat N' before the lines to repeat, or leave 'end' out")
        self.missing = "after 'end'"
        self.expand(self.repeats.pop())
        nothing_after(tokens, 1)

    def take_unknown(self, row, tokens):
        """Fails with ValueError on a row that begins with an unknown word. Where a scanline is missing, the row begins one, as
        was probably meant, so that the writes after it are not wrong too."""
        if self.missing:
            self.begin(row)
        refuse_left_out(tokens[0])
        number_of(tokens[0], CLOCK)

    def take_write(self, row, tokens):
        """Adds a write to the last scanline. Fails with ValueError, once for a missing scanline and once for one that is full."""
        write = Written(row, *write_of(tokens))
        missing = self.missing
        if missing:
            self.begin(row)
        writes = self.lines[-1][1]
        if len(writes) > MOST_WRITES:
            return
        writes.append(write)
        self.grow(row, RECORD)
        if missing:
            raise ValueError(f"found a write {missing}: expected 'line', which begins a scanline")
        if len(writes) > MOST_WRITES:
            raise ValueError(f"found write number {MOST_WRITES + 1} of a line: expected at most {MOST_WRITES}")

    def begin(self, row):
        """Begins a scanline at this row."""
        self.lines.append((row, []))
        self.missing = ""
        self.grow(row, LENGTH)

    def grow(self, row, count):
        """Adds so many bytes of this row to the tape's size; the first row that passes the limit is wrong."""
        if self.size <= MOST_BYTES < self.size + count:
            self.errors.setdefault(row, TOO_LONG)
        self.size += count

    def expand(self, repeat):
        """Repeats the scanlines since the repeat's row; that row is wrong where there are none. Where the tape would become too
        long, nothing is repeated, and the row that would pass the limit is wrong."""
        if len(self.lines) == repeat.lines:
            self.errors.setdefault(repeat.row, "found no line between 'repeat' and 'end': write the lines to repeat there")
            return
        more = repeat.times - 1
        if more == 0 or self.size > MOST_BYTES:
            return
        body, size, room = self.lines[repeat.lines :], self.size - repeat.size, MOST_BYTES - self.size
        self.size += more * size
        if self.size > MOST_BYTES:
            self.errors.setdefault(row_past(body, room % size), TOO_LONG)
        else:
            self.lines += more * body


def is_comment(tokens):
    """Whether a row is a comment as other notations write it: its first token begins as one, and is no number."""
    return tokens[0].startswith(COMMENTS) and NUMBER.fullmatch(plain(tokens[0])[0]) is None


def row_past(lines, room):
    """The row that passes so many bytes in the tape of these scanlines, which has more."""
    for begun, writes in lines:
        for row, size in [(begun, LENGTH), *((write.row, RECORD) for write in writes)]:
            room -= size
            if room < 0:
                return row


def times_of(tokens):
    """How often a row that begins with 'repeat' repeats. Fails with ValueError."""
    if len(tokens) == 1:
        raise ValueError(f"found 'repeat' alone: expected a number of times after it, from {TIMES.least} to {TIMES.most}")
    times = number_of(tokens[1], TIMES)
    nothing_after(tokens, 2)
    return times


def nothing_after(tokens, count):
    """Fails with ValueError where a row has more than so many tokens."""
    if len(tokens) > count:
        before = " ".join(tokens[:count])
        raise ValueError(f"found {shown(tokens[count])} after {shown(before)}: {NOTHING_MORE}")


def write_of(tokens):
    """The write that a row's tokens describe: clock, address, value. Fails with ValueError."""
    clock = number_of(tokens[0], CLOCK)
    if len(tokens) == 1:
        raise ValueError("found a clock alone: expected a register after it, such as HMM0")
    address = address_of(tokens[1])
    if len(tokens) == 4 and plain(tokens[2] + tokens[3])[0][:1] in ("+", "-"):
        together = plain(tokens[2] + tokens[3])[0]
        raise ValueError(f"found {shown(tokens[2])} alone: a sign stands before its number without a blank: write {cut(together)}")
    if len(tokens) > 3:
        raise ValueError(f"found {shown(tokens[3])} after the value: {NOTHING_MORE}")
    if len(tokens) == 3:
        return clock, address, value_of(tokens[2], address)
    if not is_strobe(address):
        raise ValueError(f"found no value for {tokens[1]}: expected a value from 0 to 255; only a strobe needs none")
    return clock, address, 0


def address_of(token):
    """The address that a register's name or a number stands for. Fails with ValueError."""
    if token[0] in "$%#+-0123456789":
        return number_of(token, ADDRESS)
    refuse_left_out(token)
    name = token.upper()
    register, equals, value = token.partition("=")
    if equals and register.upper() in REGISTERS:
        raise ValueError(f"found {shown(token)}: a value stands after a blank, without '=': write {cut(f'{register} {value}'.strip())}")
    if not token.isascii() or name not in REGISTERS:
        expected = f"expected a register name such as {alike(name)}, or an address from $00 to $FF"
        raise ValueError(f"unknown register {shown(token)}: {expected}")
    return REGISTERS[name].address


def refuse_left_out(token):
    """Fails with ValueError on the name of a register that this kit leaves out."""
    name = token.upper()
    if token.isascii() and name in LEFT_OUT:
        raise ValueError(f"{name} {LEFT_OUT[name]}")


def alike(name):
    """The register's name that is most like another name; some name where none is like it."""

    def likeness(register):
        return difflib.SequenceMatcher(None, name[:24], register).ratio()

    best = max(REGISTERS, key=likeness)
    return best if likeness(best) > 0.6 else "HMM0"


def value_of(token, address):
    """The byte that a token writes to the register at an address. Fails with ValueError."""
    if not takes_motion(address):
        return number_of(token, VALUE)
    return motion_byte(token) if token[0] in "+-" else number_of(token, MOTION_VALUE)


def motion_byte(token):
    """The byte whose upper half is the motion value that a token writes with its sign. Fails with ValueError."""
    match = SIGNED.fullmatch(token)
    motion = int(match[1] + match[2]) if match else None
    if motion is None or not -8 <= motion <= 7:
        expected = "expected a motion value from -8 (right) to +7 (left), in decimal; a byte from $00 to $FF has no sign"
        raise ValueError(f"found {shown(token)}: {expected}")
    return motion % 16 * 16


def number_of(token, wanted):
    """The wanted number that a token writes. Fails with ValueError, which says what to write instead."""
    if NUMBER.fullmatch(token) is None:
        raise ValueError(f"found {shown(token)}: {instead(token, wanted)}")
    if not is_number(token, wanted):
        binary = f"; in binary it is %{token}" if re.fullmatch("[01]{4,8}", token) else ""
        expected = f"expected {wanted.name} from {wanted.least} to {wanted.most} (${wanted.most:02X}){binary}"
        raise ValueError(f"found {shown(token)}: {expected}")
    return number_in(token)


def instead(token, wanted):
    """What to write for a token that is no number in the notation, where this number is wanted."""
    least, most = wanted.least, wanted.most
    meant, wrong = plain(token)
    if wrong and (is_number(meant, wanted) or wanted is MOTION_VALUE and SIGNED.fullmatch(meant)):
        return f"{wrong}: write {cut(meant)}"
    if token[0] in "+-":
        number = token[1:] if token[0] == "+" and is_number(token[1:], wanted) else f"a number from {least} to {most}"
        return f"{wanted.unsigned}: write {cut(number)}"
    return f"expected {wanted.words} ({least} to {most}, ${least:02X} to ${most:02X} or %{least:b} to %{most:b})"


def is_number(token, wanted):
    """Whether a token writes the wanted number."""
    return NUMBER.fullmatch(token) is not None and wanted.least <= number_in(token) <= wanted.limit


def number_in(token):
    """The number that a token writes; for one over 32767, some number over it."""
    match = NUMBER.fullmatch(token)
    digits = match[match.lastgroup].lstrip("0")[:16]  # these tell a number over 32767 in each base
    return int(digits or "0", BASES[match.lastgroup])


def plain(token):
    """A token without the marks of other notations, and what is wrong with the first of these; nothing where it has none."""
    wrong = ""
    for pattern, form, words in FOREIGN:
        match = pattern.fullmatch(token)
        if match:
            token, wrong = form.format(match[1]), wrong or words
    return token, wrong


def commas(tokens):
    """The message on a row's first token with commas."""
    token = next(token for token in tokens if "," in token)
    words = " ".join(plain(word)[0] for word in token.replace(",", " ").split())
    write = f"write {cut(words)}" if words else "leave it out"
    return f"found {shown(token)}: words are divided by blanks, not by commas: {write}"


def write_text(clock, address, value):
    """A write in the notation; a strobe's value only where it is not 0."""
    name = NAMES.get(address, f"${address:02X}")
    if is_strobe(address) and value == 0:
        return f"{clock:3} {name}"
    return f"{clock:3} {name} ${value:02X}"


def shown(token):
    """A token as a message quotes it, cut where it is long."""
    return repr(cut(token))


def cut(text):
    """A text, cut where it is long."""
    return text if len(text) <= 24 else text[:24] + "..."
