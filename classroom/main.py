"""The command line of ./glintstool: its verbs, their options and help."""

import argparse
import difflib
import os
import re
import sys

from classroom import verbs
from classroom.command import Failure
from classroom.lines import CLOCKS, COLUMNS
from classroom.registers import MOVABLE
from classroom.terminal import CHOICES

DESCRIPTION = """Shows, lists and draws tapes of the kit's video chip, and prints the class's cards.
FILE is a source (classroom/NOTATION.md), a tape, or - for standard input."""
EXAMPLES = {
    "": """
  ./glintstool look lessons/05-moving-right.txt         which columns each object lights
  ./glintstool picture lessons/13-colour.txt -o 13.png  the picture on a television
  ./glintstool VERB --help                              a verb's options and examples""",
    "look": """
  ./glintstool look lessons/01-still-missile.txt
  ./glintstool look --lines 3-8 mine.txt                these lines only
  ./glintstool look --colour never mine.txt | less      letters alone""",
    "list": """
  ./glintstool list lessons/03-printed-case.txt
  ./glintstool assemble mine.txt | ./glintstool list -  a tape from standard input""",
    "picture": """
  ./glintstool picture mine.txt -o mine.png
  ./glintstool picture --pal --scale 8 mine.txt -o big.png
  ./glintstool picture --lines 0-39 mine.txt -o top.png""",
    "page": """
  ./glintstool page mine.txt -o mine.html               then open mine.html in a browser""",
    "step": """
  ./glintstool step lessons/04-moving-left.txt --line 2
  ./glintstool step mine.txt --line 2 --clocks 0-75     the horizontal blank and what HMOVE adds to it
  ./glintstool step mine.txt --line 1 --object P0       a player: its pixels too, and for how long each is shown""",
    "assemble": """
  ./glintstool assemble mine.txt -o mine.tape
  ./glintstool assemble mine.txt | target/bin/listing""",
    "disassemble": """
  ./glintstool disassemble lessons/03-printed-case.tape
  ./glintstool disassemble mine.tape -o mine.txt""",
    "cards": """
  ./glintstool cards
  ./glintstool cards | lp                               on paper: three pages""",
}
STATUS = "exit status: 0; 1 where a file is wrong, no line was run, or the chip refuses the tape; 2 for a wrong command line"


# What a message says of a part of the command line that is missing, and what to add.
MISSING = {
    "FILE": "expected a source or a tape: add its name, such as lessons/05-moving-right.txt",
    "-o": "expected a file to write: add '-o' and its name, such as -o mine.{}",
    "--line": "expected a line: add '--line' and its number, such as --line 0",
}
KINDS = {"picture": "png", "page": "html"}


class Parser(argparse.ArgumentParser):
    """A parser whose messages say what to add and where to read on."""

    def error(self, message):
        """Ends with status 2 and the message."""
        first = re.match("the following arguments are required: ([^,]+)", message)
        if first and first[1] in MISSING:
            message = MISSING[first[1]].format(KINDS.get(self.prog.split()[-1]))
        self.exit(2, f"{self.prog}: {message}\nsee './{self.prog} --help'\n")


def parser_of_all():
    """The parser of the whole command line."""
    parser = new_parser(Parser, "glintstool", "", DESCRIPTION)
    verb = parser.add_subparsers(metavar="VERB", dest="verb", parser_class=Parser)
    for name, words, options in (
        ("look", "show the lines in the terminal: the columns that each object lights, overlaps, which have met", look_options),
        ("list", "print the listing: the first lit column of each object on each line, then the collision latches", list_options),
        ("picture", "draw the television's picture as a PNG file", picture_options),
        ("page", "write a page for the browser: picture, beam, every write at its clock", page_options),
        ("step", "print the state after each clock of a line, for one object", step_options),
        ("assemble", "turn a source into a tape", assemble_options),
        ("disassemble", "turn a tape into a source", disassemble_options),
        ("cards", "print the classroom cards: the counter's 63 values, and the 256 mirrored bytes", cards_options),
    ):
        one = new_parser(verb.add_parser, name, name, words[0].upper() + words[1:] + ".", help=words)
        options(one)
        one.set_defaults(run=getattr(verbs, name), parser=one)
    return parser


def new_parser(make, name, verb, description, **more):
    """A parser with its examples."""
    epilog = f"examples:{EXAMPLES[verb]}\n\n{STATUS}"
    form = argparse.RawDescriptionHelpFormatter
    parser = make(name, description=description, epilog=epilog, formatter_class=form, allow_abbrev=False, **more)
    return parser


def look_options(parser):
    """The options of look."""
    add_file(parser)
    add_lines(parser, "show")
    words = "break the rows into parts of N columns (default: as wide as the terminal)"
    parser.add_argument("--fold", type=columns_named, metavar="N", help=words)
    words = "write colours: auto (default) where the terminal has them and NO_COLOR is not set, always, never"
    parser.add_argument("--colour", "--color", type=choice_named, default="auto", metavar="WHEN", help=words)
    add_pal(parser)
    add_quiet(parser)


def list_options(parser):
    """The options of list."""
    add_file(parser)
    add_quiet(parser)


def picture_options(parser):
    """The options of picture."""
    add_file(parser)
    add_output(parser, "PNG", "the picture's file", required=True)
    words = "pixels from line to line, 1 to 32 (default 4); a column is 12/7 times as wide, for PAL 2.08 times"
    parser.add_argument("--scale", type=scale_named, default=4, metavar="N", help=words)
    add_lines(parser, "draw")
    add_pal(parser)
    add_quiet(parser)


def page_options(parser):
    """The options of page."""
    add_file(parser)
    add_output(parser, "HTML", "the page's file", required=True)
    add_lines(parser, "show")
    add_pal(parser)
    add_quiet(parser)


def step_options(parser):
    """The options of step."""
    add_file(parser)
    parser.add_argument("--line", type=line_named, required=True, metavar="N", help="the line, counted from 0")
    parser.add_argument("--clocks", type=clocks_named, metavar="A-B", help=f"only clocks A to B, or clock A (0 to {CLOCKS - 1})")
    words = f"{', '.join(MOVABLE)} (default: the one that the tape strobes first)"
    parser.add_argument("--object", type=object_named, metavar="NAME", help=words)
    add_quiet(parser)


def assemble_options(parser):
    """The options of assemble."""
    parser.add_argument("file", nargs="?", default="-", metavar="SOURCE", help="default: standard input, also as -")
    add_output(parser, "TAPE", "default: standard output, also as -")
    add_quiet(parser)


def disassemble_options(parser):
    """The options of disassemble."""
    parser.add_argument("file", nargs="?", default="-", metavar="TAPE", help="default: standard input, also as -")
    add_output(parser, "SOURCE", "default: standard output, also as -")


def cards_options(parser):
    """The options of cards: none."""


def add_file(parser):
    """Adds the file that a verb reads."""
    parser.add_argument("file", metavar="FILE", help="a source or a tape, told apart by what it holds; - for standard input")


def add_lines(parser, verb):
    """Adds the choice of lines."""
    parser.add_argument("--lines", type=lines_named, metavar="A-B", help=f"{verb} only lines A to B, or line A")


def add_output(parser, name, words, required=False):
    """Adds the file that a verb writes."""
    default = None if required else "-"
    parser.add_argument("-o", dest="output", default=default, required=required, metavar=name, help=words)


def add_pal(parser):
    """Adds the choice of the television standard."""
    parser.add_argument("--pal", action="store_true", help="the colours of a PAL television (default: NTSC)")


def add_quiet(parser):
    """Adds the silencing of hints."""
    parser.add_argument("--quiet", action="store_true", help="print no hints on the source")


def span_named(text, what, most=None):
    """The first and the last number that `A` or `A-B` names. Fails with ArgumentTypeError."""
    match = re.fullmatch("([0-9]{1,9})(?:-([0-9]{1,9}))?", text)
    if match is None:
        raise argparse.ArgumentTypeError(f"found {text!r}: expected a {what}, such as 3, or {what}s, such as 3-8")
    first, final = int(match[1]), int(match[2] or match[1])
    if final < first:
        raise argparse.ArgumentTypeError(f"found {text!r}: expected the lower {what} first")
    if most is not None and final > most:
        raise argparse.ArgumentTypeError(f"found {text!r}: expected {what}s from 0 to {most}")
    return first, final


def lines_named(text):
    """The first and the last line that a text names. Fails with ArgumentTypeError."""
    return span_named(text, "line")


def clocks_named(text):
    """The first and the last clock that a text names. Fails with ArgumentTypeError."""
    return span_named(text, "clock", CLOCKS - 1)


def number_named(text, what, least, most):
    """The number of this kind that a text names. Fails with ArgumentTypeError."""
    if not re.fullmatch("[0-9]{1,9}", text) or not least <= int(text) <= most:
        raise argparse.ArgumentTypeError(f"found {text!r}: expected {what}, {least} to {most}")
    return int(text)


def columns_named(text):
    """The number of columns that a text names. Fails with ArgumentTypeError."""
    return number_named(text, "a number of columns", 1, COLUMNS)


def scale_named(text):
    """The scale that a text names. Fails with ArgumentTypeError."""
    return number_named(text, "a scale", 1, 32)


def line_named(text):
    """The line that a text names. Fails with ArgumentTypeError."""
    return number_named(text, "a line", 0, 65535)


def choice_named(text):
    """The choice of colours that a text names. Fails with ArgumentTypeError."""
    if text not in CHOICES:
        raise argparse.ArgumentTypeError(f"found {text!r}: expected {', '.join(CHOICES)}")
    return text


def object_named(text):
    """The object that moves that a text names. Fails with ArgumentTypeError."""
    if text.upper() not in MOVABLE:
        raise argparse.ArgumentTypeError(f"found {text!r}: expected {', '.join(MOVABLE)}")
    return text.upper()


def wrong_verb(parser, words):
    """Ends with status 2 where the first word is no verb, and says which one it may be."""
    verb_names = [name for name in EXAMPLES if name]
    if not words:
        parser.print_help(sys.stderr)
        parser.exit(2)
    word = words[0]
    if word == "help":
        parser.print_help()
        parser.exit()
    if word in (*verb_names, "-h", "--help"):
        return
    alike = difflib.get_close_matches(word, verb_names, 1)
    file = word if word and not word.startswith("-") else "FILE"
    meant = f"did you mean './glintstool {' '.join([alike[0], *words[1:]])}'?" if alike else f"as in './glintstool look {file}'"
    parser.error(f"found {word!r}: expected a verb, {', '.join(verb_names)}; {meant}")


def arguments_of(words):
    """The arguments that the words of a command line give. Ends with status 2 where they are wrong."""
    parser = parser_of_all()
    wrong_verb(parser, words)
    arguments, more = parser.parse_known_args(words)
    for word in more:
        if word.startswith("-"):
            arguments.parser.error(f"found {word!r}: expected one of the verb's options")
    if more:
        arguments.parser.error(f"found {more[0]!r}: expected nothing more; leave it out")
    return arguments


def main(words):
    """Runs the command. Gives the exit status, which is 0 also where the reader of the output ended before it."""
    if sys.stderr is None:  # closed: messages go nowhere, and the output stays as it is
        sys.stderr = open(os.devnull, "w", encoding="utf-8")
    try:
        arguments = arguments_of(words)
        return arguments.run(arguments)
    except Failure as failure:
        print(failure, file=sys.stderr)
        return 1
    except BrokenPipeError:
        return 0
    except KeyboardInterrupt:
        print(file=sys.stderr)
        return 130
