"""Colour in the terminal: whether it has it, and the look of a letter over the television's colour of its column."""

from functools import lru_cache

from classroom.command import is_terminal
from classroom.lines import UNSHOWN, is_coloured, lit
from classroom.television import BLACK, colour_of

CHOICES = ("auto", "always", "never")
STEPS = (0, 95, 135, 175, 215, 255)  # of red, green and blue in the 256 colours of a terminal
# Where a tape has no colour at all, each object has one of the terminal's own.
OBJECT_LOOKS = {"P0": "\x1b[91m", "P1": "\x1b[93m", "M0": "\x1b[95m", "M1": "\x1b[96m", "BL": "\x1b[92m", "PF": "\x1b[94m"}
OVERLAP_LOOK = "\x1b[7m"


def has_colour(choice, stream, environment):
    """Whether to write colours: always, never, or where the stream is a terminal that has them and NO_COLOR is not set."""
    if choice != "auto":
        return choice == "always"
    return not environment.get("NO_COLOR") and environment.get("TERM", "dumb") != "dumb" and is_terminal(stream)


def look_of(lines, standard, environment):
    """The look of a character by its object byte and colour byte, for these lines: over the television's colour; by object where
    every colour byte is 0."""
    if not is_coloured(lines):
        return object_look
    many = environment.get("COLORTERM") in ("truecolor", "24bit")
    return lambda character, byte, colour: television_look(BLACK if byte & UNSHOWN else colour_of(standard, colour), many)


def object_look(character, object_byte, colour_byte):
    """The look of a character by the objects lit."""
    names = lit(object_byte)
    if len(names) > 1:
        return OVERLAP_LOOK
    return OBJECT_LOOKS[names[0]] if names else ""


@lru_cache(maxsize=None)
def television_look(colour, many):
    """The codes for a background of this colour, by all colours or by 256, and a letter over it that can be read."""
    if many:
        return "\x1b[{};48;2;{};{};{}m".format(letter_over(colour), *colour)
    number, shown = nearest(colour)
    return f"\x1b[{letter_over(shown)};48;5;{number}m"


def letter_over(colour):
    """The code for a letter over a colour: black or white, whatever the theme."""
    return "38;5;16" if is_bright(colour) else "38;5;231"


def is_bright(colour):
    """Whether black has more contrast over a colour than white, by the formula of WCAG 2, (L + 0.05) / (M + 0.05)."""
    return (luminance(colour) + 0.05) ** 2 > 0.05 * 1.05


def luminance(colour):
    """The relative luminance of a colour by WCAG 2, 0 for black and 1 for white."""
    red, green, blue = (part / 255 for part in colour)
    return 0.2126 * linear(red) + 0.7152 * linear(green) + 0.0722 * linear(blue)


def linear(part):
    """The light of a part of a colour in sRGB, both from 0 to 1."""
    return part / 12.92 if part <= 0.03928 else ((part + 0.055) / 1.055) ** 2.4


def nearest(colour):
    """The terminal's colour, of the numbers 16 to 255, that is nearest to a colour: its number, and its red, green and blue."""
    red, green, blue = (min(range(6), key=lambda step, part=part: abs(STEPS[step] - part)) for part in colour)
    cube = 16 + 36 * red + 6 * green + blue
    grey = min(23, max(0, round((sum(colour) / 3 - 8) / 10)))
    candidates = {cube: (STEPS[red], STEPS[green], STEPS[blue]), 232 + grey: (8 + 10 * grey,) * 3}
    return min(candidates.items(), key=lambda item: sum((one - other) ** 2 for one, other in zip(item[1], colour)))
