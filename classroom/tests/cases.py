"""What several tests share: the picture of the case that the chip's description prints, and the reading of a terminal."""

import os

NO_LATCHES = "cx 00 00 00 00 00 00 00 00"
TENS = "".join(str(ten) * 10 for ten in range(10))
RULER = [
    " " * 106 + "1" * 60,
    " " * 16 + TENS[10:] + TENS[:60],
    " " * 6 + "0123456789" * 16,
]
SHOWN = [
    *RULER,
    "    0 " + "." * 160,
    "    1 ...M" + "." * 156,
    "    2 --------" + "." * 148 + "M...",
    "    3 " + "." * 156 + "M...",
    "",
    "legend: M = M0, - = blanked, . = nothing",
    NO_LATCHES,
    "met: none",
]


def read_terminal(ours):
    """All that is written to a pseudo terminal, by our end of it, which is closed then."""
    text = b""
    try:
        while part := os.read(ours, 65536):
            text += part
    except OSError:
        pass  # the end of a terminal that nobody holds any more
    os.close(ours)
    return text.decode()
