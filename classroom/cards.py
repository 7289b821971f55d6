"""The classroom cards, laid out for paper, by the bytes that card_bytes writes: the counter's values and the mirrored bytes."""

COUNTS = 63
BYTES = 256
ACROSS = 3  # columns of a card
GAP = "    "  # between two columns
COUNTER_HEAD = "count value"
COUNTER_NOTES = (
    "A step moves every bit one place right; the new leftmost bit is 1 where the",
    "two rightmost old bits are equal. 111111 has no count. The horizontal counter",
    "goes from count 56 to 0, a position counter from count 39.",
    "In the program: crates/counter/src/count.rt",
)
MIRROR_HEAD = "address     data       "
MIRROR_NOTES = (
    "Bit n of the data is bit 7 - n of the address. The address is the player's",
    "graphic; a reflected player shows the data, bit 7 first.",
    "In the program: crates/mirror/src/mirrored_bytes.rt",
)


def pages_of(data):
    """The pages of both cards, each as its rows. Fails with ValueError where these are not the bytes of both."""
    if len(data) != COUNTS + BYTES:
        raise ValueError(f"found {len(data)} bytes: expected {COUNTS + BYTES}")
    mirrored = list(enumerate(data[COUNTS:]))
    half = BYTES // 2
    return [counter_page(data[:COUNTS]), mirror_page(mirrored[:half]), mirror_page(mirrored[half:])]


def counter_page(values):
    """The card of the counter: the value of each count in its six bits."""
    entries = [f"{count:5} {value:06b}" for count, value in enumerate(values)]
    return ["The six-bit counter: the value of each count", "", *columns(COUNTER_HEAD, entries), "", *COUNTER_NOTES]


def mirror_page(entries):
    """A page of the card of mirrored bytes, by pairs of a byte and its mirrored one."""
    rows = [f"{byte:02X} {byte:08b} {mirrored:08b} {mirrored:02X}" for byte, mirrored in entries]
    title = f"Mirrored bytes, {entries[0][0]:02X} to {entries[-1][0]:02X}: what the ROM holds, in binary and hexadecimal"
    return [title, "", *columns(MIRROR_HEAD, rows), "", *MIRROR_NOTES]


def columns(head, entries):
    """Entries of one width in columns, one below the other, each column under its head."""
    height = -(-len(entries) // ACROSS)
    parts = [[head, *entries[start : start + height]] for start in range(0, len(entries), height)]
    rows = [[part[at] for part in parts if at < len(part)] for at in range(height + 1)]
    return [GAP.join(f"{cell:<{len(entries[0])}}" for cell in row).rstrip() for row in rows]
