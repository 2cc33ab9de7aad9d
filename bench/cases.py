"""What is counted and what is compared: the programs, their inputs, and what each ratio is held to."""
from dataclasses import dataclass

import frames

# our program and the C one beside it, and whether they are those of the small board
PAIRS = {
    "reading": ("pace_reading", "plain.c"),
    "in_place": ("pace_in_place", "plain.c"),
    "slices": ("pace_slices", "slices.c"),
    "writing": ("pace_writing", "writers.c"),
    "giving": ("pace_giving", "roster.c"),
    "listing": ("sbrlist", "listing.c"),
    "small_board": ("sbrlist", "listing.c", True),
}

NAMES = {"comlynx": "ComLynx", "eversolar": "Eversolar", "fronius": "Fronius", "drives": "drives"}
PIECES = (1, 16, 240, 65536)
# The limits: 1.0 where that is asked for, which is by `step` at 240 bytes a piece but for frames with no data. Elsewhere what it comes to today, rounded
# up, so that a growth is noticed.
READING = {
    ("comlynx", 10): (3.5, 1.3, 1.0, 0.9),
    ("comlynx", 66): (3.5, 1.1, 1.0, 0.6),
    ("comlynx", 255): (3.5, 1.0, 1.0, 0.4),
    ("eversolar", 0): (3.6, 1.6, 1.4, 1.3),
    ("eversolar", 66): (3.4, 0.8, 1.0, 0.4),
    ("eversolar", 255): (3.4, 0.7, 1.0, 0.2),
    ("fronius", 0): (3.2, 1.0, 1.0, 1.0),
    ("fronius", 66): (3.4, 0.8, 1.0, 0.4),
    ("fronius", 127): (3.4, 0.8, 1.0, 0.3),
    ("drives", 0): (1.2, 0.9, 1.0, 0.8),
    ("drives", 5): (1.2, 0.9, 1.0, 0.9),
    ("drives", 37): (1.1, 0.6, 1.0, 0.5),
}
# by `step_in_place`
IN_PLACE = {
    ("comlynx", 10): (1.4, 0.9, 0.7, 0.7),
    ("comlynx", 66): (1.4, 0.8, 0.5, 0.5),
    ("comlynx", 255): (1.4, 0.7, 0.4, 0.4),
    ("eversolar", 0): (1.6, 1.0, 0.9, 0.9),
    ("eversolar", 66): (1.5, 0.5, 0.4, 0.3),
    ("eversolar", 255): (1.5, 0.5, 0.2, 0.2),
    ("fronius", 0): (1.7, 0.7, 0.7, 0.7),
    ("fronius", 66): (1.8, 0.6, 0.4, 0.3),
    ("fronius", 127): (1.8, 0.6, 0.3, 0.3),
    ("drives", 0): (1.0, 0.8, 0.8, 0.8),
    ("drives", 5): (1.1, 0.9, 0.9, 0.9),
    ("drives", 37): (1.0, 0.6, 0.5, 0.5),
}
# by `answer_at`, beside C that searches for the frame edges too: 1.0 is asked for of ComLynx with 66 and 255 data bytes and of Eversolar, 1.2 of Fronius
# and drives. Eversolar with 7 data bytes and Fronius with 28 are the worst lengths that were found, above what is asked for.
SLICES = {
    ("comlynx", 0): 1.0,
    ("comlynx", 10): 0.8,
    ("comlynx", 66): 1.0,
    ("comlynx", 255): 1.0,
    ("eversolar", 0): 1.0,
    ("eversolar", 7): 1.1,
    ("eversolar", 66): 1.0,
    ("eversolar", 255): 1.0,
    ("fronius", 0): 1.2,
    ("fronius", 28): 1.3,
    ("fronius", 66): 1.2,
    ("fronius", 127): 1.2,
    ("drives", 0): 1.2,
    ("drives", 5): 1.2,
    ("drives", 37): 1.2,
}
# slices in which no frame ends, asked once: what each byte costs does not grow with them. The limits are what it comes to today, rounded up.
SEARCHED = {
    ("comlynx", "no flag"): (b"", b"\0", 0.2),
    ("comlynx", "no second flag"): (b"~", b"\0", 0.2),
    ("comlynx", "flags alone"): (b"", b"~", 1.1),
    ("eversolar", "no AA"): (b"", b"\0", 1.1),
    ("eversolar", "AA alone"): (b"", b"\xaa", 1.1),
    ("fronius", "no 80"): (b"", b"\0", 1.5),
    ("fronius", "80 alone"): (b"", b"\x80", 1.1),
    ("drives", "no opening byte"): (b"", b"\0", 0.7),
    ("drives", "no EOT"): (b"\5", b"\0", 0.8),
}
WRITING = {
    ("comlynx", 10): 0.9,
    ("comlynx", 66): 0.9,
    ("comlynx", 255): 1.0,
    ("eversolar", 0): 0.4,
    ("eversolar", 66): 0.8,
    ("eversolar", 255): 0.7,
    ("fronius", 0): 0.4,
    ("fronius", 66): 0.9,
    ("fronius", 127): 0.9,
    ("drives", 0): 0.9,
    ("drives", 5): 1.1,
    ("drives", 37): 0.4,
}
CHECKSUM = {16: 1.5, 255: 1.1, 4096: 1.1}
CHECKSUM_BITWISE = {16: 1.1, 255: 1.1, 4096: 1.1}
CHECKSUM_CALL, CHECKSUM_BITWISE_CALL = 5, 6  # what `pace_writing` is told where no family writes
GIVING = {0: 1.1, 127: 1.1, 254: 1.1}
DAYS = {  # ports, one line byte in how many is changed, packets, limit
    "clean, ports 1 to 3": ((1, 2, 3), 0, 512, 0.7),
    "clean": (frames.PORTS, 0, 512, 0.7),
    "clean, a quarter of it": (frames.PORTS, 0, 128, 0.7),
    "damaged, ports 1 to 3": ((1, 2, 3), 60, 512, 0.7),
    "damaged": (frames.PORTS, 60, 512, 0.8),
    "clean, ComLynx alone": ((1,), 0, 128, 0.7),
    "clean, Eversolar alone": ((2,), 0, 128, 0.5),
    "clean, Fronius alone": ((3,), 0, 128, 0.9),
    "clean, drives alone": ((4,), 0, 128, 0.8),
}
SMALL_BOARD = {"clean, ComLynx alone": 0.9, "clean": 0.8, "damaged": 0.9}  # days of DAYS, and their limits


@dataclass(frozen=True)
class Row:
    """One row of the table: what both programs take for `more`, less what they take for `less`, a unit."""

    part: str  # the table that it stands in
    labels: tuple
    pair: str
    less: bytes
    more: bytes
    units: int
    limit: float
    wrote: str = None  # what is to be written for `more`, where that is known
    frames: int = None  # where units are not frames, and it is wanted
    below: str = None  # another pair, whose program of ours is to take more for the same
    beside: str = None  # another pair, whose program of ours is only shown


def word(n):
    return (n % 65536).to_bytes(2, "big")


def read_by(part, table):
    for (family, data), limits in table.items():
        for piece, limit in zip(PIECES, limits):
            # a byte that begins no frame; with no byte at all less is read
            head = bytes([frames.FAMILIES[family][0]]) + word(piece)
            text, messages, line = frames.stream(family, data, max(piece, 8192))
            yield Row(part, (NAMES[family], data, piece), part, head + b"\0", head + text, len(text) - 1, limit, line, messages)


def reading():
    return read_by("reading", READING)


def in_place():
    return read_by("in_place", IN_PLACE)


def slice_head(family):
    return bytes([frames.FAMILIES[family][0]]) + word(frames.MOST)  # for the streaming readers: all of it is one piece


def slices():
    for (family, data), limit in SLICES.items():
        head = slice_head(family)
        text, messages, line = frames.stream(family, data, frames.MOST)
        yield Row("slices", (NAMES[family], data), "slices", head + b"\0", head + text, len(text) - 1, limit, line, messages, "reading")


def searched():
    for (family, what), (first, other, limit) in SEARCHED.items():
        head = slice_head(family)
        line = f"{head[0]} 0 0 0 0\n"
        for length in (frames.MOST // 4, frames.MOST):
            text = first + other * (length - len(first))
            yield Row("searched", (NAMES[family], what, length), "slices", head + b"\0", head + text, length - 1, limit, line)


def writing_input(what, times, data, room=600):
    return bytes([what]) + word(times) + word(room) + b"\4" + data  # the byte looked at: the fifth


def some_data(count):
    """Data that differ, a few of them to be stuffed."""
    return bytes((k * 73 + 5) % 256 for k in range(count))


def calls(part, labels, what, data, limit, times=32):
    less, more = (writing_input(what, n, data) for n in (1, 1 + times))
    return Row(part, labels, "writing", less, more, times, limit)


def writing():
    for (family, data), limit in WRITING.items():
        number, _, _, made = frames.FAMILIES[family]
        yield calls("writing", (NAMES[family], data), number, made(some_data(data)), limit)


def checksum():
    for count, limit in CHECKSUM.items():
        yield calls("checksum", (count,), CHECKSUM_CALL, some_data(count), limit)


def checksum_bitwise():
    for count, limit in CHECKSUM_BITWISE.items():
        yield calls("checksum_bitwise", (count,), CHECKSUM_BITWISE_CALL, some_data(count), limit)


def roster(used):
    """Serials that differ in their last bytes alone, as those of one maker do."""
    return bytes(b for k in range(used) for b in [1] + [7] * 14 + list(word(k))) + bytes(17 * (254 - used))


def giving_input(times, all_places, serial=bytes([255]) * 16):
    return bytes([times]) + serial + all_places


def giving():
    for used, limit in GIVING.items():
        less, more = (giving_input(n, roster(used)) for n in (0, 1))
        yield Row("giving", (used,), "giving", less, more, 1, limit)


def listed(part, what, limit, beside=None):
    ports, every, packets, _ = DAYS[what]
    all_day = frames.day(packets, every, ports)
    one = all_day[:frames.LINE + 7]
    if every:
        one, all_day = (text + b"SBS" for text in (one, all_day))  # what follows is no packet, and stops the listing
    return Row(part, (what,), part, one, all_day, len(all_day) - len(one), limit, beside=beside)


def listing():
    for what, (_, _, _, limit) in DAYS.items():
        yield listed("listing", what, limit)


def small_board():
    for what, limit in SMALL_BOARD.items():
        yield listed("small_board", what, limit, beside="listing")


def rows():
    for part in (reading, in_place, slices, searched, writing, checksum, checksum_bitwise, giving, listing, small_board):
        yield from part()


def alike():
    """Inputs on which nothing is counted: the pair, what it is, the input, and whether messages and damages are both to be told."""
    for family, (number, _, most, made) in frames.FAMILIES.items():
        for data, every in ((10, 20), (min(66, most), 60), (min(120, most), 200)):
            text = frames.spoilt(family, frames.stream(family, data, frames.MOST)[0], every)
            for piece in (1, 16, 240, 65536):
                what = f"{NAMES[family]} with {data} data bytes, one in {every} changed, in pieces of {piece}"
                for pair in ("reading", "in_place"):
                    yield pair, what, bytes([number]) + word(piece) + text, True
            what = f"{NAMES[family]} with {data} data bytes, one in {every} changed, as a slice"
            yield "slices", what, bytes([number]) + word(frames.MOST) + text, True
        for count in (0, 1, most, most + 1):
            for data in (made(some_data(count)), bytes(frames.SPECIAL[k % 3] for k in range(count))):
                for room in (0, 7, count + 8, count + 11, count + 12, 2 * count + 12, 600):
                    what = f"{NAMES[family]}, {count} data bytes written into {room}"
                    yield "writing", what, writing_input(number, 3, data, room), False
    for count in (0, 1, 2, 255, 4096, 60000):
        for call in (CHECKSUM_CALL, CHECKSUM_BITWISE_CALL):
            yield "writing", f"checksum of {count} bytes by call {call}", writing_input(call, 3, some_data(count)), False
    sound, full = roster(100), roster(254)
    freed = full[:17 * 30] + bytes(17) + full[17 * 31:]
    for what, text in (
        ("sound", sound),
        ("full", full),
        ("with a place freed", freed),
        ("too short", sound[:-1]),
        ("too long", sound + b"\0"),
        ("with a mark of 2", b"\2" + sound[1:]),
        ("with a free place that is not zero", sound[:-1] + b"\1"),
        ("with a serial twice", sound[:17] + sound[:17] + sound[34:]),
        ("with a serial twice, first and last", full[:-17] + full[:17]),
    ):
        for serial in (bytes([255]) * 16, sound[18:34], bytes(16)):
            yield "giving", f"roster {what}, serial {serial.hex()}", giving_input(3, text, serial), False
    for every in (20, 60, 200):
        yield "listing", f"listing, one byte in {every} changed", frames.day(300, every), True
    for length in (65534, 65535, 65536):
        yield "listing", f"listing, {length} bytes between two flags", frames.cut(1, b"~" + bytes(length) + b"~"), False
        yield "listing", f"listing, {length} bytes from ENQ through EOT", frames.cut(4, b"\5" + bytes(length - 2) + b"\4"), False
    for what, text in frames.refused():
        yield "listing", f"listing, {what}", text, False
