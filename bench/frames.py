"""Frames of each family, one after another: as many as fit, all of one length, or such as a day has, cut into packets.

Addresses, codes and data are random, by a fixed seed. Written from documents 01 and 02 alone.
"""
import itertools
import random

MOST = 65536  # bytes that `pace_reading` reads, and packets that `sbrlist` lists
LINE = 240  # line bytes of a full packet
SPECIAL = bytes([0x7E, 0x7D, 0x5E, 0xAA, 0x55, 0x80, 0x81, 0x00])  # bytes that mean something to some family
CONTROL = bytes([0x04, 0x05, 0x06, 0x15, 0x2F, 0x3A, 0x40, 0x47, 0x61])  # and to drives: ends of a frame, and characters beside their sets
HEX = b"0123456789ABCDEF"


def fcs(body):
    """The ComLynx checksum, by its bit rule: the reversed polynomial 8408, a bit at a time."""
    state = 0xFFFF
    for byte in body:
        state ^= byte
        for _ in range(8):
            state = state >> 1 ^ (0x8408 if state & 1 else 0)
    return state ^ 0xFFFF


def stuffed(body):
    out = bytearray()
    for byte in body:
        out += bytes([0x7D, byte ^ 0x20]) if byte in (0x7D, 0x7E) else bytes([byte])
    return bytes(out)


def comlynx(rng, data):
    """The frame, and its type byte."""
    kind = rng.randrange(256)
    body = bytes([0xFF, 0x03]) + rng.randbytes(4) + bytes([len(data), kind]) + data
    body += fcs(body).to_bytes(2, "little")
    return b"\x7e" + stuffed(body) + b"\x7e", kind


def eversolar(rng, data):
    """The frame, and its function."""
    function = rng.randrange(256)
    front = b"\xaa\x55" + rng.randbytes(5) + bytes([function, len(data)]) + data
    return front + (sum(front) % 65536).to_bytes(2, "big"), function


def fronius(rng, data):
    """The frame, and its command."""
    command = rng.randrange(256)
    body = bytes([len(data)]) + rng.randbytes(2) + bytes([command]) + data
    return b"\x80\x80\x80" + body + bytes([sum(body) % 256]), command


def drives(rng, data):
    """The frame, and its letter: a request, or where the data are short enough perhaps a reply."""
    opening, letter = rng.choice(b"\x05\x06\x15") if len(data) <= 32 else 0x05, rng.choice(b"RWXY")
    covered = digits(rng.randbytes(2)) + bytes([letter]) + data
    return bytes([opening]) + covered + b"%02X" % (sum(covered) % 256) + b"\4", letter


def digits(data):
    """Bytes as so many characters in ASCII hex."""
    return bytes(HEX[byte % 16] for byte in data)


# each family's byte, its frame, the data that a message of it has at most, and the data that are made of bytes
FAMILIES = {"comlynx": (1, comlynx, 255, bytes), "eversolar": (2, eversolar, 255, bytes), "fronius": (3, fronius, 127, bytes),
            "drives": (4, drives, 37, digits)}


def spoilt(family, text, every):
    """Bytes of which about one in `every` is changed, often to one that means something."""
    special = SPECIAL + CONTROL if family == "drives" else SPECIAL
    rng = random.Random(f"{every} of {len(text)}")
    out = bytearray(text)
    for at in range(len(out)):
        if rng.randrange(every) == 0:
            out[at] = rng.choice(special) if rng.randrange(2) else rng.randrange(256)
    return bytes(out)


def stream(family, count, most):
    """As many frames of so many data bytes as fit; how many they are; and the line that `pace_reading` prints of them."""
    number, frame, limit, made = FAMILIES[family]
    assert 0 <= count <= limit and 0 <= most <= MOST
    rng = random.Random(f"{family} {count}")
    out, messages, check = bytearray(), 0, 0
    while True:
        data = made(rng.randbytes(count))
        wire, code = frame(rng, data)
        if len(out) + len(wire) > most:
            return bytes(out), messages, f"{number} {messages} 0 0 {check}\n"
        out += wire
        messages += 1
        check = (check * 3 + code + sum(data)) % 2**64


# ---- a day of packets

FAMILY = dict(enumerate(FAMILIES, 1))  # by port
PORTS = tuple(FAMILY)
POOL = 200  # frames of a family that differ


def sizes(rng, family):
    """How many data bytes a message has."""
    if family == "comlynx":
        return 255 if rng.randrange(20) == 0 else rng.randrange(65)
    if family == "eversolar":
        return rng.choice([0, rng.randrange(60, 121)])
    if family == "drives":  # one address is asked for, and up to eight words come back
        return rng.choice([5, 4 * rng.randrange(1, 9)])
    return rng.choice([0, 3])


def content(rng, count):
    """Data in which the bytes that mean something to some family come more often than by chance."""
    return bytes(rng.choice(SPECIAL) if rng.randrange(16) == 0 else rng.randrange(256) for _ in range(count))


def mixed(rng, family, size):
    """Sound frames of many lengths one after another, the last one cut off."""
    _, frame, _, made = FAMILIES[family]
    pool = [frame(rng, made(content(rng, sizes(rng, family))))[0] for _ in range(POOL)]
    out = bytearray()
    while len(out) < size:
        out += rng.choice(pool)
    return bytes(out[:size])


def packet(port, line):
    version = b"\0\2" if port == FAMILIES["drives"][0] else b"\0\1"
    return b"SBR" + version + bytes([port, len(line)]) + line


def cut(port, line):
    """Bytes of a port in full packets."""
    return b"".join(packet(port, line[at:at + LINE]) for at in range(0, len(line), LINE))


def day(packets, every=0, ports=PORTS):
    """Full packets of the ports in turn; with `every`, about one line byte in so many is changed."""
    rng = random.Random(f"listing {every} {ports}")
    turns = -(-packets // len(ports))
    lines = [mixed(rng, FAMILY[port], turns * LINE) for port in ports]
    if every:
        lines = [spoilt(FAMILY[port], text, every) for port, text in zip(ports, lines)]
    cuts = (packet(port, text[k * LINE:(k + 1) * LINE]) for k in range(turns) for port, text in zip(ports, lines))
    return b"".join(itertools.islice(cuts, packets))


def refused():
    """Inputs that stop a listing, each with what it has."""
    good = packet(3, bytes.fromhex("8080800000000101"))
    yield "no input", b""
    for what, bad in (("mark", b"SBS\0\1\1\1~"), ("version", b"SBR\1\0\1\1~"), ("port", b"SBR\0\1\0\1~"), ("port", b"SBR\0\1\4\1~"),
                      ("port", b"SBR\0\2\1\1~"), ("port", b"SBR\0\2\3\1~"), ("port", b"SBR\0\2\5\1~"), ("version", b"SBR\0\3\4\1~"),
                      ("count", b"SBR\0\1\1\0~"), ("count", b"SBR\0\1\1\xf1~"), ("end in the head", b"SBR\0\1\1"),
                      ("end in the line", b"SBR\0\1\1\2~")):
        yield f"a wrong {what}", good + bad
        yield f"a wrong {what}, and more", good + bad + good
