"""Captures that cost most for each octet."""

import itertools
import random
import struct

import envelopes
from capture import ACK, CAPTURE, FIN, PORTS, RST, SYN, TCP, UDP, ends, internet, segment
from envelopes import FRAMING, RAW, again, datagram, udp
from memory import capture, names, request
from worst_streams import SMALL, repeated

IPV6_OPTIONS = 60
PASSWORDS = 464
SECONDS = 1795000000
PIECE = 1460

# What a direction sends in which no frame is looked for: the first length has its high bit.
NO_FRAMES = b"\xff" * 64000

# How many octets a packet of a segment of one octet is in a capture.
LEAST = 57


def tcp(place, octets=b"", flags=ACK, number=0):
    """A segment of the direction of this number, whose first octet is at place 0."""
    return segment(*ends(number), (1000 + place) % (1 << 32), flags, octets)[FRAMING:]


def begin(number=0, place=0):
    return tcp(place - 1, flags=SYN, number=number)


def fragment(number, place, octets):
    """A fragment, that is not the last one, of the datagram of this number."""
    client, port = ends(number // PORTS)
    packet = internet(client, UDP, octets)[FRAMING:]
    return packet[:4] + struct.pack(">HH", number % PORTS, 0x2000 | place // 8) + packet[8:]


def ipv6(following, octets):
    addresses = bytes(range(32))
    return struct.pack(">IHBB", 6 << 28, len(octets), following, 64) + addresses + octets


def waiting(order):
    """Every other octet of a direction, each by itself; then a SYN begins it anew."""

    def packets(size):
        places = order(list(range(2, 2 * min(1 << 19, size // LEAST), 2)))
        for again in itertools.count():
            yield begin(place=again << 22)
            for place in places:
                yield tcp((again << 22) + place, b"\0")

    return packets


def shuffled(places):
    random.Random(1).shuffle(places)
    return places


def backwards(size):
    """The octets of a direction, from the last to the second one."""
    yield begin()
    for place in range(size // LEAST, 0, -1):
        yield tcp(place, b"\0")


def sent_again(octet):
    """Many runs of octets in front of each other, and then large segments over all of them, of one octet again and again."""

    def packets(size):
        yield begin()
        for place in range(15000, 0, -1):
            yield tcp(65 * place, bytes(65))
        yield from itertools.repeat(tcp(65, octet * 64000))

    return packets


def last_again(size):
    """Many octets that wait, and then the last of these again and again."""
    yield begin()
    places = range(2, min(400000, size // LEAST), 2)
    for place in places:
        yield tcp(place, b"\0")
    yield from itertools.repeat(tcp(places[-1], b"\0"))


def taken_before(place, octets, times=1):
    """What a direction takes, some times, and then a segment again and again, at a place."""

    def packets(size):
        yield begin()
        for time in range(times):
            yield tcp(len(NO_FRAMES) * time, NO_FRAMES)
        yield from itertools.repeat(tcp(place, octets))

    return packets


def in_order(octets):
    def packets(size):
        yield begin()
        for place in itertools.count(step=octets):
            yield tcp(place, bytes(octets))

    return packets


def over_ipv6(size):
    """Octets in order, with addresses that are long when they are written."""
    for place in itertools.count(-1, PIECE):
        flags, octets = (SYN, b"") if place < 0 else (ACK, bytes(PIECE))
        yield ipv6(TCP, tcp(place if place < 0 else place + 1 - PIECE, octets, flags)[20:])


def directions(*segments):
    """Directions, of which each has these segments."""

    def packets(size):
        for number in itertools.count():
            for place, flags, octets in segments:
                yield tcp(place, octets, flags, number)

    return packets


def random_directions(size):
    dice = random.Random(2)
    while True:
        yield begin(dice.getrandbits(24))


def in_turns(size):
    """An octet of each of many directions, and another one of each, and so on."""
    yield from map(begin, range(PORTS))
    for place in itertools.count():
        for number in range(PORTS):
            yield tcp(place, b"\0", number=number)


def begun_again(size):
    for number in itertools.count():
        yield begin(place=7 * number)


def fragments(size):
    """Datagrams, of each but the last fragment."""
    for number in itertools.count():
        for place in range(0, 65504, 8):
            yield fragment(number, place, bytes(8))


def each_begins(place, octets):
    """Fragments, each of another datagram."""
    return lambda size: (fragment(number, place, bytes(octets)) for number in itertools.count())


def copies(before, pieces):
    """Fragments of some datagrams before one that has fragments of these numbers of octets at each place, and then copies
    of the last one."""

    def packets(size):
        for number in range(before):
            yield fragment(number, 8, b"")
        for place in range(0, min(65504, size // 14), 8):
            for octets in pieces:
                yield fragment(before, place, bytes(octets))
        yield from itertools.repeat(fragment(before, place, bytes(pieces[-1])))

    return packets


def requests(kept):
    """Requests of one flow, of which none is answered; a number of them are again and again the same."""
    return lambda size: (udp(request(number % kept)) for number in itertools.count())


def open_directions(size):
    """Directions of connections with many requests that are open, as each begins anew."""
    for number in itertools.count():
        yield begin(place=number << 20)
        for place in range(1000):
            octets = request(place)
            yield tcp((number << 20) + 70 * place, struct.pack(">I", len(octets)) + octets)


FRAME = names(60000)
FRAME += repeated(b"\x1b\0", 2900 - len(FRAME))

# What makes the packets of a capture of a number of octets.
PACKETS = {
    "octets that wait, upwards": waiting(list),
    "octets that wait, downwards": waiting(lambda places: places[::-1]),
    "octets that wait, anywhere": waiting(shuffled),
    "octets that come backwards": backwards,
    "runs that are sent again": sent_again(b"\0"),
    "runs that come again with other octets": sent_again(b"\1"),
    "an octet that is sent again": last_again,
    "an octet that comes again as another one": taken_before(63999, b"\1"),
    "octets that come again as other ones": taken_before(0, bytes(64000)),
    "an octet that is no longer kept": taken_before(0, b"\xff", times=3),
    "an octet before the first": taken_before(-100, b"\0"),
    "an octet too far ahead": taken_before(1 << 22, b"\0"),
    "octets in order": in_order(1),
    "frames without octets": in_order(PIECE),
    "frames without octets over IPv6": over_ipv6,
    "directions that begin": directions((-1, SYN, b"")),
    "directions that begin anywhere": random_directions,
    "directions that are joined": directions((0, ACK, b"\0")),
    "directions that begin and end": directions((-1, SYN, b""), (0, RST, b"")),
    "directions that end, with a copy": directions((-1, SYN, b""), (0, FIN, b"\xff"), (0, ACK, b"\1")),
    "directions that end with a window, with copies": directions((-1, SYN, b""), (0, FIN, NO_FRAMES[:4096]), *10 * [(9, ACK, b"\0")]),
    "directions with a piece of a frame": directions((-1, SYN, b""), (0, ACK, FRAME[:1200])),
    "directions with two pieces of a frame": directions((-1, SYN, b""), (0, ACK, FRAME[:1450]), (1450, ACK, FRAME[1450:])),
    "directions with octets that wait": directions((-1, SYN, b""), *((place, ACK, b"\0") for place in range(2, 42, 2))),
    "directions in turns": in_turns,
    "a direction that begins again": begun_again,
    "fragments": fragments,
    "fragments of other datagrams": each_begins(8, 0),
    "last fragments of other datagrams": each_begins(65504, 8),
    "copies of a fragment": copies(1023, [8]),
    "copies of a fragment without octets": copies(1023, [8, 0]),
    "datagrams without octets": again(udp(b"")),
    "datagrams with AP-REPs": again(udp(SMALL["AP-REPs"])),
    "datagrams of changes of passwords": again(udp(struct.pack(">HHH", 6, 1, 0), PASSWORDS)),
    "requests, each another one": requests(1 << 24),
    "requests that are sent again": requests(3),
    "requests that a new direction leaves": open_directions,
    "SYNs with other numbers": lambda size: (begin(place=7 * number) for number in itertools.count()),
    "packets without octets": again(b""),
    "packets with many headers": again(
        ipv6(IPV6_OPTIONS, 8000 * (bytes([IPV6_OPTIONS]) + bytes(7)) + bytes([UDP]) + bytes(7) + datagram(b""))
    ),
}


def block(kind, contents):
    """A block of pcapng."""
    size = struct.pack("<I", 12 + len(contents))
    return struct.pack("<I", kind) + size + contents + size


SECTION = block(0x0A0D0D0A, struct.pack("<IHHq", 0x1A2B3C4D, 1, 0, -1))
INTERFACE = struct.pack("<HHI", RAW, 0, 0)
BLOCKS = {
    "unknown blocks": block(0x77, b""),
    "interfaces": block(1, INTERFACE),
    "options": block(1, INTERFACE + 16000 * struct.pack("<HH", 2, 0)),
    "sections": SECTION,
    "simple packets": block(3, bytes(4)),
}


def taken(parts, size):
    """The first octets of parts, as many as `size` or some more."""
    octets = bytearray()
    for part in parts:
        octets += part
        if len(octets) >= size:
            break
    return octets


def cases(size):
    """Each with a name, a command, and what makes its octets."""
    for name, packets in {**PACKETS, **envelopes.PACKETS}.items():
        yield f"capture of {name}", CAPTURE[1:], lambda: taken(capture(packets(size), RAW, SECONDS), size)
    for name, unit in BLOCKS.items():
        yield f"pcapng of {name}", CAPTURE[1:], lambda: SECTION + block(1, INTERFACE) + repeated(unit, size)
