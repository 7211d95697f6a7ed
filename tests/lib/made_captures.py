"""Captures that are made up or damaged: requests to a KDC and its replies, by UDP and TCP, in pcap and pcapng.

What is made follows the rules or nearly does, and all of it follows from the dice.
"""

import itertools
from typing import NamedTuple

import made_up
from made_envelopes import TAGS, EnvelopeMaker
from made_up import OFTEN, changed
from reference.capture_files import packets
from reference.directions import MOST_AHEAD, MOST_DIRECTIONS
from reference.fragments import MOST_DATAGRAMS
from reference.judging import Refused

TCP, UDP = 6, 17
FIN, SYN, RST, ACK = 0x01, 0x02, 0x04, 0x10
FRAGMENT = 44

RAW_IP = 101

# Messages of more octets would make captures that are slow to try.
MOST_MESSAGE = 3000

# How probable each part of a packet is wrong.
FAULTS = [0, 0, 0, 0.003, 0.02]


def number(value, size, order="big"):
    return (value % 256**size).to_bytes(size, order)


class Ends(NamedTuple):
    """Who sends, and to whom."""

    source: bytes
    source_port: int
    target: bytes
    target_port: int

    def turned(self):
        return Ends(self.target, self.target_port, self.source, self.source_port)


class Piece(NamedTuple):
    """A segment of a direction: its place (the octets after a SYN are at 0), its flags and octets."""

    place: int
    flags: int
    octets: bytes


class PacketMaker:
    """Makes IP packets, in which each part of a header is wrong with some probability."""

    def __init__(self, dice, faults):
        self.dice = dice
        self.faults = faults
        # How probable fragments are.
        self.fragments = 0.1

    def maybe(self, probability):
        return self.dice.random() < probability

    def near(self, value, size, weight=1):
        """A number, or another one, which is more probable with a weight."""
        if self.maybe(self.faults * weight):
            value = self.dice.choice([0, value + 1, value - 1, value + 4, 2 * value, self.dice.randrange(256**size)])
        return number(value, size)

    def ends(self, port):
        """Two ends of which the second has this port."""
        size = self.dice.choice([4, 16])
        hosts = [b"\x7f\0\0\1", b"\x0a\0\0\x05"] if size == 4 else [bytes(15) + b"\1", self.ipv6_address()]
        return Ends(self.dice.choice(hosts), self.dice.randrange(32768, 32778), self.dice.choice(hosts), port)

    def ipv6_address(self):
        """An address with zeros in it, so that its text has `::` or nearly has it."""
        if self.maybe(0.2):
            return bytes(10) + b"\xff\xff\x0a\0\0\1"
        return b"".join(number(self.dice.choice([0, 0, 1, 0xFE80, 0xABC]), 2) for _ in range(8))

    def datagram(self, ends, octets):
        """The packets of a datagram of UDP."""
        size = 8 + len(octets)
        ports = number(ends.source_port, 2) + number(ends.target_port, 2)
        return self.ip(ends, UDP, ports + self.near(size, 2) + self.dice.randbytes(2) + octets)

    def segment(self, ends, sequence_number, piece):
        """The packets of a segment of TCP."""
        options = self.dice.choice([b"", b"", bytes(4), b"\1\1\x08\x0a" + bytes(8), bytes(40)])
        header = (
            number(ends.source_port, 2)
            + number(ends.target_port, 2)
            + number(sequence_number, 4)
            + self.dice.randbytes(4)
            + self.near(4 * (20 + len(options)), 1)
            + self.near(piece.flags, 1)
            + self.dice.randbytes(6)
        )
        return self.ip(ends, TCP, header + options + piece.octets)

    def segments(self, segments):
        """The packets of segments, each given by its ends, its sequence number and the piece."""
        return list(itertools.chain.from_iterable(self.segment(*segment) for segment in segments))

    def ip(self, ends, protocol, payload):
        """The packets of a datagram, which may be in fragments."""
        make = self.ipv4 if len(ends.source) == 4 else self.ipv6
        identification = self.dice.randrange(64)
        bounds = self.bounds(len(payload)) if self.maybe(self.fragments) else [(0, len(payload))]
        return [
            make(ends, protocol, payload[begin:end], (identification, begin, end < len(payload)))
            for begin, end in bounds
        ]

    def bounds(self, size):
        """The bounds of fragments, in some order, with copies and overlaps now and then."""
        step = self.dice.choice([8, 64, 552, 1480])
        bounds = [(begin, min(begin + step, size)) for begin in range(0, size, step)]
        if self.maybe(0.5):
            self.dice.shuffle(bounds)
        if self.maybe(0.2):
            bounds.insert(self.dice.randrange(len(bounds)), self.dice.choice(bounds))
        if self.maybe(self.faults * OFTEN):
            begin = 8 * self.dice.randint(0, size // 8)
            end = min(begin + self.dice.choice([0, 8, 13, 64]), size)
            bounds.insert(self.dice.randrange(len(bounds)), (begin, end))
        if self.maybe(self.faults * OFTEN):
            bounds.pop()
        return bounds

    def ipv4(self, ends, protocol, payload, fragment):
        identification, place, more = fragment
        options = bytes(4 * self.dice.choice([0, 0, 0, 1, 10]))
        size = 20 + len(options)
        total = 0 if self.maybe(0.05) else size + len(payload)
        header = (
            self.near(0x40 + size // 4, 1)
            + self.dice.randbytes(1)
            + self.near(total, 2)
            + number(identification, 2)
            + self.near(0x2000 * more + place // 8, 2)
            + self.dice.randbytes(1)
            + self.near(protocol, 1)
            + self.dice.randbytes(2)
        )
        return header + ends.source + ends.target + options + payload

    def ipv6(self, ends, protocol, payload, fragment):
        identification, place, more = fragment
        headers = [(self.dice.choice([0, 43, 60]), None) for _ in range(self.dice.choice([0, 0, 0, 1, 2]))]
        if place or more or self.maybe(0.05):
            headers.append((FRAGMENT, b"\0" + self.near(place + more, 2) + number(identification, 4)))
        octets = b""
        for (kind, after_next), (following, _) in zip(headers, [*headers[1:], (protocol, None)]):
            octets += self.near(following, 1) + (self.extension() if kind != FRAGMENT else after_next)
        octets += payload
        size = 0 if self.maybe(0.05) else len(octets)
        first = headers[0][0] if headers else protocol
        header = self.near(0x60, 1) + bytes(3) + self.near(size, 2) + self.near(first, 1) + b"\x40"
        return header + ends.source + ends.target + octets

    def extension(self):
        """An extension header without its first octet."""
        groups = self.dice.choice([0, 0, 1, 3])
        return self.near(groups, 1) + bytes(6 + 8 * groups)


class ConnectionMaker:
    """Makes the packets of exchanges."""

    def __init__(self, dice, faults, real):
        self.dice = dice
        self.packets = PacketMaker(dice, faults)
        self.faults = faults
        self.real = [stream for stream in real if len(stream) <= MOST_MESSAGE]

    def maybe(self, probability):
        return self.packets.maybe(probability)

    def message(self):
        """A message, right or nearly so."""
        if self.maybe(0.3):
            return made_up.Maker(self.dice, self.dice.choice(made_up.FAULTS)).message()
        octets = self.dice.choice(self.real)[4:]
        return changed(self.dice, octets) if self.maybe(0.1) else octets

    def change_password(self):
        """A message of RFC 3244."""
        parts = [self.message() if self.maybe(0.9) else b"" for _ in range(2)]
        size = 6 + sum(map(len, parts))
        numbers = (self.packets.near(value, 2, OFTEN) for value in (size, 1, len(parts[0])))
        whole = b"".join([*numbers, *parts])
        return whole[: self.dice.randrange(8)] if self.maybe(0.05) else whole

    def stream(self, port):
        """What a direction sends."""
        if port != 464:
            return made_up.stream(self.dice, self.real)
        messages = [self.change_password() for _ in range(self.dice.choice([1, 1, 2]))]
        return b"".join(number(len(message), 4) + message for message in messages)

    def port(self):
        return self.dice.choice([88] * 12 + [464] * 3 + [750, 53])

    def datagrams(self):
        """A datagram and its reply."""
        port = self.port()
        ends = self.packets.ends(port)
        make = self.change_password if port == 464 else self.message
        octets = [b"" if self.maybe(0.02) else make() for _ in range(2)]
        return self.packets.datagram(ends, octets[0]) + self.packets.datagram(ends.turned(), octets[1])

    def connection(self):
        """Both directions of a connection, after which its ports may be used again."""
        port = self.port()
        ends = self.packets.ends(port)
        sent = []
        for _ in range(self.dice.choice([1, 1, 1, 2])):
            directions = [self.direction(way, self.stream(port)) for way in (ends, ends.turned())]
            sent += merged(self.dice, directions) if self.maybe(0.5) else directions[0] + directions[1]
        return sent

    def direction(self, ends, stream):
        """The packets of a direction, in which the SYN is late, or segments are lost or others come now and then."""
        pieces = self.pieces(stream)
        if self.maybe(0.1):
            pieces.insert(self.dice.randrange(len(pieces)), pieces.pop(0))
        for _ in range(self.dice.choice([0, 0, 1, 2])):
            pieces = self.disturbed(pieces)
        return self.numbered(ends, pieces)

    def numbered(self, ends, pieces):
        """The packets of segments, with sequence numbers that begin anywhere, often near their end."""
        near_end = 2**32 - self.dice.randrange(1, 600)
        first = self.dice.choice([0, 1, 2**31, near_end, near_end, self.dice.randrange(2**32)])
        return self.packets.segments((ends, first + piece.place, piece) for piece in pieces)

    def pieces(self, stream):
        """Segments of which a stream comes: of any size and in any order after the SYN, with copies of some.

        All may come again, as of a second interface.
        """
        few = [1] * (len(stream) < 200) + [7] * (len(stream) < 1000)
        step = self.dice.choice([*few, 37, 100, 536, 1448, 1448])
        places = range(0, len(stream), step)
        pieces = [Piece(place, ACK, stream[place : place + step]) for place in places]
        pieces += [self.copy(stream) for _ in range(self.dice.choice([0, 0, 1, len(pieces)]))]
        if self.maybe(0.7):
            pieces.append(Piece(len(stream), FIN | ACK, b""))
        pieces = self.ordered(pieces)
        with_syn = stream[: self.dice.choice([0, 0, 0, 10])]
        pieces = [Piece(-1, SYN, with_syn)] * self.dice.choice([1, 1, 1, 2]) + pieces
        return pieces + pieces if self.maybe(0.1) else pieces

    def copy(self, stream):
        """A segment of any octets of a stream."""
        place = self.dice.randint(0, len(stream))
        return Piece(place, ACK, stream[place : place + self.dice.choice([0, 1, 50, 1448])])

    def ordered(self, pieces):
        """Segments in order, or in any, or with a few that are exchanged."""
        if self.maybe(0.2):
            self.dice.shuffle(pieces)
        for _ in range(self.dice.choice([0, 0, 1, 5]) if len(pieces) > 1 else 0):
            place = self.dice.randrange(len(pieces) - 1)
            pieces[place : place + 2] = reversed(pieces[place : place + 2])
        return pieces

    def disturbed(self, pieces):
        """Segments of which one is lost, changed, or added."""
        place = self.dice.randrange(len(pieces))
        before, one, after = pieces[:place], pieces[place], pieces[place + 1 :]
        ahead = MOST_AHEAD + self.dice.choice([-1, 0, 1, 2, MOST_AHEAD])
        others = [
            [],
            [],
            [one, one],
            [one._replace(octets=self.dice.randbytes(len(one.octets))), one],
            [one, one._replace(octets=self.dice.randbytes(len(one.octets) + 3))],
            [one, Piece(one.place + len(one.octets) - 1, ACK, b"\xff")],
            [one, Piece(one.place + ahead, self.dice.choice([ACK, ACK, FIN]), self.dice.choice([b"early", b""]))],
            [one, Piece(one.place - self.dice.randrange(1, 2**31), ACK, b"late")],
            [one, Piece(self.dice.randrange(2**32), self.dice.choice([ACK, FIN]), b"any")],
            [one, Piece(one.place, RST | self.dice.choice([0, ACK, SYN]), self.dice.choice([b"", b"gone"]))],
            [one, Piece(one.place + len(one.octets), FIN, b"")],
            [one, Piece(self.dice.randrange(2**32), SYN, b"")],
            [one._replace(flags=one.flags ^ self.dice.choice([FIN, SYN, RST]))],
        ]
        return before + self.dice.choice(others) + after or [one]

    def exchange(self):
        """Requests and replies of a few flows, in any order, some of them again, and errors about them."""
        port = self.dice.choice([88, 88, 88, 464])
        flows = [self.packets.ends(port) for _ in range(self.dice.choice([1, 2, 3]))]
        requests, replies = ([self.one_of(kinds, port) for _ in range(3)] for kinds in (b"\x6a\x6c", b"\x6b\x6d\x7e"))
        sent = []
        for _ in range(self.dice.choice([3, 8, 20])):
            ends = self.dice.choice(flows)
            way, octets = self.dice.choice([(ends, requests), (ends, requests), (ends.turned(), replies), (ends.turned(), requests)])
            sent += self.packets.datagram(way, self.dice.choice(octets))
            if self.maybe(0.2) and sent:
                sent += self.failure(self.dice.choice(sent))
        return sent

    def one_of(self, kinds, port):
        """A message of some kinds, by its first octet, or one that changes a password."""
        if port == 464:
            return self.change_password()
        octets = self.dice.choice([stream[4:] for stream in self.real if stream[4] in kinds])
        return octets[:-1] if self.maybe(0.1) else octets

    def handshakes(self):
        """Segments that ask for connections, answer, reset or say nothing, of a few flows, and errors about them."""
        flows = [self.packets.ends(88) for _ in range(self.dice.choice([1, 2]))]
        request = self.one_of(b"\x6a\x6c", 88)
        pieces = [Piece(0, SYN, b""), Piece(0, SYN, b""), Piece(0, SYN | ACK, b""), Piece(0, RST | ACK, b""), Piece(0, RST, b"")]
        pieces += [Piece(1, ACK, b""), Piece(1, ACK, number(len(request), 4) + request)]
        sent = []
        for _ in range(self.dice.choice([3, 8, 20])):
            ends = self.dice.choice(flows)
            way = self.dice.choice([ends, ends, ends.turned()])
            sent += self.packets.segment(way, self.dice.choice([7, 7, 9]), self.dice.choice(pieces))
            if self.maybe(0.2) and sent:
                sent += self.failure(self.dice.choice(sent))
        return sent

    def failure(self, packet):
        """The packets of an error of ICMP that quotes a packet, or of something like it."""
        is_ipv6 = len(packet) > 0 and packet[0] >> 4 == 6
        ends = self.packets.ends(0)
        while (len(ends.source) == 16) != is_ipv6:
            ends = self.packets.ends(0)
        protocol, kinds = (58, [1, 2, 3, 4, 128]) if is_ipv6 else (1, [3, 3, 11, 12, 5, 8])
        header = number(self.dice.choice(kinds), 1) + number(self.dice.randrange(16), 1) + bytes(6)
        quote = packet[: self.dice.choice([20, 24, 28, 44, 48, 100])]
        return self.packets.ip(ends, protocol, header + quote)

    def noise(self):
        """What is not of Kerberos."""
        ends = self.packets.ends(self.dice.choice([53, 80, 4789, 4500]))
        return self.dice.choice(
            [
                self.packets.datagram(ends, b"?"),
                self.packets.segment(ends, 1, Piece(0, ACK, b"GET")),
                self.packets.ip(ends, self.dice.choice([1, 58, 132, 50, FRAGMENT]), self.dice.randbytes(20)),
                [self.dice.randbytes(self.dice.choice([0, 1, 30]))] if self.maybe(0.2) else [],
            ]
        )

    def sent(self):
        """The packets of some exchanges, mixed."""
        makers = [self.datagrams, self.connection, self.connection, self.exchange, self.handshakes, self.noise]
        sent = merged(self.dice, [self.dice.choice(makers)() for _ in range(self.dice.choice([1, 1, 2, 4]))])
        return EnvelopeMaker(self.packets).wrapped(sent) if self.maybe(0.3) else sent


def merged(dice, lists):
    """The items of lists, each in its order."""
    turns = [index for index, items in enumerate(lists) for _ in items]
    dice.shuffle(turns)
    rests = [iter(items) for items in lists]
    return [next(rests[turn]) for turn in turns]


def version(octets):
    return octets[0] >> 4 if octets else 0


def ether_type(dice, octets):
    """That of IPv4 or IPv6, or of ARP for what is neither."""
    return number({4: 0x0800, 6: 0x86DD}.get(version(octets), dice.choice([0x0800, 0x0806])), 2)


def family(dice, octets):
    return dice.choice([10, 23, 24, 28, 30]) if version(octets) == 6 else dice.choice([2] * 20 + [7])


def vlan_tag(dice):
    return number(dice.choice(TAGS), 2) + dice.randbytes(2)


def ethernet(dice, octets):
    tags = [vlan_tag(dice) for _ in range(dice.choice([0, 0, 1, 2]))]
    padding = dice.randbytes(dice.choice([0, 0, 7, max(46 - len(octets), 0)]))
    following = ether_type(dice, octets) + octets
    if octets and dice.random() < 0.1:
        return EnvelopeMaker(PacketMaker(dice, dice.choice(FAULTS))).frame(octets) + padding
    if dice.random() < 0.05:
        organization = dice.choice([b"\0\0\0", b"\0\0\xf8", b"\0\x80\xc2", b"\0\0\x0c"])
        following = number(dice.randrange(1501), 2) + b"\xaa\xaa\x03" + organization + following
    return dice.randbytes(12) + b"".join(tags) + following + padding


def hardware(dice):
    """The type of hardware in Linux cooked: Ethernet, loopback, netlink, and two with a header of their own."""
    return number(dice.choice([1] * 10 + [772, 824, 770, 803]), 2)


# What is put before an IP packet, by link type.
LINKS = {
    0: lambda dice, octets: number(family(dice, octets), 4, dice.choice(["big", "little"])) + octets,
    1: ethernet,
    12: lambda dice, octets: octets,
    14: lambda dice, octets: octets,
    RAW_IP: lambda dice, octets: octets,
    108: lambda dice, octets: number(family(dice, octets), 4) + octets,
    113: lambda dice, octets: dice.randbytes(2) + hardware(dice) + dice.randbytes(10) + ether_type(dice, octets) + octets,
    228: lambda dice, octets: octets,
    229: lambda dice, octets: octets,
    276: lambda dice, octets: ether_type(dice, octets) + dice.randbytes(6) + hardware(dice) + dice.randbytes(10) + octets,
}


class Captured(NamedTuple):
    """A packet as a file has it."""

    # In nanoseconds.
    time: int
    link: int
    octets: bytes
    size: int


def captured(dice, sent, links):
    """IP packets as they are captured: with one of some links, times, and less than all octets now and then."""
    snaplen = dice.choice([2**18] * 12 + [120, 80, 30])
    time = dice.choice([1763337600] * 4 + [0, 2**32 - 1]) * 10**9
    found = []
    for octets in sent:
        time += dice.choice([0, 1, 999, 10**6, 10**9 - 1])
        link = dice.choice(links)
        octets = LINKS.get(link, LINKS[RAW_IP])(dice, octets)
        cut = dice.choice([snaplen] * 150 + [dice.randrange(100)])
        found.append(Captured(time, link, octets[:cut], len(octets)))
    return found


class FileMaker:
    """Makes files of packets, in which each number is wrong with some probability."""

    def __init__(self, dice, faults):
        self.dice = dice
        self.faults = faults
        self.order = dice.choice(["big", "little"])

    def number(self, value, size):
        if self.dice.random() < self.faults:
            value += self.dice.choice([-1, 1, 4, -4, 2**24, self.dice.randrange(2**32)])
        return number(value, size, self.order)

    def numbers(self, size, *values):
        return b"".join(self.number(value, size) for value in values)

    def pcap(self, packets):
        """All packets have the link type of the first."""
        magic, units = self.dice.choice([(0xA1B2C3D4, 10**6), (0xA1B23C4D, 10**9)])
        link = packets[0].link if packets else 1
        upper = self.dice.choice([0, 0, 0x1, 0x3F]) << 26
        header = self.numbers(2, 2, 4) + self.numbers(4, 0, 0, 2**18, link + upper)
        records = [self.pcap_packet(packet, units) for packet in packets]
        return b"".join([number(magic, 4, self.order), header, *records])

    def pcap_packet(self, packet, units):
        seconds, rest = divmod(packet.time, 10**9)
        if self.faults and self.dice.random() < 0.02:
            rest = self.dice.choice([10**9, 2**42])
        return self.numbers(4, seconds, rest * units // 10**9, len(packet.octets), packet.size) + packet.octets

    def block(self, block_type, body):
        body += bytes(-len(body) % 4)
        length = self.number(12 + len(body), 4)
        again = self.number(12 + len(body), 4) if self.dice.random() < self.faults else length
        return number(block_type, 4, self.order) + length + body + again

    def section(self):
        self.order = self.dice.choice(["big", "little"])
        body = self.number(0x1A2B3C4D, 4) + self.numbers(2, 1, 0) + number(2**64 - 1, 8)
        return self.block(0x0A0D0D0A, body + self.options([]))

    def interface(self, link, resolution):
        options = [(9, bytes([resolution]))] if resolution != 6 or self.dice.random() < 0.5 else []
        if self.dice.random() < 0.1:
            options.append((14, number(self.dice.choice([0, 3600, -(2**31), 2**40]), 8, self.order)))
        snaplen = self.dice.choice([0, 0, 2**18, 96])
        return self.block(1, self.numbers(2, link, 0) + self.number(snaplen, 4) + self.options(options))

    def options(self, wanted):
        """A list of options with others among them, and with its end or without."""
        options = list(wanted)
        for _ in range(self.dice.choice([0, 0, 0, 1, 2])):
            other = (self.dice.choice([1, 2, 9, 11, 14]), self.dice.randbytes(self.dice.choice([0, 1, 3, 8, 9])))
            options.insert(self.dice.randint(0, len(options)), other)
        octets = b""
        for code, value in options:
            octets += self.numbers(2, code, len(value)) + value + bytes(-len(value) % 4)
        return octets + self.dice.choice([b"", bytes(4), bytes(4), bytes(8)])

    def pcapng(self, packets):
        octets, interfaces = b"", []
        for packet in packets:
            if not octets or self.dice.random() < 0.02:
                octets, interfaces = octets + self.section(), []
            if packet.link not in [link for link, _ in interfaces] or self.dice.random() < 0.02:
                resolution = self.dice.choice([6, 6, 9, 3, 0, 12, 0x80, 0x94])
                if self.dice.random() >= self.faults:
                    octets += self.interface(packet.link, resolution)
                interfaces.append((packet.link, resolution))
            octets += self.packet(packet, interfaces) + self.other()
        return octets or self.section()

    def packet(self, packet, interfaces):
        index = self.dice.choice([index for index, (link, _) in enumerate(interfaces) if link == packet.link])
        resolution = interfaces[index][1]
        units = 2 ** (resolution & 0x7F) if resolution & 0x80 else 10**resolution
        time = packet.time * units // 10**9
        rest = self.numbers(4, time >> 32, time, len(packet.octets), packet.size) + packet.octets
        rest += bytes(-len(packet.octets) % 4)
        kind = self.dice.choice([6] * 10 + [2] + [3] * (index == 0))
        if kind == 3:
            return self.block(3, self.number(packet.size, 4) + packet.octets)
        if kind == 2:
            return self.block(2, self.numbers(2, index, 0) + rest)
        return self.block(6, self.number(index, 4) + rest + self.options([]))

    def other(self):
        """A block that is passed over, now and then."""
        if self.dice.random() >= 0.05:
            return b""
        block_type = self.dice.choice([4, 5, 10, 0xBAD, 0x80000001])
        return self.block(block_type, self.dice.randbytes(self.dice.choice([0, 4, 20])))


def again(dice, octets):
    """The packets of a real capture, some of them lost, twice, exchanged or cut."""
    found = [Captured(packet.time or 0, *packet[2:]) for packet in whole_packets(octets)]
    for _ in range(dice.choice([0, 1, 1, 3, 10]) if len(found) > 1 else 0):
        place = dice.randrange(len(found))
        found[place : place + 1] = other_packets(dice, found[place])
        earlier = dice.randint(max(place - 5, 0), place)
        found.insert(earlier, found.pop(min(place, len(found) - 1)))
    return found


def damaged(dice, octets):
    """A capture, some packets of which are lost, twice, exchanged or cut, or come again with another octet."""
    found = again(dice, octets)
    for _ in range(dice.choice([0, 0, 1, 2])):
        place = dice.randrange(len(found))
        before, last = found[place].octets[:-1], found[place].octets[-1:]
        found.insert(dice.randint(place + 1, len(found)), found[place]._replace(octets=before + bytes(octet ^ 1 for octet in last)))
    return FileMaker(dice, 0).pcap(found)


def other_packets(dice, one):
    """What comes in place of a packet."""
    octets = changed(dice, one.octets)
    return dice.choice(
        [
            [one, one],
            [one, one._replace(octets=one.octets[: dice.randrange(len(one.octets) + 1)])],
            [one._replace(octets=one.octets[: dice.randrange(len(one.octets) + 1)])],
            [one._replace(octets=octets, size=max(one.size, len(octets)))],
        ]
    )


def whole_packets(octets):
    """The packets of a file up to a fault."""
    found = []
    try:
        for packet in packets(octets):
            found.append(packet)
    except Refused:
        pass
    return found


def capture(dice, streams, captures):
    """A capture: of packets that are made up, or of a real one, right or nearly so."""
    is_pcap = dice.random() < 0.5
    if captures and dice.random() < 0.3:
        found = again(dice, dice.choice(captures))
    else:
        links = [dice.choice([1] * 8 + [195, *LINKS]) for _ in range(1 if is_pcap else dice.choice([1, 1, 2]))]
        found = captured(dice, ConnectionMaker(dice, dice.choice(FAULTS), streams).sent(), links)
    maker = FileMaker(dice, dice.choice([0, 0, 0, 0.001, 0.005]))
    octets = maker.pcap(found) if is_pcap else maker.pcapng(found)
    for _ in range(dice.choice([0, 0, 0, 0, 1, 2])):
        octets = changed(dice, octets)
    return octets


def options(dice):
    """What is said of a capture beside the file."""
    return dice.choice(["", "", "", " --limit 300", " --port 750", " --strict"])


def packet_option(dice, octets):
    """The number of a packet, mostly one that is there, or none."""
    return f" --packet {dice.randint(1, len(whole_packets(octets)) + 2)}" if dice.random() < 0.3 else ""


def raw_pcap(dice, sent):
    """A capture of IP packets that is whole."""
    return FileMaker(dice, 0).pcap([Captured(10**18, RAW_IP, octets, len(octets)) for octets in sent])


def without_faults(dice, streams):
    """A maker of exchanges whose packets are right, and none a fragment."""
    maker = ConnectionMaker(dice, 0, streams)
    maker.packets.fragments = 0
    return maker


def whole_direction(dice, streams):
    """A stream, and a capture of it in segments of which none is lost or changed."""
    maker = without_faults(dice, streams)
    stream = maker.stream(88)
    return stream, raw_pcap(dice, maker.numbered(maker.packets.ends(88), maker.pieces(stream)))


def kdc(host):
    """The ends of a direction to a KDC, by the number of the host."""
    return Ends(b"\x0a" + number(host, 3), 40000, b"\x7f\0\0\1", 88)


def many_directions(maker):
    """Three more directions than are kept: of those that began first one has ended, and one is within a frame."""
    stream = maker.dice.choice(maker.real)
    cut, fin, rest = Piece(0, ACK, stream[:20]), Piece(0, FIN, b""), Piece(20, ACK, stream[20:])
    pieces = [(host, Piece(-1, SYN, b"")) for host in range(MOST_DIRECTIONS)]
    pieces += [(0, cut), (1, cut), (2, fin), (3, cut)]
    pieces += [(host, Piece(-1, SYN, b"")) for host in range(MOST_DIRECTIONS, MOST_DIRECTIONS + 3)]
    pieces += [(host, rest) for host in range(4)]
    return maker.packets.segments((kdc(host), 1000 + piece.place, piece) for host, piece in pieces)


def many_fragments(maker):
    """One more datagram than is kept, each in two fragments, of which the first ones come before all the others."""
    message = maker.dice.choice(maker.real)[4:]
    [packet] = maker.packets.datagram(kdc(0), message)
    octets = packet[-8 - len(message) :]
    firsts = [(identification, 0, True) for identification in range(MOST_DATAGRAMS + 1)]
    lasts = [(identification, 16, False) for identification in reversed(range(MOST_DATAGRAMS + 1))]
    return [
        maker.packets.ipv4(kdc(0), UDP, octets[place : 16 if more else None], (identification, place, more))
        for identification, place, more in firsts + lasts
    ]


def much_that_waits(maker):
    """A direction in which the greatest number of octets wait, and one in which one more does."""
    pieces = []
    missing = 10
    for host, waiting in enumerate([MOST_AHEAD, MOST_AHEAD + 1]):
        refused = number(missing + waiting - 4, 4) + bytes(missing + waiting - 4)
        stream = refused + maker.dice.choice(maker.real)
        places = range(missing, missing + waiting, 60000)
        pieces.append((host, Piece(-1, SYN, b"")))
        pieces += [(host, Piece(place, ACK, refused[place : place + 60000])) for place in places]
        pieces.append((host, Piece(0, ACK, stream[:missing])))
        pieces.append((host, Piece(len(refused), FIN, stream[len(refused) :])))
    return maker.packets.segments((kdc(host), 1000 + piece.place, piece) for host, piece in pieces)


def long_captures(dice, streams):
    """Captures that pass each limit of what is kept: of directions, of datagrams in fragments, and of what waits."""
    maker = without_faults(dice, streams)
    return [raw_pcap(dice, make(maker)) for make in (many_directions, many_fragments, much_that_waits)]
