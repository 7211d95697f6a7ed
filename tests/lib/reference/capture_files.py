"""Capture files, pcap and pcapng: their packets, up to the end of the file or to the first field at fault."""

from typing import NamedTuple

from .files import FIELD_LIMIT, Fields

# The magic of a pcap, with the order of its numbers and the units of its times in a second.
PCAP_MAGICS = {
    bytes.fromhex("A1B2C3D4"): ("big", 10**6),
    bytes.fromhex("D4C3B2A1"): ("little", 10**6),
    bytes.fromhex("A1B23C4D"): ("big", 10**9),
    bytes.fromhex("4D3CB2A1"): ("little", 10**9),
}
PCAP_VERSION = (2, 4)

# The types of the blocks of a pcapng that are read; that of a section header is the same in either order.
INTERFACE, OLD_PACKET, SIMPLE_PACKET, ENHANCED_PACKET = 1, 2, 3, 6
SECTION_HEADER = 0x0A0D0D0A

BYTE_ORDERS = {bytes.fromhex("1A2B3C4D"): "big", bytes.fromhex("4D3C2B1A"): "little"}
PCAPNG_MAJOR_VERSION = 1

# The fewest octets that a block has: its type, and its length twice.
LEAST_BLOCK = 12

# The options of an interface that are read, with the size of each, and the one that ends a list of options.
END_OF_OPTIONS, TIME_RESOLUTION, TIME_OFFSET = 0, (9, 1), (14, 8)

NANOSECONDS = 10**9


class Packet(NamedTuple):
    # From 1.
    number: int
    # In nanoseconds since 1970-01-01; None if the file has no time of the packet.
    time: int
    link: int
    # The octets that were captured.
    octets: bytes
    # How many octets it had on the wire.
    size: int


class Interface(NamedTuple):
    link: int
    # The most octets that are captured of a packet; 0 for any number.
    most: int
    # The units of its times in a second.
    units: int
    # What is added to its times, in seconds.
    offset: int

    def time(self, units):
        """So many units after its beginning, in nanoseconds."""
        return self.offset * NANOSECONDS + units * NANOSECONDS // self.units


def packets(octets):
    """The packets of a capture file, whose format its first four octets say."""
    fields = Fields(octets)
    magic = fields.take("magic", 4)
    if magic in PCAP_MAGICS:
        fields.order, units = PCAP_MAGICS[magic]
        yield from pcap_packets(fields, units)
    elif int.from_bytes(magic, "big") == SECTION_HEADER:
        fields.place = 0
        yield from Blocks(fields).packets()
    else:
        fields.refuse("magic", "Magic", 4)


def pcap_packets(fields, units):
    """The packets of a pcap after its magic; its times are seconds and a fraction in units."""
    link = pcap_link(fields)
    packet_count = 0
    while not fields.at_end():
        path = f"packet[{packet_count}]"
        seconds = fields.number(f"{path}.seconds", 4)
        fraction = fields.number(f"{path}.fraction", 4)
        captured = fields.number(f"{path}.captured-length", 4)
        if captured > FIELD_LIMIT:
            fields.refuse(f"{path}.captured-length", "TooLong", 4, length=captured)
        original = fields.number(f"{path}.original-length", 4)
        octets = fields.take(f"{path}.data", captured)
        packet_count += 1
        time = seconds * NANOSECONDS + fraction * (NANOSECONDS // units)
        yield Packet(packet_count, time, link, octets, max(captured, original))


def pcap_link(fields):
    """The link type in the header of a pcap, of which the magic was read."""
    version = fields.take("version", 4)
    if tuple(int.from_bytes(part, fields.order) for part in (version[:2], version[2:])) != PCAP_VERSION:
        fields.refuse("version", "Version", 4)
    for unread in ("thiszone", "sigfigs", "snaplen"):
        fields.take(unread, 4)
    return fields.number("linktype", 4) & 0x03FFFFFF


class Blocks:
    """The blocks of a pcapng, one after another."""

    def __init__(self, fields):
        self.fields = fields
        self.block_count = 0
        self.packet_count = 0
        # The interfaces of the section.
        self.interfaces = []

    def packets(self):
        while not self.fields.at_end():
            packet = self.block()
            self.block_count += 1
            if packet is not None:
                self.packet_count += 1
                yield Packet(self.packet_count, *packet)

    def path(self, name):
        return f"block[{self.block_count}].{name}"

    def number(self, name, size, signed=False):
        return self.fields.number(self.path(name), size, signed)

    def refuse(self, name, why, octets_before=0, length=None):
        """Refuses a field as `Fields` does."""
        self.fields.refuse(self.path(name), why, octets_before, length)

    def block(self):
        """The next block: what there is of a packet in it but for the number, or None."""
        block_type = self.number("type", 4)
        if block_type == SECTION_HEADER:
            self.begin_section()
        length = self.number("length", 4)
        if length < LEAST_BLOCK or length % 4 != 0:
            self.refuse("length", "Overrun", 4, length)
        if length > FIELD_LIMIT:
            self.refuse("length", "TooLong", 4, length)
        packet = self.body(block_type, length - LEAST_BLOCK)
        if self.number("length-again", 4) != length:
            self.refuse("length-again", "Overrun", 4)
        return packet

    def begin_section(self):
        """The byte order of a section, which follows the length of its header and says how to read it."""
        fields = self.fields
        place = fields.place
        fields.take(self.path("length"), 4)
        order = fields.take(self.path("byte-order"), 4)
        if order not in BYTE_ORDERS:
            self.refuse("byte-order", "Magic", 4)
        fields.order = BYTE_ORDERS[order]
        fields.place = place
        self.interfaces = []

    def body(self, block_type, size):
        """The content of a body of this size, all of which has to be there before it is read."""
        fields = self.fields
        begin = fields.place
        fields.take(self.path("body"), size)
        fields.place, fields.room_end = begin, begin + size
        read = {
            SECTION_HEADER: self.section_header,
            INTERFACE: self.interface,
            OLD_PACKET: self.old_packet,
            SIMPLE_PACKET: self.simple_packet,
            ENHANCED_PACKET: self.enhanced_packet,
        }
        packet = read[block_type]() if block_type in read else None
        fields.place, fields.room_end = begin + size, None
        return packet

    def section_header(self):
        self.number("byte-order", 4)
        self.fields.one_of(self.path("version"), 2, (PCAPNG_MAJOR_VERSION,), "Version")

    def interface(self):
        link = self.number("linktype", 2)
        self.number("reserved", 2)
        most = self.number("snaplen", 4)
        options = self.options()
        resolution = options.get(TIME_RESOLUTION, b"\x06")[0]
        units = 2 ** (resolution & 0x7F) if resolution & 0x80 else 10**resolution
        offset = int.from_bytes(options.get(TIME_OFFSET, b""), self.fields.order, signed=True)
        self.interfaces.append(Interface(link, most, units, offset))

    def options(self):
        """The first option of each code and size, up to the one that ends them or to the end of the body."""
        fields = self.fields
        found = {}
        while fields.place < fields.room_end:
            code = self.number("options", 2)
            size = self.number("options", 2)
            if code == END_OF_OPTIONS:
                break
            if fields.place + size > fields.room_end:
                self.refuse("options", "Overrun", 4)
            found.setdefault((code, size), fields.take(self.path("options"), size))
            fields.take(self.path("options"), -size % 4)
        return found

    def old_packet(self):
        interface = self.announced(2)
        self.number("drops", 2)
        return self.timed_packet(interface)

    def enhanced_packet(self):
        return self.timed_packet(self.announced(4))

    def announced(self, size):
        """The interface whose number has this number of octets."""
        index = self.number("interface", size)
        if index >= len(self.interfaces):
            self.refuse("interface", "Overrun", size)
        return self.interfaces[index]

    def timed_packet(self, interface):
        high = self.number("timestamp", 4)
        time = interface.time(high * 2**32 + self.number("timestamp", 4))
        captured = self.number("captured-length", 4)
        original = self.number("original-length", 4)
        octets = self.fields.take(self.path("data"), captured)
        return time, interface.link, octets, max(captured, original)

    def simple_packet(self):
        """A packet of the first interface, without a time and the number of its octets."""
        if not self.interfaces:
            self.refuse("interface", "Overrun")
        interface = self.interfaces[0]
        original = self.number("original-length", 4)
        captured = min(original, interface.most or original, self.fields.room_end - self.fields.place)
        octets = self.fields.take(self.path("data"), captured)
        return None, interface.link, octets, original
