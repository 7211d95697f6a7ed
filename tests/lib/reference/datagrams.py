"""From a packet to what UDP and TCP get of it: links, IP (RFC 791, RFC 8200), envelopes, and the two headers."""

from collections.abc import Callable
from functools import partial
from typing import NamedTuple


class EtherType:
    """Numbers that say what follows a link's header; in Ethernet and in a tag it may be a length in place of one."""

    MOST_LENGTH = 0x05DC
    LEAST = 0x0600
    IPV4 = 0x0800
    IPV6 = 0x86DD
    TAGS = (0x8100, 0x88A8, 0x9100, 0x9200, 0x9300)
    MPLS = 0x8847
    MPLS_MULTICAST = 0x8848
    PPPOE_SESSION = 0x8864
    BRIDGING = 0x6558
    ERSPAN = 0x88BE
    ERSPAN_3 = 0x22EB


class Protocol:
    """Numbers of protocols, and of the headers that IPv6 has before one."""

    HOP_BY_HOP = 0
    ICMP = 1
    IPV4 = 4
    TCP = 6
    UDP = 17
    IPV6 = 41
    ROUTING = 43
    FRAGMENT = 44
    GRE = 47
    AUTHENTICATION = 51
    ICMPV6 = 58
    DESTINATION = 60


# The families of a BSD loopback, with the EtherType of each: IPv6 has one by system.
LOOPBACK_FAMILIES = {2: EtherType.IPV4, **dict.fromkeys((10, 23, 24, 28, 30), EtherType.IPV6)}

# Types of hardware in Linux cooked: of netlink, and of those whose octets begin with a header of their own.
NETLINK = 824
HARDWARE_WITH_A_HEADER = (770, 803)

# In Linux cooked this stands for 802.2 where an EtherType would be.
COOKED_802_2 = 4

# The first octets of 802.2, and the organizations of SNAP.
SNAP = bytes.fromhex("AAAA03")
IPV4_OVER_802_2 = bytes.fromhex("060603")
ORGANIZATIONS_OF_TYPES = (bytes.fromhex("000000"), bytes.fromhex("0000F8"))
BRIDGED = bytes.fromhex("0080C2")

PASSED = (Protocol.HOP_BY_HOP, Protocol.ROUTING, Protocol.FRAGMENT, Protocol.DESTINATION)

FOLLOWED = (Protocol.UDP, Protocol.TCP, Protocol.AUTHENTICATION, Protocol.IPV4, Protocol.IPV6, Protocol.GRE)

# What carries no packet of IP, and so is passed over. All that is neither here nor followed is unread.
HARMLESS_TYPES = {
    *(0x0806, 0x0842, 0x22EA, 0x22F0, 0x22F4, 0x6001, 0x6002, 0x6003, 0x6004, 0x6007, 0x8035, 0x809B, 0x80F3),
    *(0x8137, 0x8138, 0x8204, 0x8808, 0x8809, 0x8863, 0x886C, 0x886D, 0x886F, 0x872D, 0x887B, 0x888E, 0x8892),
    *(0x8899, 0x88A2, 0x88A4, 0x88AB, 0x88B8, 0x88B9, 0x88BA, 0x88C7, 0x88CA, 0x88CC, 0x88CD, 0x88D9, 0x88E1),
    *(0x88E3, 0x88F5, 0x88F6, 0x88F7, 0x88F8, 0x88FB, 0x8902, 0x8906, 0x890D, 0x8912, 0x8914, 0x8915, 0x891D),
    *(0x8922, 0x893A, 0x8940, 0x9000),
}
# The numbers of PPP that are followed, as EtherTypes, and the first of those that set up the link.
PPP_TYPES = {0x21: EtherType.IPV4, 0x57: EtherType.IPV6, 0x281: EtherType.MPLS, 0x283: EtherType.MPLS}
PPP_CONTROL = 0x8000

# The flags of GRE: those of its options, that of the sequence number among them, and those that are not followed.
GRE_OPTIONS = (0x8000, 0x2000, 0x1000)
GRE_SEQUENCE = 0x1000
GRE_UNFOLLOWED = 0x4C07

# From ports below this one servers answer.
FIRST_PORT_OF_CLIENTS = 1024

HARMLESS_PROTOCOLS = {1, 2, 3, 8, 9, 33, 46, 58, 59, 88, 89, 103, 112, 113, 124, 132, 135, 136}


class Unread(Exception):
    """A header that is cut or wrong, or what is not known; with the flow, if the ports were read."""

    def __init__(self, flow=None):
        super().__init__()
        self.flow = flow


class Held(NamedTuple):
    """What a packet holds, or a part of that: the octets that were captured, and how many there were on the wire."""

    octets: bytes
    size: int

    def header(self, size):
        """The octets of a header of this size, which have to be there."""
        if size > len(self.octets):
            raise Unread
        return self.octets[:size]

    def after(self, size):
        return Held(self.octets[size:], self.size - size)

    def front(self, size):
        return Held(self.octets[:size], size)


class Fragment(NamedTuple):
    # What the fragments of one datagram have in common.
    key: tuple
    place: int
    is_last: bool


class Internet(NamedTuple):
    """An IP datagram or a fragment of one."""

    source: bytes
    target: bytes
    # What its octets begin with.
    protocol: int
    held: Held
    fragment: Fragment = None

    def is_ipv6(self):
        return len(self.source) == 16


class Endpoint(NamedTuple):
    address: bytes
    port: int


class Flow(NamedTuple):
    over: str
    source: Endpoint
    target: Endpoint


class Datagram(NamedTuple):
    """A datagram of UDP."""

    flow: Flow
    held: Held
    # The octets captured after its own, within the length of IP.
    surplus: bytes


class Segment(NamedTuple):
    """A segment of TCP."""

    flow: Flow
    held: Held
    sequence_number: int
    syn: bool
    fin: bool
    rst: bool
    ack: bool

    def first(self):
        """The sequence number of its first octet; that of a SYN is the one before."""
        return (self.sequence_number + self.syn) % 2**32


def number(octets, place, size):
    return int.from_bytes(octets[place : place + size], "big")


class Onward(NamedTuple):
    """A header that comes next: how it is read, and what begins with it."""

    read: Callable
    held: Held


def walked(found, is_ours):
    """What is found at the end of a walk from header to header: a datagram, a segment, a fragment, or None.

    A datagram to the port of a tunnel is one, unless it is of a flow of ours.
    """
    while True:
        if isinstance(found, Onward):
            found = found.read(found.held)
        elif isinstance(found, Datagram) and found.flow.target.port in TUNNELS and not is_ours(found.flow):
            found = tunnelled(found)
        else:
            return found


def by_type(ether_type, held):
    """What follows an EtherType."""
    if ether_type == EtherType.IPV4:
        return ipv4(held)
    if ether_type == EtherType.IPV6:
        return ipv6(held)
    if ether_type in EtherType.TAGS:
        return Onward(partial(by_type_or_length, number(held.header(4), 2, 2)), held.after(4))
    if ether_type in (EtherType.MPLS, EtherType.MPLS_MULTICAST):
        return labels(held)
    if ether_type == EtherType.PPPOE_SESSION:
        return session(held)
    if ether_type == EtherType.BRIDGING:
        return Onward(ethernet, held)
    if ether_type < EtherType.LEAST or ether_type in HARMLESS_TYPES:
        return None
    raise Unread


def by_type_or_length(type_or_length, held):
    """What follows the number in Ethernet and in a tag."""
    return logical_link(held) if type_or_length <= EtherType.MOST_LENGTH else by_type(type_or_length, held)


def logical_link(held):
    """802.2."""
    first = held.header(3)
    if first == IPV4_OVER_802_2:
        return ipv4(held.after(3))
    if first != SNAP:
        return None
    organization = held.header(6)[3:]
    if organization == BRIDGED:
        raise Unread
    if organization not in ORGANIZATIONS_OF_TYPES:
        return None
    return by_type(number(held.header(8), 6, 2), held.after(8))


def ethernet(held):
    return by_type_or_length(number(held.header(14), 12, 2), held.after(14))


def cooked(held, hardware_place, type_place, size):
    """Linux cooked, of which the type of hardware is looked at first."""
    hardware = number(held.header(hardware_place + 2), hardware_place, 2)
    if hardware == NETLINK:
        return None
    if hardware in HARDWARE_WITH_A_HEADER:
        raise Unread
    ether_type = number(held.header(size), type_place, 2)
    return logical_link(held.after(size)) if ether_type == COOKED_802_2 else by_type(ether_type, held.after(size))


def linux_cooked(held):
    return cooked(held, hardware_place=2, type_place=14, size=16)


def linux_cooked_2(held):
    return cooked(held, hardware_place=8, type_place=0, size=20)


def by_family(family, held):
    if family not in LOOPBACK_FAMILIES:
        raise Unread
    return by_type(LOOPBACK_FAMILIES[family], held)


def bsd_loopback(held):
    """A family in the order of the machine that captured: either is tried."""
    family = held.header(4)
    orders = [int.from_bytes(family, order) for order in ("big", "little")]
    return by_family(next(filter(LOOPBACK_FAMILIES.get, orders), None), held.after(4))


def openbsd_loopback(held):
    return by_family(number(held.header(4), 0, 4), held.after(4))


def raw(held):
    """An IP datagram of either version."""
    version = held.header(1)[0] >> 4
    return ipv4(held) if version == 4 else ipv6(held)


def ipv4(held):
    """RFC 791, 3.1. A total length of 0 is left by offloading: it is all of the packet."""
    header = held.header(20)
    size = 4 * (header[0] & 0x0F)
    total = number(header, 2, 2) or held.size
    if header[0] >> 4 != 4 or size < 20 or total < size:
        raise Unread
    held.header(size)
    source, target = header[12:16], header[16:20]
    protocol = header[9]
    identification = number(header, 4, 2)
    flags = number(header, 6, 2)
    place, more = 8 * (flags & 0x1FFF), flags & 0x2000 != 0
    datagram = Internet(source, target, protocol, held.front(total).after(size))
    if place or more:
        key = (source, target, identification, protocol)
        return kept(datagram._replace(fragment=Fragment(key, place, not more)), FOLLOWED)
    return by_protocol(datagram)


def ipv6(held):
    """RFC 8200, 3. A payload length of 0 is all of the packet."""
    header = held.header(40)
    if header[0] >> 4 != 6:
        raise Unread
    payload = held.after(40)
    payload = payload.front(number(header, 4, 2) or payload.size)
    return after_headers(Internet(header[8:24], header[24:40], header[6], payload))


def kept(fragment, protocols):
    """A fragment, if what its datagram begins with is one of these; it is passed over if that is harmless."""
    if fragment.protocol in protocols:
        return fragment
    if fragment.protocol in HARMLESS_PROTOCOLS:
        return None
    raise Unread


def after_headers(datagram):
    """RFC 8200, 4: what follows the headers that are passed in IPv6, or a fragment.

    A fragment that is all of its datagram is none (RFC 6946).
    """
    source, target, protocol, held, _ = datagram
    while protocol in PASSED:
        header = held.header(8)
        size = 8 if protocol == Protocol.FRAGMENT else 8 * (header[1] + 1)
        held.header(size)
        held = held.after(size)
        if protocol == Protocol.FRAGMENT and number(header, 2, 2) & 0xFFF9 != 0:
            place, is_last = number(header, 2, 2) & 0xFFF8, header[3] & 1 == 0
            key = (source, target, number(header, 4, 4))
            fragment = Fragment(key, place, is_last)
            return kept(Internet(source, target, header[0], held, fragment), FOLLOWED + PASSED)
        protocol = header[0]
    return by_protocol(Internet(source, target, protocol, held))


def after_ip(datagram):
    """What follows the header of IP, of either version."""
    return after_headers(datagram) if datagram.is_ipv6() else by_protocol(datagram)


def by_protocol(datagram):
    """What an IP datagram that is whole has, by its protocol."""
    match datagram.protocol:
        case Protocol.UDP:
            return with_ports("udp", udp, datagram)
        case Protocol.TCP:
            return with_ports("tcp", tcp, datagram)
        case Protocol.AUTHENTICATION:
            return authentication(datagram)
        case Protocol.IPV4:
            return Onward(ipv4, datagram.held)
        case Protocol.IPV6:
            return Onward(ipv6, datagram.held)
        case Protocol.GRE:
            return gre(datagram.held)
        case Protocol.ICMP | Protocol.ICMPV6:
            return icmp(datagram)
    if datagram.protocol in HARMLESS_PROTOCOLS:
        return None
    raise Unread


def authentication(datagram):
    """RFC 4302, 2: the protocol that follows, and a length in words of four octets, less two."""
    protocol, words = datagram.held.header(2)
    size = 4 * words + 8
    if size < 12:
        raise Unread
    datagram.held.header(size)
    return Onward(lambda held: after_ip(datagram._replace(protocol=protocol, held=held)), datagram.held.after(size))


def labels(held):
    """MPLS (RFC 3032): the last label has a third octet that is odd, and nothing says what follows it but its first octets."""
    is_last = False
    while not is_last:
        is_last = held.header(4)[2] & 1 == 1
        held = held.after(4)
    first = held.header(1)[0] >> 4
    if first in (4, 6):
        return Onward(raw, held)
    if first == 1:
        return None
    if held.header(4)[:2] != bytes(2):
        raise Unread
    return Onward(ethernet, held.after(4))


def session(held):
    """PPPoE (RFC 2516): version and type 1, code 0, a session, a length, and a number of PPP."""
    header = held.header(7)
    if header[:2] != bytes((0x11, 0x00)):
        raise Unread
    size = 7 if header[6] & 1 else 8
    ppp = number(held.header(size), 6, size - 6)
    if ppp in PPP_TYPES:
        return Onward(partial(by_type, PPP_TYPES[ppp]), held.after(size))
    if ppp >= PPP_CONTROL:
        return None
    raise Unread


def gre(held):
    """RFC 2784, RFC 2890."""
    header = held.header(4)
    flags, ether_type = number(header, 0, 2), number(header, 2, 2)
    size = 4 + 4 * sum(flags & option != 0 for option in GRE_OPTIONS)
    held.header(size)
    if flags & GRE_UNFOLLOWED != 0:
        raise Unread
    inner = held.after(size)
    if ether_type == EtherType.ERSPAN:
        return Onward(erspan_2 if flags & GRE_SEQUENCE else ethernet, inner)
    return Onward(erspan_3 if ether_type == EtherType.ERSPAN_3 else partial(by_type, ether_type), inner)


def erspan_2(held):
    """Version 1."""
    if held.header(8)[0] >> 4 != 1:
        raise Unread
    return Onward(ethernet, held.after(8))


def erspan_3(held):
    """Version 2; the kind of frame, and in the last bit whether eight octets of the platform follow."""
    header = held.header(12)
    size = 20 if header[11] & 1 else 12
    held.header(size)
    read = {0: ethernet, 2: raw}.get(header[10] >> 2 & 0x1F)
    if header[0] >> 4 != 2 or read is None:
        raise Unread
    return Onward(read, held.after(size))


def vxlan(held):
    """RFC 7348, or with a group policy."""
    header = held.header(8)
    if not (header[:4] == bytes.fromhex("08000000") or header[0] == 0x88) or header[7] != 0:
        raise Unread
    return Onward(ethernet, held.after(8))


def geneve(held):
    """RFC 8926, 3.4."""
    header = held.header(8)
    size = 8 + 4 * (header[0] & 0x3F)
    ether_type = number(header, 2, 2)
    held.header(size)
    if header[0] >> 6 != 0 or header[1] & 0x3F != 0 or header[7] != 0 or ether_type < EtherType.LEAST:
        raise Unread
    return Onward(partial(by_type, ether_type), held.after(size))


def esp_over_udp(held):
    """RFC 3948: ESP is not followed, but beside it are keep-alives and IKE."""
    if held == Held(b"\xff", 1) or held.header(4) == bytes(4):
        return None
    raise Unread


def not_followed(held):
    raise Unread


# By the port of the target: VXLAN, also as Linux had it, Geneve, and L2TP, GTP-U, Teredo, LISP, VXLAN-GPE, CAPWAP, GUE, MPLS.
TUNNELS = {
    **dict.fromkeys((4789, 8472), vxlan),
    6081: geneve,
    4500: esp_over_udp,
    **dict.fromkeys((1701, 2152, 3544, 4341, 4790, 5247, 6080, 6635), not_followed),
}


def tunnelled(datagram):
    """What is in a datagram to the port of a tunnel, which may be the answer of a server that has nothing to do with one."""
    try:
        return TUNNELS[datagram.flow.target.port](datagram.held)
    except Unread:
        if datagram.flow.source.port < FIRST_PORT_OF_CLIENTS:
            return None
        raise


def may_be_tunnel(flow):
    """Whether a datagram of which the header cannot be read may be a tunnel."""
    return flow.over == "udp" and flow.target.port in TUNNELS and flow.source.port >= FIRST_PORT_OF_CLIENTS


LINKS = {
    0: bsd_loopback,
    1: ethernet,
    12: raw,
    14: raw,
    101: raw,
    108: openbsd_loopback,
    113: linux_cooked,
    228: ipv4,
    229: ipv6,
    276: linux_cooked_2,
}


def carried(packet, is_ours):
    """What a packet carries: a datagram of UDP, a segment of TCP, a fragment, an error of ICMP, or None for what is passed over."""
    if packet.link not in LINKS:
        raise Unread
    return walked(Onward(LINKS[packet.link], Held(packet.octets, packet.size)), is_ours)


def with_ports(over, read, datagram):
    """The datagram of UDP or the segment of TCP in an IP datagram.

    The ports come first, so that what is wrong after them is known to be of Kerberos or not.
    """
    ports = datagram.held.header(4)
    source, target = (
        Endpoint(address, number(ports, place, 2)) for address, place in ((datagram.source, 0), (datagram.target, 2))
    )
    flow = Flow(over, source, target)
    try:
        return read(flow, datagram.held)
    except Unread as unread:
        raise Unread(flow) from unread


def udp(flow, held):
    """RFC 768."""
    header = held.header(8)
    size = number(header, 4, 2)
    if size < 8:
        raise Unread
    return Datagram(flow, held.front(size).after(8), held.octets[size:])


def tcp(flow, held):
    """RFC 9293, 3.1. Options need not be captured."""
    header = held.header(20)
    size = 4 * (header[12] >> 4)
    if size < 20 or size > held.size:
        raise Unread
    control = header[13]
    return Segment(
        flow=flow,
        held=held.after(size),
        sequence_number=number(header, 4, 4),
        syn=control & 0x02 != 0,
        fin=control & 0x01 != 0,
        rst=control & 0x04 != 0,
        ack=control & 0x10 != 0,
    )


class Failure(NamedTuple):
    """An error of ICMP (RFC 792) or of ICMPv6 (RFC 4443, 3), about a packet of a flow."""

    flow: Flow
    # Who sent it.
    by: bytes
    kind: int
    code: int


# The types of errors, by how many octets an address has: of ICMP and of ICMPv6.
ERRORS = {4: (Protocol.ICMP, (3, 11, 12)), 16: (Protocol.ICMPV6, (1, 2, 3, 4))}


def icmp(datagram):
    """The error that an IP datagram of ICMP is, or None."""
    protocol, kinds = ERRORS[len(datagram.source)]
    try:
        kind, code = datagram.held.header(8)[:2]
        if datagram.protocol != protocol or kind not in kinds:
            return None
        return Failure(quoted(datagram.held.after(8)), datagram.source, kind, code)
    except Unread:
        return None


def quoted(held):
    """The flow of the packet of UDP or TCP that is quoted, by its header of IP and the ports."""
    if held.header(1)[0] >> 4 == 4:
        header = held.header(20)
        size, source, target, protocol = 4 * (header[0] & 0x0F), header[12:16], header[16:20], header[9]
        is_later = number(header, 6, 2) & 0x1FFF != 0
        if size < 20 or is_later:
            raise Unread
        held.header(size)
        held = held.after(size)
    elif held.header(1)[0] >> 4 == 6:
        header = held.header(40)
        source, target, protocol = header[8:24], header[24:40], header[6]
        protocol, held = after_quoted_headers(protocol, held.after(40))
    else:
        raise Unread
    over = {Protocol.UDP: "udp", Protocol.TCP: "tcp"}.get(protocol)
    ports = held.header(4)
    if over is None:
        raise Unread
    return Flow(over, Endpoint(source, number(ports, 0, 2)), Endpoint(target, number(ports, 2, 2)))


def after_quoted_headers(protocol, held):
    """What follows the headers that are passed in IPv6, but for one of a later fragment."""
    while protocol in PASSED:
        header = held.header(8)
        if protocol == Protocol.FRAGMENT and number(header, 2, 2) & 0xFFF8 != 0:
            raise Unread
        size = 8 if protocol == Protocol.FRAGMENT else 8 * (header[1] + 1)
        held.header(size)
        protocol, held = header[0], held.after(size)
    return protocol, held
