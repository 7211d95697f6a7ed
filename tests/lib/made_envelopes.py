"""Envelopes round packets of IP, right or nearly so: tags, MPLS, PPPoE, GRE, ERSPAN, IP in IP, AH, VXLAN and Geneve."""

import itertools

IPV4_IN_IP, IPV6_IN_IP, GRE, AUTHENTICATION = 4, 41, 47, 51
ETHER_TYPES = {4: 0x0800, 6: 0x86DD}
PPP_NUMBERS = {0x0800: 0x0021, 0x86DD: 0x0057, 0x8847: 0x0281, 0x8848: 0x0283}
TAGS = (0x8100, 0x88A8, 0x9100, 0x9200, 0x9300)

# The ports of tunnels that are followed, and of some that are not.
VXLAN_PORTS, GENEVE_PORT, OTHER_PORTS = (4789, 8472), 6081, (1701, 2152, 4500, 6635)


class EnvelopeMaker:
    """Puts packets of IP into envelopes; `packets` makes the packets of the outer IP."""

    def __init__(self, packets):
        self.packets = packets
        self.dice = packets.dice

    def near(self, value, size):
        return self.packets.near(value, size, 3)

    def ether_type(self, octets):
        return ETHER_TYPES.get(octets[0] >> 4 if octets else 0, 0x0806)

    def typed(self, octets):
        """An EtherType, and what follows it: IP, or an envelope of links in which that is."""
        makers = [self.labels, self.session, self.bridged, self.tagged]
        return self.dice.choice(makers)(octets) if self.packets.maybe(0.3) else (self.ether_type(octets), octets)

    def frame(self, octets):
        """A frame of Ethernet."""
        ether_type, octets = self.typed(octets)
        return self.dice.randbytes(12) + self.near(ether_type, 2) + octets

    def tagged(self, octets):
        ether_type, octets = self.typed(octets)
        return self.dice.choice(TAGS), self.dice.randbytes(2) + self.near(ether_type, 2) + octets

    def labels(self, octets):
        """MPLS, and a pseudowire of Ethernet now and then."""
        count = self.dice.choice([1, 1, 2, 4])
        stack = b""
        for index in range(count):
            third = self.dice.randrange(0, 256, 2) + (index == count - 1)
            stack += self.dice.randbytes(2) + self.near(third, 1) + self.dice.randbytes(1)
        if self.packets.maybe(0.3):
            octets = self.near(0, 2) + self.dice.randbytes(2) + self.frame(octets)
        return self.dice.choice([0x8847, 0x8848]), stack + octets

    def session(self, octets):
        """PPPoE, of which the number of PPP has one octet or two."""
        ether_type, octets = self.typed(octets)
        ppp = PPP_NUMBERS.get(ether_type, self.dice.choice([0xC021, 0x00FD]))
        size = 1 if ppp % 2 == 1 and ppp < 0x100 and self.packets.maybe(0.5) else 2
        return 0x8864, self.near(0x1100, 2) + self.dice.randbytes(4) + self.near(ppp, size) + octets

    def bridged(self, octets):
        return 0x6558, self.frame(octets)

    def gre(self, octets):
        """GRE with some of its options; ERSPAN among it."""
        flags = sum(flag for flag in (0x8000, 0x2000, 0x1000) if self.packets.maybe(0.4))
        options = self.dice.randbytes(4 * flags.bit_count())
        ether_type, inner = self.dice.choice([self.typed, self.typed, self.mirrored])(octets)
        if ether_type == 0x88BE and flags & 0x1000:
            inner = self.near(0x10, 1) + self.dice.randbytes(7) + inner
        return self.near(flags, 2) + self.near(ether_type, 2) + options + inner

    def mirrored(self, octets):
        """ERSPAN of type I (or II, if it is numbered) and III."""
        if self.packets.maybe(0.5):
            return 0x88BE, self.frame(octets)
        platform = self.dice.choice([0, 1])
        kind = self.dice.choice([0, 0, 2])
        last = self.dice.randrange(0, 256, 2) + platform
        header = self.near(0x20, 1) + self.dice.randbytes(9) + self.near(kind << 2, 1) + bytes([last])
        return 0x22EB, header + self.dice.randbytes(8 * platform) + (self.frame(octets) if kind == 0 else octets)

    def vxlan(self, octets):
        flags = self.dice.choice([0x08000000, 0x88000000 + self.dice.randrange(2**24)])
        return self.near(flags, 4) + self.dice.randbytes(3) + self.near(0, 1) + self.frame(octets)

    def geneve(self, octets):
        words = self.dice.choice([0, 0, 1, 5])
        ether_type, inner = self.dice.choice([self.typed, self.bridged])(octets)
        flags = self.dice.choice([0, 0x40, 0x80])
        header = self.near(words, 1) + self.near(flags, 1) + self.near(ether_type, 2) + self.dice.randbytes(3)
        return header + self.near(0, 1) + self.dice.randbytes(4 * words) + inner

    def authenticated(self, octets):
        words = self.dice.choice([1, 4, 7])
        protocol = IPV6_IN_IP if octets[:1] >= b"\x60" else IPV4_IN_IP
        return self.near(protocol, 1) + self.near(words, 1) + self.dice.randbytes(4 * words + 6) + octets

    def over_ip(self, octets):
        """The packets of an envelope over IP, and now and then of one that is not followed."""
        ends = self.packets.ends(self.dice.choice([*VXLAN_PORTS, GENEVE_PORT]))
        if self.packets.maybe(0.05):
            ends = ends._replace(source_port=self.dice.choice([53, 88, 1023]), target_port=self.dice.choice(OTHER_PORTS))
        match self.dice.randrange(5):
            case 0:
                return self.packets.ip(ends, IPV6_IN_IP if octets[:1] >= b"\x60" else IPV4_IN_IP, octets)
            case 1:
                return self.packets.ip(ends, GRE, self.gre(octets))
            case 2:
                return self.packets.ip(ends, AUTHENTICATION, self.authenticated(octets))
            case _:
                make = self.geneve if ends.target_port == GENEVE_PORT else self.vxlan
                return self.packets.datagram(ends, make(octets))

    def wrapped(self, sent):
        """Packets of IP, each in some envelopes."""
        for _ in range(self.dice.choice([1, 1, 1, 2, 3])):
            sent = list(itertools.chain.from_iterable(self.over_ip(octets) for octets in sent))
        return sent
