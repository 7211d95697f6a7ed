"""Packets in packets, and fragments in fragments: captures that cost most for what is in envelopes. Packets begin with their IP
header, so that they are small."""

import itertools
import struct

from capture import FIRST_PORT, KERBEROS, UDP, internet
from worst_streams import SMALL

RAW = 101
FRAMING = 14
CLIENT = b"\x0a\0\0\1"
IPV4_IN_IP, GRE, VXLAN = 4, 47, 4789

# As many datagrams as are put together at once, but one.
OPEN = 1023


def datagram(octets, port=KERBEROS):
    return struct.pack(">HHHH", FIRST_PORT, port, 8 + len(octets), 0) + octets


def udp(octets, port=KERBEROS):
    return internet(CLIENT, UDP, datagram(octets, port))[FRAMING:]


def again(packet):
    return lambda size: itertools.repeat(packet)


def unmeasured(protocol, octets):
    """A packet of IPv4 that does not tell its length, so that it may have any."""
    header = internet(CLIENT, protocol, b"")[FRAMING:]
    return header[:2] + bytes(2) + header[4:] + octets


def tags(number):
    """So many VLAN tags in GRE, and then ARP."""
    return unmeasured(GRE, bytes.fromhex("00008100") + (number - 1) * bytes.fromhex("00008100") + bytes.fromhex("00000806"))


def nested(number, around):
    """A datagram of Kerberos, put into a packet so many times."""
    packet = udp(SMALL["AP-REPs"])
    for _ in range(number):
        packet = around(packet)
    return packet


def in_ip(packet):
    return unmeasured(IPV4_IN_IP, packet)


def in_vxlan(packet):
    return udp(b"\x08" + bytes(7) + bytes(12) + b"\x08\0" + packet, VXLAN)


def piece(number, flags, octets):
    """A fragment of a datagram that carries a packet of IPv4."""
    packet = internet(CLIENT, IPV4_IN_IP, octets)[FRAMING:]
    return packet[:4] + struct.pack(">HH", number, flags) + packet[8:]


def in_each_other(size):
    """Datagrams in two fragments. The first one of each is in the datagram before, so that the first one of all, which comes
    last, completes them all, one after another."""
    for first in itertools.count(step=OPEN):
        carried = udp(SMALL["AP-REPs"])
        for number in range(first + OPEN, first, -1):
            yield piece(number % (1 << 16), 1, carried[8:])
            carried = piece(number % (1 << 16), 0x2000, carried[:8])
        yield carried


# What makes the packets of a capture of a number of octets.
PACKETS = {
    "packets with many tags": again(tags(16000)),
    "packets with a million tags": again(tags(1000000)),
    "packets in packets": again(nested(3000, in_ip)),
    "VXLAN in VXLAN": again(nested(1200, in_vxlan)),
    "fragments in fragments": in_each_other,
}
