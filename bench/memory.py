"""Says how much memory bin/krbls has on what costs it most: captures of 65536 directions of connections that each have
the first octets of a frame, of requests and SYNs that nothing answers, a stream of one frame of 16 MiB, of the smallest
items, strings without octets, a capture of one packet of 16 MiB of frames without octets, and captures of packets in
packets; messages of the smallest items, listed item by item; and 1 GiB of connections that end."""

import itertools
import struct
import tempfile

import envelopes
from capture import ACK, CAPTURE, ETHERNET, MIB, STREAM, SYN, Connections, ends, segment
from frames import real_frames
from timing import most_octets
from worst_streams import LONG

ITEMS = ["bin/krbls", "items"]
DIRECTIONS = 65536
PRESENT = (512, 1024, 2048)
FRAME = 16 * MIB
STRING = b"\x1b\0"
# How many messages each connection that ends has, and the octets of all: some 70,000 connections.
MESSAGES, ALL = 20, 1024 * MIB
# Where an Ethernet packet has the total length of IPv4.
TOTAL_LENGTH = 16


# The smallest AS-REQ up to its nonce, and what follows that.
BEFORE_NONCE = bytes.fromhex("6a40 303e a103020105 a20302010a a432 3030 a007030500 00000000 a2031b0141 a511 180f") + b"20261130070000Z" + bytes.fromhex("a706 0204")
AFTER_NONCE = bytes.fromhex("a805 3003 020112")


def request(nonce):
    return BEFORE_NONCE + struct.pack(">I", 1 << 30 | nonce) + AFTER_NONCE


def opened(tag, size):
    """The octets before the contents of an item of a number of octets in all, at least 258 and less than 16 MiB."""
    octets = 2 if size < 0x10004 else 3
    return bytes([tag, 0x80 | octets]) + (size - 2 - octets).to_bytes(octets, "big")


def names(size):
    """The first octets of a frame of a number of octets, up to the strings: an AS-REP whose client's name is strings."""
    octets = struct.pack(">I", size)
    for before in ("6b", "30", "a003020105 a10302010b a3031b0141 a4", "30", "a003020101 a1", "30"):
        *whole, tag = bytes.fromhex(before)
        octets += bytes(whole)
        octets += opened(tag, 4 + size - len(octets))
    return octets


def capture(packets, link=ETHERNET, seconds=0):
    """A capture of packets, part by part."""
    yield struct.pack("<IHHIIII", 0xA1B2C3D4, 2, 4, 0, 0, 262144, link)
    for packet in packets:
        yield struct.pack("<IIII", seconds, 0, len(packet), len(packet)) + packet


def open_frames(size):
    """The packets of connections, which each begin and then have the first octets of a frame, in two segments."""
    frame = names(60000)
    frame += STRING * ((size - len(frame)) // 2)
    half = size // 2
    for number in range(DIRECTIONS):
        for flags, sequence, octets in ((SYN, 999, b""), (ACK, 1000, frame[:half]), (ACK, 1000 + half, frame[half:])):
            yield segment(*ends(number), sequence, flags, octets)


def empty_frames():
    """The packets of a connection that sends frames without octets, all in one segment. No total length of IPv4 has so
    many octets, so it is 0, as segmentation offload leaves it."""
    yield segment(*ends(0), 999, SYN, b"")
    packet = segment(*ends(0), 1000, ACK, b"")
    yield packet[:TOTAL_LENGTH] + bytes(2) + packet[TOTAL_LENGTH + 2 :] + bytes(FRAME - len(packet))


def ended_connections():
    """The packets of connections that each send messages and end."""
    connections = Connections(MESSAGES)
    for number, frame in enumerate(itertools.cycle(real_frames())):
        yield from connections(number, frame)


def sendings():
    """The packets of requests that are open, of as many flows as are kept, and of as many SYNs."""
    for number in range(2 * DIRECTIONS):
        yield segment(*ends(number), 999, SYN, b"")
        octets = request(number)
        yield segment(*ends(number), 1000, ACK, struct.pack(">I", len(octets)) + octets)


def within(parts, size):
    """Parts, until they have so many octets or some more."""
    for part in parts:
        yield part
        size -= len(part)
        if size <= 0:
            return


def whole_frame():
    """A stream of one frame, which is refused at its end, since the fields after the name are missing."""
    first = names(FRAME)
    yield first
    for _ in range((4 + FRAME - len(first)) // 2):
        yield STRING


def print_memory(name, command, parts):
    """Prints the most memory that a command had on octets in parts."""
    with tempfile.NamedTemporaryFile() as file:
        size = sum(file.write(part) for part in parts)
        file.flush()
        most = most_octets(command, file.name)
    print(f"{name}, {size} octets: {most / MIB:.1f} MiB of memory, {most / size:.2f} times as many octets", flush=True)


def main():
    for size in PRESENT:
        print_memory(f"{DIRECTIONS} directions, each with {size} octets of a frame", CAPTURE, capture(open_frames(size)))
    print_memory("a frame of strings without octets", STREAM, whole_frame())
    for form in ([], ["--json"]):
        print_memory(" ".join(["a packet of frames without octets", *form]), [*CAPTURE, *form], capture(empty_frames()))
    for form in ([], ["--names"]):
        print_memory(" ".join(["requests and SYNs that are open", *form]), [*CAPTURE, *form], capture(sendings()))
    for name, packets in envelopes.PACKETS.items():
        print_memory(name, CAPTURE, within(capture(packets(FRAME), envelopes.RAW), FRAME))
    for size, kind in itertools.product((MIB, 4 * MIB, 15 * MIB), ("PA-DATA", "encryption types")):
        print_memory(f"items of {kind}", ITEMS, [LONG[kind](size)])
    print_memory("connections that end", CAPTURE, within(capture(ended_connections()), ALL))


if __name__ == "__main__":
    main()
