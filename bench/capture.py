"""Times bin/krbls on captures of real messages that are made here, in datagrams of UDP and in connections of TCP of
one message and of twenty, beside krbls on the same messages in frames, cat and, if it is installed, tshark; and says
how much memory each used, and how many times as long as the stream the capture takes.
First captures of a quarter of the octets, so that the growth is seen."""

import itertools
import shutil
import struct
import sys
import tempfile

from frames import real_frames
from timing import best_run, peak_octets, rate

CAPTURE = ["bin/krbls", "capture"]
STREAM = ["bin/krbls", "stream"]
TSHARK = ["tshark", "-n", "-r", "-", "-Y", "kerberos"]

MIB = 1 << 20
TCP, UDP = 6, 17
FIN, SYN, RST, ACK = 0x01, 0x02, 0x04, 0x10
ETHERNET = 1
KERBEROS = 88
FIRST_PORT, PORTS = 1024, 60000

# How many octets a segment has at most.
SEGMENT = 1448


def ends(number):
    """The address and port of a client, which are not those of another one."""
    host, port = divmod(number, PORTS)
    return struct.pack(">I", 0x0A000000 + host), FIRST_PORT + port


def internet(client, protocol, octets):
    """An IPv4 packet of a client to the KDC, over Ethernet."""
    header = struct.pack(">BBHHHBBH4s4s", 0x45, 0, 20 + len(octets), 0, 0, 64, protocol, 0, client, b"\x0a\xff\0\1")
    return bytes(12) + b"\x08\0" + header + octets


def datagram(number, frame):
    """The packet that carries the message of a frame."""
    client, port = ends(number)
    message = frame[4:]
    return [internet(client, UDP, struct.pack(">HHHH", port, KERBEROS, 8 + len(message), 0) + message)]


def segment(client, port, sequence, flags, octets):
    """The packet of a segment that a client sends to the KDC."""
    header = struct.pack(">HHIIBBHHH", port, KERBEROS, sequence, 0, 0x50, flags, 0xFFFF, 0, 0)
    return internet(client, TCP, header + octets)


class Connections:
    """The packets of clients that each send this many frames, one after another, and have nothing more to send."""

    def __init__(self, frames):
        self.frames = frames
        self.sequence = None

    def __call__(self, number, frame):
        connection, earlier = divmod(number, self.frames)
        client, port = ends(connection)
        packets = []
        if earlier == 0:
            packets.append(segment(client, port, 999, SYN, b""))
            self.sequence = 1000
        for place in range(0, len(frame), SEGMENT):
            packets.append(segment(client, port, self.sequence + place, ACK, frame[place : place + SEGMENT]))
        self.sequence += len(frame)
        if earlier + 1 == self.frames:
            packets.append(segment(client, port, self.sequence, FIN | ACK, b""))
        return packets


def made(packets_of, frames, size):
    """A capture of `size` octets or some more, a stream of the same messages, and how many they are."""
    capture, stream = tempfile.NamedTemporaryFile(suffix=".pcap"), tempfile.NamedTemporaryFile()
    capture.write(struct.pack(">IHHIIII", 0xA1B2C3D4, 2, 4, 0, 0, 1 << 18, ETHERNET))
    written = messages = 0
    for frame in itertools.cycle(frames):
        for packet in packets_of(messages, frame):
            seconds, micros = divmod(messages, 1000000)
            capture.write(struct.pack(">IIII", 1795000000 + seconds, micros, len(packet), len(packet)))
            written += 16 + capture.write(packet)
        stream.write(frame)
        messages += 1
        if written >= size:
            break
    capture.flush()
    stream.flush()
    return capture, stream, messages


def print_cost(name, command, file, messages):
    """Prints what a command costs on a file with some messages, and returns its seconds."""
    size = file.tell()
    seconds = best_run(command, file.name)
    memory = peak_octets(command, file.name) / 1e6
    print(
        f"    {name}, {size} octets: {rate(size, seconds)}, {messages / seconds / 1e6:.3f} million messages/s, "
        f"{memory:.1f} MB of memory",
        flush=True,
    )
    return seconds


def main():
    most = int(sys.argv[1]) * MIB
    frames = real_frames()
    kinds = {
        "datagrams": lambda: datagram,
        "connections of one": lambda: Connections(1),
        "connections of twenty": lambda: Connections(20),
    }
    for (name, packets_of), size in itertools.product(kinds.items(), (most // 4, most)):
        capture, stream, messages = made(packets_of(), frames, size)
        with capture, stream:
            print(f"{messages} messages in {name}:")
            of_capture = print_cost("capture", CAPTURE, capture, messages)
            of_stream = print_cost("the same as a stream", STREAM, stream, messages)
            print(f"    the capture takes {of_capture / of_stream:.2f} times the time of the stream")
            print_cost("cat of the capture", ["cat"], capture, messages)
            if shutil.which("tshark"):
                print_cost("tshark of the capture", TSHARK, capture, messages)


if __name__ == "__main__":
    main()
