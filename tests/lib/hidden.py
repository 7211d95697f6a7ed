"""What a capture hides: octets captured between ports of Kerberos that are in no message that is listed, and copies of none."""

import dataclasses

from reference.capture_files import packets
from reference.captures import PORT, Capture
from reference.datagrams import Segment
from reference.directions import Directions
from reference.frames import LIMIT, Frames
from reference.grammar import MESSAGES


@dataclasses.dataclass
class Stream:
    """What a direction took since it began, and the sequence number of the first of these octets."""

    first: int
    octets: bytearray

    def has(self, number, octet):
        """Whether the octet with a number is in it, at its place."""
        place = (number - self.first) % 2**32
        return place < len(self.octets) and self.octets[place] == octet

    def is_next(self, number):
        """Whether a number is that of one of its octets, or of the two after them."""
        return (number - self.first) % 2**32 <= len(self.octets) + 1

    def is_frames(self):
        """Whether it is whole frames, from its first octet to its last."""
        at = 0
        while at < len(self.octets):
            at += 4 + int.from_bytes(self.octets[at : at + 4], "big")
        return at == len(self.octets)


class Taking(Frames):
    """Frames that keep all octets that they take."""

    def __init__(self, read, limit):
        super().__init__(read, limit)
        self.octets = bytearray()

    def take(self, octets):
        self.octets += octets
        yield from super().take(octets)


class Watched(Capture):
    """A capture of which all streams, segments and datagrams are kept."""

    def __init__(self, limit, port, messages):
        super().__init__(limit, port, messages)
        self.directions = Directions(lambda of_flow: Taking(self.reading(of_flow), limit))
        self.carried = []
        # The directions of each flow, in the order in which they began.
        self.begun = {}

    def whole(self, found):
        carried = super().whole(found)
        if carried is not None and self.reading(carried.flow) is not None:
            self.carried.append(carried)
        return carried

    def take(self, packet):
        yield from super().take(packet)
        for flow, direction in self.directions.kept.items():
            begun = self.begun.setdefault(flow, [])
            if direction not in begun:
                begun.append(direction)

    def streams(self, flow):
        return [Stream(direction.first, direction.frames.octets) for direction in self.begun.get(flow, [])]

    def hidden(self):
        """What is hidden: datagrams that are not all there, streams that are no frames, and octets of segments that are in no stream."""
        for carried in self.carried:
            streams = self.streams(carried.flow)
            if not isinstance(carried, Segment):
                if carried.surplus or len(carried.held.octets) != carried.held.size:
                    yield carried
            elif not is_taken(streams, carried) and not is_keep_alive(streams, carried):
                yield carried
        yield from (flow for flow in self.begun if not all(stream.is_frames() for stream in self.streams(flow)))


def is_taken(streams, segment):
    numbers = enumerate(segment.held.octets, segment.first())
    return all(any(stream.has(number, octet) for stream in streams) for number, octet in numbers)


def is_keep_alive(streams, segment):
    """Whether it is one octet 00 before another one of a stream, or before or at its end (RFC 9293, 3.8.4)."""
    return segment.held == (b"\0", 1) and any(stream.is_next(segment.first() + 1) for stream in streams)


def watched(octets):
    """A capture with all its packets."""
    capture = Watched(LIMIT, PORT, MESSAGES)
    for packet in packets(octets):
        list(capture.take(packet))
    list(capture.end())
    return capture


def is_clean(capture):
    return not any(capture.totals()[name] for name in ("refused", "lost", "unread"))
