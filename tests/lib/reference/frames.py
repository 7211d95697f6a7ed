"""Frames, the refusal of each that has one, and the records of streams (RFC 4120, 7.2.2)."""

import math

from .grammar import MESSAGES
from .judging import Ended, Refused
from .messages import record_or_refusal
from .records import Record, refused
from .values import count, number

LIMIT = 16777216


class Frames:
    """The frames of a stream whose octets come one after another.

    After a frame that is refused the next one begins at its end, if its length is known.
    """

    def __init__(self, read, limit=LIMIT):
        # Gives what is found in the contents of a frame: records and refusals.
        self.read = read
        self.limit = limit
        # The octets there are of a frame that is open, and where it begins.
        self.front = b""
        self.at = 0
        # How many octets to come are passed over.
        self.passed = 0
        # The path of what is open.
        self.path = None

    def take(self, octets):
        """What is found with some more octets, in order."""
        self.front += octets
        while True:
            gone = min(self.passed, len(self.front))
            self.passed -= gone
            self.front = self.front[gone:]
            self.at += gone
            self.path = None
            try:
                found = self.frame()
            except Ended as ended:
                self.path = ended.path
                return
            n = self.length()
            self.passed = math.inf if n >= 2**31 else 4 + n
            yield from (one.within(self.at, n) if isinstance(one, Refused) else one for one in found)

    def length(self):
        return int.from_bytes(self.front[:4], "big")

    def frame(self):
        """What is found in the frame that is open."""
        if len(self.front) < 4:
            raise Ended
        n = self.length()
        for why, holds in (("HighBit", n >= 2**31), ("TooLong", n > self.limit), ("Empty", n == 0)):
            if holds:
                return [Refused(3, why)]
        found = self.read(self.front[4 : 4 + n], n)
        return [one.moved(4) if isinstance(one, Refused) else one for one in found]

    def is_over(self):
        """Whether all that comes is passed over."""
        return self.passed == math.inf

    def cut(self):
        """The refusal of the frame that is open, if one is, at the end of the stream."""
        length = self.length() if len(self.front) >= 4 else None
        return [Refused(len(self.front), "Truncated", self.path, self.at, length)] if self.front else []


def found_in_by(read, octets, limit):
    """What is found in the frames of a stream, and the refusals."""
    frames = Frames(read, limit)
    yield from frames.take(octets)
    yield from frames.cut()


def found_in(octets, limit, messages):
    """The records of the messages of a stream, and the refusals."""
    return found_in_by(lambda octets, n: [record_or_refusal(octets, n, messages)], octets, limit)


def stream(octets, limit=LIMIT, messages=MESSAGES):
    """The records of a stream of frames up to the first that is refused, and the status of the program."""
    records = []
    for found in found_in(octets, limit, messages):
        if isinstance(found, Refused):
            return [*records, refused(found, {"messages": count(records)})], 1
        records.append(found)
    return [*records, Record("end", {"messages": count(records)})], 0


def stream_going_on(octets, limit=LIMIT, messages=MESSAGES):
    """The same of a stream whose frames are listed also after one that is refused."""
    records, listed, faults = [], 0, 0
    for found in found_in(octets, limit, messages):
        if isinstance(found, Refused):
            faults += 1
            found = refused(found, {"messages": number(listed)})
        else:
            listed += 1
        records.append(found)
    return [*records, Record("end", {"messages": number(listed), "refused": number(faults)})], min(faults, 1)
