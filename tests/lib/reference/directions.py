"""The directions of TCP connections: what comes of segments in any order, copied, cut or lost (RFC 9293)."""

from collections import deque

from .records import Record
from .values import number, optional, path, reason

# Why octets that were captured are in no message.
UNREAD_REASONS = "Surplus Reset Before Ahead Old Differs".split()

# How far after the next octet expected a segment may begin, and how many octets may wait.
MOST_AHEAD = 1048576

# How many directions are kept.
MOST_DIRECTIONS = 65536

# How many of the last octets that were taken copies are compared with; the same after the end of a direction, and of how
# many directions that ended.
MOST_KEPT, MOST_KEPT_AFTER, MOST_ENDED = 65536, 4096, 4096


def lost(place, octets, where):
    """Octets that are not in the capture, from a place on."""
    return Record("lost", {"place": number(place), "octets": number(octets), "in": path(where)})


def unread(place, octets, why):
    """So many octets from a place on that no message has, or nothing if there are none."""
    if octets > 0:
        shown = {"place": optional(number, place), "octets": number(octets), "why": reason(why, UNREAD_REASONS)}
        yield Record("unread", shown)


# That a direction begins.
BEGUN = Record("begun", {})


class Direction:
    """What one end of a connection sends."""

    def __init__(self, first, frames):
        # The sequence number of octet 0.
        self.first = first
        self.frames = frames
        # The place of the next octet expected: all before it are delivered.
        self.due = 0
        # The octets before it that copies are compared with: the last ones.
        self.recent = bytearray()
        # The octets that came early, by their places.
        self.waiting = {}
        # The place after the last octet, captured or not.
        self.seen = 0
        # The place of the first octet that was captured of the segments that began too far ahead.
        self.far = None
        # The place of the FIN.
        self.fin = None
        self.has_ended = False

    def place(self, segment):
        """The place of a segment's first octet: that within 2^31 of the next one expected (RFC 9293, 3.4)."""
        ahead = (segment.first() - self.first - self.due) % 2**32
        return self.due + (ahead if ahead < 2**31 else ahead - 2**32)

    def take(self, segment):
        """What is found with one more segment."""
        place = self.place(segment)
        end = place + segment.held.size
        # A receiver drops a FIN with an old number.
        is_fin = segment.fin and end >= self.due
        if segment.held.size > 0 or segment.fin:
            self.seen = max(self.seen, end)
        if place > self.due + MOST_AHEAD:
            if segment.held.octets:
                self.far = place if self.far is None else min(self.far, place)
            yield from unread(place, len(segment.held.octets), "Ahead")
            return
        yield from self.copies(place, segment)
        self.keep(place, segment)
        if is_fin:
            self.fin = end if self.fin is None else min(self.fin, end)
        yield from self.frames.take(self.taken())
        is_whole = self.fin is not None and self.fin <= self.due
        if is_whole or len(self.waiting) > MOST_AHEAD:
            yield from self.end()

    def keep(self, place, segment):
        """Lets the octets of a segment wait, except copies of those that came before."""
        for octet_place, octet in enumerate(segment.held.octets, place):
            if octet_place >= self.due:
                self.waiting.setdefault(octet_place, octet)

    def is_keep_alive(self, place, segment):
        """Whether a segment is one octet 00 right before the next one expected, or where the FIN was due (RFC 9293, 3.8.4)."""
        is_there = place == self.due - 1 or self.has_ended and place == self.due == self.fin
        return is_there and segment.held == (b"\0", 1)

    def copies(self, place, segment):
        """Octets before octet 0, copies of octets that are no longer kept, and copies that differ."""
        if self.is_keep_alive(place, segment):
            return
        octets = segment.held.octets
        places = range(place, place + len(octets))
        first_kept = self.due - len(self.recent)
        yield from unread(-place, sum(there < 0 for there in places), "Before")
        old = [there for there in places if 0 <= there < first_kept]
        yield from unread(min(old, default=None), len(old), "Old")
        differs = [there for there, octet in zip(places, octets) if there >= first_kept and there >= 0 and self.differs(there, octet)]
        yield from unread(min(differs, default=None), len(differs), "Differs")

    def differs(self, place, octet):
        """Whether another octet was taken or waits at a place, or none was taken where the FIN of an ended direction is."""
        if place < self.due:
            return self.recent[place - self.due] != octet
        return self.has_ended or self.waiting.get(place, octet) != octet

    def forget(self):
        """Lets go of the octets that copies are compared with."""
        self.recent.clear()

    def is_copy(self, segment):
        """Whether the direction had all octets of a segment; a keep-alive has one where its FIN was due."""
        place = self.place(segment)
        return 0 <= place and place + segment.held.size <= self.due + (self.fin == self.due)

    def taken(self):
        """The octets that are no longer early."""
        octets = bytearray()
        while self.due in self.waiting:
            octets.append(self.waiting.pop(self.due))
            self.due += 1
        self.recent += octets
        del self.recent[:-MOST_KEPT]
        return bytes(octets)

    def end(self):
        """What is found at the end of the direction: nothing after a frame whose length is not known."""
        self.has_ended = True
        del self.recent[:-MOST_KEPT_AFTER]
        if self.frames.is_over():
            return []
        captured = list(self.waiting)
        if self.far is not None and self.far > self.due:
            captured.append(self.far)
        end = min(captured, default=self.seen)
        if end > self.due:
            return [lost(self.due, end - self.due, self.frames.path)]
        return self.frames.cut()


class Directions:
    """All directions, by their flows, in the order in which they began."""

    def __init__(self, frames):
        # Gives the frames of a flow.
        self.frames = frames
        self.kept = {}
        # Those that ended last, whose octets copies are still compared with.
        self.ended = deque()

    def take(self, segment):
        """What is found with one more segment: each with its flow."""
        flow = segment.flow
        if segment.rst:
            for found in unread(None, len(segment.held.octets), "Reset"):
                yield flow, found
            direction = self.kept.get(flow)
            is_open = direction is not None and not direction.has_ended
            yield from self.end(flow)
            if is_open:
                self.note_end(direction)
            return
        direction = self.kept.get(flow)
        if segment.syn and (direction is None or direction.first != segment.first()):
            yield from self.begin(segment)
        elif segment.held.size > 0 and (direction is None or direction.has_ended and not direction.is_copy(segment)):
            yield from self.begin(segment)
            yield flow, Record("joined", {})
        direction = self.kept.get(flow)
        if direction is None:
            return
        if direction.has_ended:
            found_here = direction.copies(direction.place(segment), segment)
        else:
            found_here = self.going_on(direction, segment)
        for found in found_here:
            yield flow, found

    def going_on(self, direction, segment):
        """What is found with a segment of a direction that is open, which may end with it."""
        yield from direction.take(segment)
        if direction.has_ended:
            self.note_end(direction)

    def note_end(self, direction):
        """Lets go of what the direction took that ended 4096 before this one."""
        self.ended.append(direction)
        if len(self.ended) > MOST_ENDED:
            self.ended.popleft().forget()

    def begin(self, segment):
        """Begins a direction with a segment, again or in place of another one if there are too many."""
        flow = segment.flow
        yield from self.end(flow)
        if flow not in self.kept and len(self.kept) == MOST_DIRECTIONS:
            ended = (other for other, direction in self.kept.items() if direction.has_ended)
            gone = next(ended, next(iter(self.kept)))
            yield from self.end(gone)
            del self.kept[gone]
        self.kept.pop(flow, None)
        self.kept[flow] = Direction(segment.first(), self.frames(flow))
        yield flow, BEGUN

    def end(self, flow):
        """Ends the direction of a flow, if it is open."""
        direction = self.kept.get(flow)
        if direction is not None and not direction.has_ended:
            for found in direction.end():
                yield flow, found

    def end_all(self):
        for flow in list(self.kept):
            yield from self.end(flow)
