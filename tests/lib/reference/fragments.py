"""Datagrams that are put together from their fragments (RFC 791, 3.2; RFC 8200, 4.5)."""

from .datagrams import Held, Internet, after_ip, walked

# The most octets of a datagram, and how many datagrams are put together at once.
MOST_OCTETS = 65535
MOST_DATAGRAMS = 1024


class Assembly:
    """The fragments of one datagram that have come, in any order."""

    def __init__(self):
        # The place of each, its octets, and whether it is the last one.
        self.fragments = set()
        # What the fragment at 0 begins with.
        self.protocol = None
        self.is_spoiled = False
        self.packet_count = 0

    def take(self, datagram):
        self.packet_count += 1
        place, is_last = datagram.fragment.place, datagram.fragment.is_last
        held = datagram.held
        one = (place, held.octets, is_last)
        if one in self.fragments and len(held.octets) == held.size:
            return
        if self.spoils(place, held, is_last):
            self.is_spoiled = True
        self.fragments.add(one)
        if place == 0:
            self.protocol = datagram.protocol

    def end(self):
        """Where the last fragment ends, if that has come."""
        return next((place + len(octets) for place, octets, is_last in self.fragments if is_last), None)

    def spoils(self, place, held, is_last):
        """Whether one more fragment spoils the datagram (RFC 5722 and RFC 8200, 4.5, of IPv6; one of IPv4 is treated alike)."""
        end, known_end = place + held.size, self.end()
        others = [(other, other + len(octets)) for other, octets, _ in self.fragments]
        return (
            end > MOST_OCTETS
            or len(held.octets) < held.size
            or (not is_last and held.size % 8 != 0)
            or any(place < other_end and other < end for other, other_end in others)
            or (known_end is not None and (end > known_end or (is_last and end < known_end)))
            or (is_last and any(end < other_end for _, other_end in others))
        )

    def whole(self):
        """All octets, if they are there."""
        if self.is_spoiled or self.end() is None:
            return None
        octets = b"".join(octets for _, octets, _ in sorted(self.fragments))
        return octets if len(octets) == self.end() else None


class Fragments:
    """The datagrams that are put together."""

    def __init__(self):
        # By what their fragments have in common, in the order in which they were begun.
        self.assemblies = {}
        self.given_up = 0

    def take(self, datagram, is_ours):
        """What is carried by the datagram that a fragment completes, which may be another fragment, or None."""
        octets, protocol = self.put_together(datagram)
        if octets is None:
            return None
        whole = Internet(datagram.source, datagram.target, protocol, Held(octets, len(octets)))
        return walked(after_ip(whole), is_ours)

    def put_together(self, datagram):
        """All octets with those of a fragment, once they are there, and what they begin with."""
        key = datagram.fragment.key
        if key not in self.assemblies:
            if len(self.assemblies) == MOST_DATAGRAMS:
                first = next(iter(self.assemblies))
                self.given_up += self.assemblies.pop(first).packet_count
            self.assemblies[key] = Assembly()
        assembly = self.assemblies[key]
        assembly.take(datagram)
        octets = assembly.whole()
        if octets is not None:
            del self.assemblies[key]
        return octets, assembly.protocol

    def unread(self):
        """How many fragments no whole datagram came of."""
        return self.given_up + sum(assembly.packet_count for assembly in self.assemblies.values())
