"""What happened in a capture: which request a reply answers, what was sent again, what got no answer, who was not reached."""

from collections import deque

from .judging import Refused
from .records import Record
from .values import ABSENT, called, ip_address, number, optional, span, told, whole_microseconds, word

# How many sendings are remembered.
MOST_SENDINGS = 65536

# What answers a request, by its kind; refusals and octets that are lost answer any.
ANSWERED_BY = {"AS-REQ": ("AS-REP", "KRB-ERROR"), "TGS-REQ": ("TGS-REP", "KRB-ERROR"), "KPASSWD": ("KPASSWD",)}
OF_ANY = ("refused", "lost")
REPLIES = ("AS-REP", "TGS-REP", "KRB-ERROR", *OF_ANY)

# The kind of a sending that is a SYN.
SYN = "SYN"

# The first octet of an AP-REQ.
AP_REQ = 0x6E

NONE = told(ABSENT)
NO_ANSWER = {"of": NONE, "after": NONE, "waited": NONE}

# The names of types of errors, and of the codes of each: of ICMP (RFC 792, RFC 1812) and of ICMPv6 (RFC 4443).
TYPES = {
    "icmp": {3: "destination-unreachable", 11: "time-exceeded", 12: "parameter-problem"},
    "icmpv6": {1: "destination-unreachable", 2: "packet-too-big", 3: "time-exceeded", 4: "parameter-problem"},
}
CODES = {
    ("icmp", 3): {
        0: "net-unreachable",
        1: "host-unreachable",
        2: "protocol-unreachable",
        3: "port-unreachable",
        4: "fragmentation-needed",
        5: "source-route-failed",
        6: "net-unknown",
        7: "host-unknown",
        9: "net-prohibited",
        10: "host-prohibited",
        11: "net-unreachable-for-tos",
        12: "host-unreachable-for-tos",
        13: "communication-prohibited",
    },
    ("icmp", 11): {0: "ttl-exceeded", 1: "reassembly-exceeded"},
    ("icmp", 12): {0: "pointer", 1: "option-missing", 2: "bad-length"},
    ("icmpv6", 1): {
        0: "no-route",
        1: "communication-prohibited",
        2: "beyond-scope",
        3: "address-unreachable",
        4: "port-unreachable",
        5: "source-policy-failed",
        6: "route-rejected",
    },
    ("icmpv6", 3): {0: "hop-limit-exceeded", 1: "reassembly-exceeded"},
    ("icmpv6", 4): {0: "erroneous-header", 1: "unrecognized-next-header", 2: "unrecognized-option"},
}


def digest(octets):
    """FNV-1a of 64 bits."""
    found = 14695981039346656037
    for octet in octets:
        found = (found ^ octet) * 1099511628211 % 2**64
    return found


class Moment:
    """A packet, and when it was captured, in whole microseconds, if that is known."""

    def __init__(self, packet):
        self.packet = packet.number
        self.time = whole_microseconds(packet.time)

    def since(self, other):
        is_known = self.time is not None and other.time is not None
        return told(span(self.time - other.time) if is_known else ABSENT)


class Sending:
    """A request or a SYN as it was sent."""

    def __init__(self, kind, flow, same, moment, first):
        self.kind = kind
        self.flow = flow
        # By what it is known: of a request how many octets it has and their digest, of a SYN its number.
        self.same = same
        self.moment = moment
        # When the same was sent first.
        self.first = first or moment
        self.is_open = True
        # An error was about it.
        self.is_erred = False

    def waited(self, moment):
        """How long it waited up to a moment."""
        return {
            "of": told(number(self.moment.packet)),
            "after": moment.since(self.moment),
            "waited": moment.since(self.first),
        }


def turned(flow):
    """The flow the other way round."""
    return flow._replace(source=flow.target, target=flow.source)


def unreachable(flow, how, answer, error=(NONE, NONE, NONE)):
    """That somebody was not reached, with the flow."""
    shown = {"how": told(word(how)), **dict(zip(("by", "type", "code"), error)), **answer}
    return flow, Record("unreachable", shown)


class Happened:
    """What happened in the packets that came, of which the last sendings are remembered."""

    def __init__(self):
        self.sendings = deque()
        # The latest sending of the same octets, the latest SYN of each flow, and the requests of each flow that are open.
        self.latest = {}
        self.syns = {}
        self.open = {}
        self.counts = dict.fromkeys(("answered", "unanswered", "again", "unreachable"), 0)

    def of_found(self, flow, found, packet):
        """What is told of something that is found, and the records after it."""
        moment = Moment(packet)
        kind = "refused" if isinstance(found, Refused) else found.kind
        if kind in ("AS-REQ", "TGS-REQ"):
            return ({"again": NONE}, []) if found.is_part else self.request(kind, flow, found.octets, moment)
        if kind == "KPASSWD":
            if found.ap[:1] == bytes([AP_REQ]):
                again, after = self.request(kind, flow, found.octets, moment)
                return {**again, **NO_ANSWER}, after
            return {"again": NONE, **self.reply(kind, flow, moment)}, []
        if kind in REPLIES:
            return NO_ANSWER if found.is_part else self.reply(kind, flow, moment), []
        return {}, []

    def request(self, kind, flow, octets, moment):
        same = len(octets), digest(octets)
        before = self.latest.get(same)
        ours = [sending for sending in self.open.get(flow, []) if sending.kind == kind]
        if flow.over == "udp" and ours and ours[-1].same == same:
            self.close(ours[-1])
        sending = Sending(kind, flow, same, moment, before and before.first)
        self.latest[same] = sending
        self.open.setdefault(flow, []).append(sending)
        self.counts["again"] += before is not None
        again = told(optional(number, before and before.first.packet))
        return {"again": again}, self.added(sending, moment)

    def added(self, sending, moment):
        """Remembers one more sending, and tells of the one that is forgotten then, if it was open."""
        self.sendings.append(sending)
        if len(self.sendings) <= MOST_SENDINGS:
            return []
        first = self.sendings.popleft()
        latest, key = (self.syns, first.flow) if first.kind == SYN else (self.latest, first.same)
        if latest[key] is first:
            del latest[key]
        return self.missed([first] if first.is_open else [], moment)

    def close(self, sending):
        sending.is_open = False
        if sending.kind != SYN:
            left = self.open[sending.flow]
            left.remove(sending)
            if not left:
                del self.open[sending.flow]

    def reply(self, kind, flow, moment):
        """The request that a reply answers: over UDP the latest that fits, over TCP the first, if that fits."""
        asked = self.open.get(turned(flow), [])
        if flow.over == "tcp":
            asked = asked[:1]
        fitting = [sending for sending in asked if kind in OF_ANY or kind in ANSWERED_BY[sending.kind]]
        if not fitting:
            return NO_ANSWER
        self.close(fitting[-1])
        self.counts["answered"] += 1
        return fitting[-1].waited(moment)

    def segment(self, segment, packet):
        """What is told of a segment of TCP itself."""
        moment = Moment(packet)
        back = self.syns.get(turned(segment.flow))
        if back is not None and back.is_open:
            self.close(back)
            if segment.rst:
                self.counts["unreachable"] += 1
                yield unreachable(back.flow, "reset", back.waited(moment))
        own = self.syns.get(segment.flow)
        if segment.syn and not segment.ack and not segment.rst:
            yield from self.asked(own, segment, moment)
        elif own is not None and own.is_open:
            self.close(own)

    def asked(self, own, segment, moment):
        """What is told of a SYN that asks for a connection, after the latest one of its flow."""
        first = None
        if own is not None and own.same == segment.sequence_number:
            if not own.is_open and not own.is_erred:
                return
            own.is_open, own.is_erred, first = False, False, own.first
        elif own is not None and own.is_open:
            yield from self.missed([own], moment)
        sending = Sending(SYN, segment.flow, segment.sequence_number, moment, first)
        self.syns[segment.flow] = sending
        yield from self.added(sending, moment)

    def failure(self, failure, packet):
        """What is told of an error: the latest sending of the flow that is open is what it is about."""
        moment = Moment(packet)
        asked = self.open.get(failure.flow, [])[-1:]
        syn = self.syns.get(failure.flow)
        if syn is not None and syn.is_open:
            asked = [*asked, syn]
        about = max(asked, key=self.sendings.index, default=None)
        if about is not None and about.kind == SYN:
            about.is_open, about.is_erred = False, True
        how = "icmp" if len(failure.by) == 4 else "icmpv6"
        names = CODES.get((how, failure.kind), {})
        error = (
            told(word(ip_address(failure.by))),
            told(called(failure.kind, TYPES[how].get(failure.kind))),
            told(called(failure.code, names.get(failure.code))),
        )
        self.counts["unreachable"] += 1
        yield unreachable(failure.flow, how, NO_ANSWER if about is None else about.waited(moment), error)

    def begun(self, flow, packet):
        """What is told as a direction of TCP begins: of the requests of the one before."""
        return self.missed(list(self.open.get(flow, [])), Moment(packet))

    def end(self, packet):
        """What is told at the end of the capture."""
        left = [sending for sending in self.sendings if sending.is_open]
        return self.missed(left, Moment(packet)) if left else []

    def missed(self, sendings, moment):
        """A record of each of some sendings that nothing answered."""
        found = []
        for sending in sendings:
            self.close(sending)
            answer = sending.waited(moment)
            if sending.kind == SYN:
                self.counts["unreachable"] += 1
                found.append(unreachable(sending.flow, "silent", answer))
            else:
                self.counts["unanswered"] += 1
                found.append((sending.flow, Record("unanswered", {"request": told(word(sending.kind)), **answer})))
        return found
