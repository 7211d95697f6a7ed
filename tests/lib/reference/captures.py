"""The records of captures: of each Kerberos message in a pcap or pcapng as it is whole."""

from functools import partial

from .capture_files import packets
from .datagrams import Failure, Internet, Segment, Unread, carried, may_be_tunnel
from .directions import BEGUN, Directions, lost, unread
from .fields import FIELDS
from .files import FILE_REASONS
from .fragments import Fragments
from .frames import LIMIT, Frames
from .grammar import MESSAGES
from .happened import Happened
from .judging import Ended, Refused
from .kpasswd import change_password
from .messages import record_or_refusal
from .records import Record, refused
from .values import flow, instant, microseconds, number, told

PORT = 88
CHANGE_PASSWORD_PORT = 464


def message(octets, n, messages):
    """What is found in a message of n octets, of which these are there."""
    return [record_or_refusal(octets, n, messages)]


class Capture:
    """The records of the packets of a capture, as they come."""

    def __init__(self, limit, port, messages):
        self.port = port
        # What reads messages, and messages that change passwords, by the same profile.
        self.message = partial(message, messages=messages)
        self.change_password = partial(change_password, messages=messages)
        self.counts = dict.fromkeys(("packets", "messages", "refused", "lost", "unread"), 0)
        self.fragments = Fragments()
        self.directions = Directions(lambda of_flow: Frames(self.reading(of_flow), limit))
        self.happened = Happened()
        # The packet that came last.
        self.packet = None

    def reading(self, of_flow):
        """What reads the messages of a flow, by its ports; None if they are not of Kerberos."""
        ports = (of_flow.source.port, of_flow.target.port)
        if self.port in ports:
            return self.message
        return self.change_password if CHANGE_PASSWORD_PORT in ports else None

    def is_ours(self, of_flow):
        return self.reading(of_flow) is not None

    def take(self, packet):
        """The records of one more packet."""
        self.packet = packet
        self.counts["packets"] += 1
        try:
            found = self.whole(carried(packet, self.is_ours))
        except Unread as unread:
            flow = unread.flow
            self.counts["unread"] += flow is None or self.is_ours(flow) or may_be_tunnel(flow)
            return
        if found is None or self.reading(found.flow) is None:
            return
        if isinstance(found, Failure):
            yield from self.told_records(self.happened.failure(found, packet))
        elif isinstance(found, Segment):
            yield from self.told_records(self.happened.segment(found, packet))
            yield from self.records(self.directions.take(found))
        else:
            yield from self.records(self.datagram(found))

    def whole(self, found):
        """The datagram of UDP or segment of TCP that is whole with what a packet carries, or None."""
        while isinstance(found, Internet):
            found = self.fragments.take(found, self.is_ours)
        return found

    def datagram(self, datagram):
        """What is found in a datagram of UDP, which is a message; each with its flow."""
        octets, size = datagram.held
        try:
            found = self.reading(datagram.flow)(octets, size)
        except Ended as ended:
            found = [lost(len(octets), size - len(octets), ended.path)]
        found = [one.within(0, size) if isinstance(one, Refused) else one for one in found]
        found.extend(unread(size, len(datagram.surplus), "Surplus"))
        return [(datagram.flow, one) for one in found]

    def records(self, due):
        """The records of what is found in flows, with the packet that is the last one."""
        for of_flow, found in due:
            if found is BEGUN:
                yield from self.told_records(self.happened.begun(of_flow, self.packet))
                continue
            record = refused(found) if isinstance(found, Refused) else found
            kind = "messages" if record.kind in FIELDS else record.kind
            if kind in self.counts:
                self.counts[kind] += 1
            tells, after = self.happened.of_found(of_flow, found, self.packet)
            yield self.with_origin(of_flow, record, tells)
            yield from self.told_records(after)

    def with_origin(self, of_flow, record, tells):
        """A record with the packet that is the last one, its time, a flow, and what is told of it."""
        before = {
            "packet": number(self.packet.number),
            "t": instant(self.packet.time),
            "flow": flow(of_flow),
        }
        fields = {**record.fields, "t_us": microseconds(self.packet.time)}
        return record._replace(before=before, fields=fields, told=tells)

    def told_records(self, due):
        """Records that are told: lines without names have none."""
        for of_flow, record in due:
            yield self.with_origin(of_flow, record, {})._replace(is_told=True)

    def end(self):
        """The records of the end of the file, or of its fault."""
        yield from self.records(self.directions.end_all())
        yield from self.told_records(self.happened.end(self.packet))

    def totals(self):
        """The counts, and among what is unread the fragments no whole datagram came of."""
        return {**self.counts, "unread": self.counts["unread"] + self.fragments.unread()}


def shown(totals):
    return {name: number(total) for name, total in totals.items()}


def with_counts(last, happened):
    """The last record, with the counts that are told."""
    told_counts = {name: told(value) for name, value in shown(happened.counts).items()}
    return last._replace(fields={**last.fields, **told_counts})


def last_record(followed, refusal=None):
    """The record that ends a capture, or that of why the rest of its file is not read."""
    totals = shown(followed.totals())
    last = Record("end", totals) if refusal is None else refused(refusal, totals, FILE_REASONS)
    return with_counts(last, followed.happened)


def capture(octets, limit=LIMIT, port=PORT, messages=MESSAGES):
    """The records of a capture, and the status of the program."""
    followed = Capture(limit, port, messages)
    records = []
    try:
        for packet in packets(octets):
            records.extend(followed.take(packet))
    except Refused as refusal:
        records.extend(followed.end())
        return [*records, last_record(followed, refusal)], 1
    records.extend(followed.end())
    totals = followed.totals()
    is_clean = not any(totals[name] for name in ("refused", "lost", "unread"))
    return [*records, last_record(followed)], 0 if is_clean else 1
