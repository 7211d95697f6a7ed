"""The records of keytabs and of credential caches."""

from collections import namedtuple

from .fields import ticket_server
from .grammar import TICKET
from .judging import Refused, whole
from .records import Record, refused
from .registries import ENCRYPTION_TYPES, NAME_TYPES
from .values import (
    ABSENT,
    NO_TICKET,
    count,
    file_time,
    named,
    number,
    offset,
    principal,
    quoted,
    refused_ticket,
    encrypted,
    ticket_flags,
    told,
    word,
    yes_or_no,
)

# how many octets a field of octets may have
FIELD_LIMIT = 16777216

# the keys of configuration entries whose values are shown
SHOWN_KEYS = (b"fast_avail", b"pa_type", b"proxy_impersonator", b"refresh_time", b"start_realm")

FILE_REASONS = "Magic Version Truncated Overrun TooLong".split()


class Fields:
    """The fields of a file, one after another, some of which have to end where their entry ends.

    Each is taken by its path, the names of which a refusal tells.
    """

    def __init__(self, octets, room_end=None):
        self.octets = octets
        self.place = 0
        self.room_end = room_end
        # The order of the octets of numbers.
        self.order = "big"
        # The first part of the path that was taken last, and where it begins.
        self.part = None
        self.part_begin = 0

    def take(self, path, size, most=None):
        self.enter(path)
        end = self.place + size
        if size > 0 and self.room_end is not None and end > self.room_end:
            self.refuse(path, "Overrun")
        if most is not None and size > most:
            self.refuse(path, "TooLong", length=size)
        if size > 0 and end > len(self.octets):
            self.refuse(path, "Truncated")
        start, self.place = self.place, end
        return self.octets[start:end]

    def enter(self, path):
        """Keeps where the first part of a path begins."""
        part = path.split(".")[0]
        if part != self.part:
            self.part, self.part_begin = part, self.place

    def refuse(self, path, why, octets_before=0, length=None):
        """Refuses a field that begins this number of octets before the next one, and may tell the length that was read."""
        self.enter(path)
        raise Refused(self.place - octets_before, why, path, self.part_begin, length)

    def number(self, path, size, signed=False):
        return int.from_bytes(self.take(path, size), self.order, signed=signed)

    def data(self, path, size_of_length):
        """Octets after their number; both are one field by name."""
        return self.take(path, self.number(path, size_of_length), FIELD_LIMIT)

    def one_of(self, path, size, numbers, why):
        """A number that is one of these, or is refused."""
        found = self.number(path, size)
        if found not in numbers:
            self.refuse(path, why, size)
        return found

    def version(self, *versions):
        """The version, which is one of these, after the first octet of the file."""
        self.one_of("magic", 1, (0x05,), "Magic")
        return self.one_of("version", 1, versions, "Version")

    def at_end(self):
        return self.place >= len(self.octets)


def file_listing(records_of, octets):
    """The records of a file up to its end or its refusal, and the status of the program."""
    records = []
    try:
        for one in records_of(octets):
            records.append(one)
    except Refused as refusal:
        return [*records, refused(refusal, reasons=FILE_REASONS)], 1
    return records, 0


def entry(fields, path):
    """The record of an entry, whose length was read."""
    components = fields.number(f"{path}.component-count", 2)
    realm = fields.data(f"{path}.realm", 2)
    names = [fields.data(f"{path}.component[{k}]", 2) for k in range(components)]
    name_type = fields.number(f"{path}.name-type", 4, signed=True)
    written = fields.number(f"{path}.timestamp", 4)
    kvno = fields.number(f"{path}.key-version", 1)
    enctype = fields.number(f"{path}.enctype", 2)
    key = fields.data(f"{path}.key", 2)
    rest = fields.take(f"{path}.rest", fields.room_end - fields.place, FIELD_LIMIT)
    if len(rest) >= 4:
        kvno = int.from_bytes(rest[:4], "big") or kvno
    shown = {
        "principal": principal(name_type, names, realm),
        "type": named(name_type, NAME_TYPES),
        "time": file_time(written),
        "kvno": number(kvno),
        "enctype": named(enctype, ENCRYPTION_TYPES),
        "key": count(key),
        "rest": count(rest),
    }
    return Record("entry", shown)


def keytab_records(octets):
    fields = Fields(octets)
    fields.version(0x02)
    records = 0
    zero = False
    while not fields.at_end():
        path = f"record[{records}]"
        size = fields.number(f"{path}.length", 4, signed=True)
        if size == 0:
            zero = True
            break
        if size > 0:
            fields.room_end = fields.place + size
            yield entry(fields, path)
            fields.room_end = None
        else:
            hole = fields.take(f"{path}.hole", -size)
            yield Record("hole", {"size": number(-size), "clean": yes_or_no(not any(hole))})
        records += 1
    yield Record("end", {"records": number(records), "zero": yes_or_no(zero)})


def keytab(octets):
    return file_listing(keytab_records, octets)


def header(fields):
    """The tags and the values of a cache's header."""
    size = fields.number("header-length", 2)
    fields.room_end = fields.place + size
    found = []
    while fields.place < fields.room_end:
        path = f"header[{len(found)}]"
        tag = fields.number(f"{path}.tag", 2)
        found.append((tag, fields.data(f"{path}.value", 2)))
    fields.room_end = None
    return found


def clock_offset(header_fields):
    value = next((value for tag, value in header_fields if tag == 1 and len(value) == 8), None)
    if value is None:
        return ABSENT
    return offset(*(int.from_bytes(part, "big", signed=True) for part in (value[:4], value[4:])))


def file_principal(fields, path):
    """The name type, the components and the realm of a principal in a cache."""
    name_type = fields.number(f"{path}.name-type", 4, signed=True)
    components = fields.number(f"{path}.component-count", 4)
    realm = fields.data(f"{path}.realm", 4)
    names = []
    while len(names) < components:
        names.append(fields.data(f"{path}.component[{len(names)}]", 4))
    return name_type, names, realm


def typed_items(fields, path):
    """The number of addresses, or of elements of authorization data, each of which has a type and octets."""
    items = fields.number(f"{path}-count", 4)
    taken = 0
    while taken < items:
        fields.number(f"{path}[{taken}].type", 2)
        fields.data(f"{path}[{taken}].octets", 4)
        taken += 1
    return items


def ticket_and_server(octets):
    """K, and the server of the Ticket."""
    if not octets:
        return NO_TICKET, ABSENT
    try:
        ticket = whole(octets, {"Ticket": TICKET})[1]
    except Refused as refusal:
        return refused_ticket(refusal), ABSENT
    return encrypted(ticket["enc-part"]), ticket_server(ticket)


def state(end, now):
    if now is None:
        return ABSENT
    return word("live" if now < end else "expired")


def config_value(names, value):
    """The value of a configuration entry, by the components of its server's name, if it is one that is shown."""
    return quoted(value) if len(names) > 1 and names[1] in SHOWN_KEYS else ABSENT


Credential = namedtuple("Credential", "client server enctype key times is_skey flags addresses authdata ticket second is_config")


def read_credential(fields, path, version):
    """A credential or a configuration entry."""
    client = file_principal(fields, f"{path}.client")
    server = file_principal(fields, f"{path}.server")
    enctype = fields.number(f"{path}.enctype", 2)
    if version == 3:
        fields.number(f"{path}.enctype", 2)
    key = fields.data(f"{path}.key", 4)
    times = [fields.number(f"{path}.{name}", 4) for name in ("authtime", "starttime", "endtime", "renew-till")]
    is_skey = fields.number(f"{path}.is-skey", 1)
    flags = fields.number(f"{path}.ticket-flags", 4)
    addresses = typed_items(fields, f"{path}.address")
    authdata = typed_items(fields, f"{path}.authdata")
    ticket = fields.data(f"{path}.ticket", 4)
    second = fields.data(f"{path}.second-ticket", 4)
    _, names, realm = server
    is_config = realm == b"X-CACHECONF:" and names[:1] == [b"krb5_ccache_conf_data"]
    return Credential(client, server, enctype, key, times, is_skey, flags, addresses, authdata, ticket, second, is_config)


def credential(read, now):
    """The record of a credential or of a configuration entry."""
    whose = {"client": principal(*read.client), "server": principal(*read.server)}
    if read.is_config:
        _, names, _ = read.server
        return Record("config", {**whose, "size": count(read.ticket), "value": told(config_value(names, read.ticket))})
    ticket_part, ticket_principal = ticket_and_server(read.ticket)
    shown = {
        **whose,
        "enctype": named(read.enctype, ENCRYPTION_TYPES),
        "key": count(read.key),
        **dict(zip(("auth", "start", "end", "renew"), map(file_time, read.times))),
        "skey": number(read.is_skey),
        "flags": ticket_flags(read.flags),
        "state": state(read.times[2], now),
        "addresses": number(read.addresses),
        "authdata": number(read.authdata),
        "ticket": ticket_part,
        "tserver": ticket_principal,
        "second": count(read.second),
    }
    return Record("cred", shown)


def credentials_of(fields, version):
    """The credentials and configuration entries of a cache, after its principal."""
    index = 0
    while not fields.at_end():
        yield read_credential(fields, f"credential[{index}]", version)
        index += 1


def cache_start(fields):
    """The version of a cache, the fields of its header, and its principal."""
    version = fields.version(3, 4)
    header_fields = header(fields) if version == 4 else []
    return version, header_fields, file_principal(fields, "principal")


def ccache_records(octets, now):
    fields = Fields(octets)
    version, header_fields, owner = cache_start(fields)
    shown = {
        "principal": principal(*owner),
        "type": named(owner[0], NAME_TYPES),
        "offset": clock_offset(header_fields),
        "fields": count(header_fields),
    }
    yield Record("cache", shown)
    credentials = 0
    for read in credentials_of(fields, version):
        yield credential(read, now)
        credentials += 1
    yield Record("end", {"credentials": number(credentials)})


def ccache(octets, now=None):
    return file_listing(lambda octets: ccache_records(octets, now), octets)
