"""The types of records: each object of `krbls --json`, as docs/LISTING.md of krbls says.

`packet`, `t`, `flow` and `t_us` are in the records of a capture, `line` and `via` in those of `message`, `file` in those of
several files. tools/make_records.py makes this of krbls.schema.json; not to be edited."""

from typing import List, Literal, Optional, TypedDict, Union

__all__ = [  # fmt: skip
    "Address", "ApRep", "ApReq", "AsRep", "AsReq", "Cache", "CaptureRecord", "CcacheRecord", "Checksum", "Config",
    "Cred", "Encrypted", "EndCapture", "EndCcache", "EndFrames", "EndKeytab", "EndRecord", "EndStream", "Endpoint",
    "Entry", "File", "Flags", "Flow", "Hole", "InputRecord", "InsideRecord", "Joined", "KerbErrorData", "KerbExtError",
    "KeytabRecord", "Kpasswd", "KrbCred", "KrbError", "KrbPriv", "KrbSafe", "Lost", "MessageRecord", "MethodData",
    "Offset", "PaEncTimestamp", "PaEncryptedChallenge", "PaEtypeInfo", "PaEtypeInfo2", "PaForUser", "PaFxFast",
    "PaPacOptions", "PaPacRequest", "PaPwSalt", "PaTgsReq", "Principal", "Record", "Refusal", "Refused",
    "RefusedCapture", "RefusedInput", "RefusedMessage", "RefusedStream", "RefusedTicket", "StreamRecord", "TgsRep",
    "TgsReq", "Ticket", "TicketInside", "TypedData", "Unanswered", "Unreachable", "Unread",
]


class Endpoint(TypedDict):
    address: str
    port: int


class Flow(TypedDict):
    over: Literal["udp", "tcp"]
    source: Endpoint
    target: Endpoint


class _Where(TypedDict, total=False):
    packet: int
    t: Optional[str]
    flow: Flow
    line: int
    via: List[str]
    file: str
    t_us: Optional[int]


class Principal(TypedDict):
    text: str
    type: int
    type_name: Optional[str]
    components: List[str]
    realm: str


class Flags(TypedDict):
    bits: int
    hex: str
    names: List[str]


class Encrypted(TypedDict):
    etype: int
    etype_name: Optional[str]
    kvno: Optional[int]
    size: int


class PaTgsReq(TypedDict):
    kind: Literal["PA-TGS-REQ"]
    server: Principal
    options: Flags
    ticket: Encrypted
    auth: Encrypted


class PaEncTimestamp(TypedDict):
    kind: Literal["PA-ENC-TIMESTAMP"]
    enc: Encrypted


class PaEncryptedChallenge(TypedDict):
    kind: Literal["PA-ENCRYPTED-CHALLENGE"]
    enc: Encrypted


class PaPwSalt(TypedDict):
    kind: Literal["PA-PW-SALT"]
    salt: str


class PaEtypeInfo(TypedDict):
    kind: Literal["PA-ETYPE-INFO"]
    etype: int
    etype_name: Optional[str]
    salt: Optional[str]


class PaEtypeInfo2(TypedDict):
    kind: Literal["PA-ETYPE-INFO2"]
    etype: int
    etype_name: Optional[str]
    salt: Optional[str]
    params: Optional[str]


class PaPacRequest(TypedDict):
    kind: Literal["PA-PAC-REQUEST"]
    pac: bool


class Checksum(TypedDict):
    type: int
    type_name: Optional[str]
    size: int


class PaForUser(TypedDict):
    kind: Literal["PA-FOR-USER"]
    user: Principal
    cksum: Checksum
    package: str


class PaFxFast(TypedDict):
    kind: Literal["PA-FX-FAST"]
    armor: Optional[int]
    server: Optional[Principal]
    ticket: Optional[Encrypted]
    enc: Encrypted


class PaPacOptions(TypedDict):
    kind: Literal["PA-PAC-OPTIONS"]
    options: Flags


class TicketInside(TypedDict):
    kind: Literal["Ticket"]
    server: Principal
    ticket: Encrypted


class MethodData(TypedDict):
    kind: Literal["METHOD-DATA"]
    methods: List[int]
    methods_names: List[Optional[str]]


class TypedData(TypedDict):
    kind: Literal["TYPED-DATA"]
    types: List[int]
    types_names: List[Optional[str]]


class KerbErrorData(TypedDict):
    kind: Literal["KERB-ERROR-DATA"]
    type: int
    type_name: Optional[str]


class KerbExtError(TypedDict):
    kind: Literal["KERB-EXT-ERROR"]
    status: str
    status_name: Optional[str]
    reserved: int
    flags: int


_AsReq = TypedDict(
    "_AsReq",
    {
        "kind": Literal["AS-REQ"],
        "realm": str,
        "client": Optional[Principal],
        "server": Optional[Principal],
        "options": Flags,
        "from": Optional[str],
        "till": str,
        "rtime": Optional[str],
        "nonce": int,
        "etypes": List[int],
        "etypes_names": List[Optional[str]],
        "padata": Optional[List[int]],
        "addresses": Optional[int],
        "authdata": Optional[Encrypted],
        "tickets": Optional[int],
        "notes": List[int],
        "notes_names": List[Optional[str]],
        "inside": List["InsideRecord"],
    },
)


class AsReq(_AsReq, _Where, total=False):
    padata_names: List[Optional[str]]
    again: Optional[int]


_TgsReq = TypedDict(
    "_TgsReq",
    {
        "kind": Literal["TGS-REQ"],
        "realm": str,
        "client": Optional[Principal],
        "server": Optional[Principal],
        "options": Flags,
        "from": Optional[str],
        "till": str,
        "rtime": Optional[str],
        "nonce": int,
        "etypes": List[int],
        "etypes_names": List[Optional[str]],
        "padata": Optional[List[int]],
        "addresses": Optional[int],
        "authdata": Optional[Encrypted],
        "tickets": Optional[int],
        "notes": List[int],
        "notes_names": List[Optional[str]],
        "inside": List["InsideRecord"],
    },
)


class TgsReq(_TgsReq, _Where, total=False):
    padata_names: List[Optional[str]]
    again: Optional[int]


class _AsRep(TypedDict):
    kind: Literal["AS-REP"]
    client: Principal
    server: Principal
    padata: Optional[List[int]]
    ticket: Encrypted
    enc: Encrypted
    notes: List[int]
    notes_names: List[Optional[str]]
    inside: List["InsideRecord"]


class AsRep(_AsRep, _Where, total=False):
    padata_names: List[Optional[str]]
    of: Optional[int]
    after: Optional[int]
    waited: Optional[int]


class _TgsRep(TypedDict):
    kind: Literal["TGS-REP"]
    client: Principal
    server: Principal
    padata: Optional[List[int]]
    ticket: Encrypted
    enc: Encrypted
    notes: List[int]
    notes_names: List[Optional[str]]
    inside: List["InsideRecord"]


class TgsRep(_TgsRep, _Where, total=False):
    padata_names: List[Optional[str]]
    of: Optional[int]
    after: Optional[int]
    waited: Optional[int]


class _ApReq(TypedDict):
    kind: Literal["AP-REQ"]
    server: Principal
    options: Flags
    ticket: Encrypted
    auth: Encrypted
    notes: List[int]
    notes_names: List[Optional[str]]


class ApReq(_ApReq, _Where, total=False):
    pass


class _ApRep(TypedDict):
    kind: Literal["AP-REP"]
    enc: Encrypted
    notes: List[int]
    notes_names: List[Optional[str]]


class ApRep(_ApRep, _Where, total=False):
    pass


class _KrbPriv(TypedDict):
    kind: Literal["KRB-PRIV"]
    enc: Encrypted
    notes: List[int]
    notes_names: List[Optional[str]]


class KrbPriv(_KrbPriv, _Where, total=False):
    pass


class Address(TypedDict):
    type: int
    type_name: Optional[str]
    hex: str


class _KrbSafe(TypedDict):
    kind: Literal["KRB-SAFE"]
    size: int
    time: Optional[str]
    usec: Optional[int]
    seq: Optional[int]
    sender: Address
    receiver: Optional[Address]
    cksum: Checksum
    notes: List[int]
    notes_names: List[Optional[str]]


class KrbSafe(_KrbSafe, _Where, total=False):
    pass


class _KrbCred(TypedDict):
    kind: Literal["KRB-CRED"]
    tickets: int
    enc: Encrypted
    notes: List[int]
    notes_names: List[Optional[str]]
    inside: List["InsideRecord"]


class KrbCred(_KrbCred, _Where, total=False):
    pass


class _KrbError(TypedDict):
    kind: Literal["KRB-ERROR"]
    code: int
    code_name: Optional[str]
    client: Optional[Principal]
    server: Principal
    ctime: Optional[str]
    cusec: Optional[int]
    stime: str
    susec: int
    text: Optional[str]
    data: Optional[int]
    methods: Optional[List[int]]
    notes: List[int]
    notes_names: List[Optional[str]]
    inside: List["InsideRecord"]


class KrbError(_KrbError, _Where, total=False):
    methods_names: List[Optional[str]]
    of: Optional[int]
    after: Optional[int]
    waited: Optional[int]


class _EndStream(TypedDict):
    kind: Literal["end"]
    messages: int


class EndStream(_EndStream, total=False):
    file: str


class _EndFrames(TypedDict):
    kind: Literal["end"]
    messages: int
    refused: int


class EndFrames(_EndFrames, total=False):
    file: str


class _EndKeytab(TypedDict):
    kind: Literal["end"]
    records: int
    zero: bool


class EndKeytab(_EndKeytab, total=False):
    file: str


class _EndCcache(TypedDict):
    kind: Literal["end"]
    credentials: int


class EndCcache(_EndCcache, total=False):
    file: str


class _EndCapture(TypedDict):
    kind: Literal["end"]
    packets: int
    messages: int
    refused: int
    lost: int
    unread: int
    answered: int
    unanswered: int
    again: int
    unreachable: int


class EndCapture(_EndCapture, total=False):
    file: str


_RefusedStream = TypedDict(
    "_RefusedStream",
    {
        "kind": Literal["refused"],
        "messages": int,
        "place": int,
        "why": int,
        "why_name": str,
        "in": Optional[str],
        "at": int,
        "length": Optional[int],
    },
)


class RefusedStream(_RefusedStream, total=False):
    file: str


_RefusedMessage = TypedDict(
    "_RefusedMessage",
    {
        "kind": Literal["refused"],
        "place": int,
        "why": int,
        "why_name": str,
        "in": Optional[str],
        "at": int,
        "length": Optional[int],
        "form": Optional[str],
    },
)


class RefusedMessage(_RefusedMessage, _Where, total=False):
    pass


_RefusedInput = TypedDict(
    "_RefusedInput",
    {
        "kind": Literal["refused"],
        "input": str,
        "place": Optional[int],
        "why": Optional[int],
        "why_name": Optional[str],
        "in": Optional[str],
        "at": int,
        "length": Optional[int],
        "form": Optional[str],
    },
)


class RefusedInput(_RefusedInput, _Where, total=False):
    pass


_Refused = TypedDict(
    "_Refused",
    {
        "kind": Literal["refused"],
        "place": int,
        "why": int,
        "why_name": str,
        "in": Optional[str],
        "at": int,
        "length": Optional[int],
    },
)


class Refused(_Refused, _Where, total=False):
    of: Optional[int]
    after: Optional[int]
    waited: Optional[int]


_RefusedCapture = TypedDict(
    "_RefusedCapture",
    {
        "kind": Literal["refused"],
        "packets": int,
        "messages": int,
        "refused": int,
        "lost": int,
        "unread": int,
        "place": int,
        "why": int,
        "why_name": str,
        "in": Optional[str],
        "at": int,
        "length": Optional[int],
        "answered": int,
        "unanswered": int,
        "again": int,
        "unreachable": int,
    },
)


class RefusedCapture(_RefusedCapture, total=False):
    file: str


class _Ticket(TypedDict):
    kind: Literal["Ticket"]
    server: Principal
    ticket: Encrypted
    notes: List[int]
    notes_names: List[Optional[str]]


class Ticket(_Ticket, _Where, total=False):
    pass


class _Entry(TypedDict):
    kind: Literal["entry"]
    principal: Principal
    type: int
    type_name: Optional[str]
    time: Optional[str]
    kvno: int
    enctype: int
    enctype_name: Optional[str]
    key: int
    rest: int


class Entry(_Entry, total=False):
    file: str


class _Hole(TypedDict):
    kind: Literal["hole"]
    size: int
    clean: bool


class Hole(_Hole, total=False):
    file: str


class Offset(TypedDict):
    seconds: int
    microseconds: int


class _Cache(TypedDict):
    kind: Literal["cache"]
    principal: Principal
    type: int
    type_name: Optional[str]
    offset: Optional[Offset]
    fields: int


class Cache(_Cache, total=False):
    file: str


class Refusal(TypedDict):
    place: int
    why: int
    why_name: str


class RefusedTicket(TypedDict):
    refused: Refusal


class _Cred(TypedDict):
    kind: Literal["cred"]
    client: Principal
    server: Principal
    enctype: int
    enctype_name: Optional[str]
    key: int
    auth: Optional[str]
    start: Optional[str]
    end: Optional[str]
    renew: Optional[str]
    skey: int
    flags: Flags
    state: Optional[str]
    addresses: int
    authdata: int
    ticket: Optional[Union[Encrypted, RefusedTicket]]
    tserver: Optional[Principal]
    second: int


class Cred(_Cred, total=False):
    file: str


class _Config(TypedDict):
    kind: Literal["config"]
    client: Principal
    server: Principal
    size: int
    value: Optional[str]


class Config(_Config, total=False):
    file: str


class _Kpasswd(TypedDict):
    kind: Literal["KPASSWD"]
    version: int
    ap: int
    rest: int


class Kpasswd(_Kpasswd, _Where, total=False):
    again: Optional[int]
    of: Optional[int]
    after: Optional[int]
    waited: Optional[int]


class _Joined(TypedDict):
    kind: Literal["joined"]


class Joined(_Joined, _Where, total=False):
    pass


_Lost = TypedDict(
    "_Lost",
    {
        "kind": Literal["lost"],
        "place": int,
        "octets": int,
        "in": Optional[str],
    },
)


class Lost(_Lost, _Where, total=False):
    of: Optional[int]
    after: Optional[int]
    waited: Optional[int]


class _Unread(TypedDict):
    kind: Literal["unread"]
    place: Optional[int]
    octets: int
    why: int
    why_name: str


class Unread(_Unread, _Where, total=False):
    pass


class _Unanswered(TypedDict):
    kind: Literal["unanswered"]
    request: str
    of: Optional[int]
    after: Optional[int]
    waited: Optional[int]


class Unanswered(_Unanswered, _Where, total=False):
    pass


class _Unreachable(TypedDict):
    kind: Literal["unreachable"]
    how: str
    by: Optional[str]
    type: Optional[int]
    code: Optional[int]
    of: Optional[int]
    after: Optional[int]
    waited: Optional[int]


class Unreachable(_Unreachable, _Where, total=False):
    type_name: Optional[str]
    code_name: Optional[str]


class _File(TypedDict):
    kind: Literal["file"]
    name: str


class File(_File, total=False):
    file: str


InsideRecord = Union[
    PaTgsReq,
    PaEncTimestamp,
    PaEncryptedChallenge,
    PaPwSalt,
    PaEtypeInfo,
    PaEtypeInfo2,
    PaPacRequest,
    PaForUser,
    PaFxFast,
    PaPacOptions,
    TicketInside,
    MethodData,
    TypedData,
    KerbErrorData,
    KerbExtError,
]
MessageRecord = Union[
    AsReq,
    TgsReq,
    AsRep,
    TgsRep,
    ApReq,
    ApRep,
    KrbPriv,
    KrbSafe,
    KrbCred,
    KrbError,
]
StreamRecord = Union[
    MessageRecord,
    RefusedStream,
]
InputRecord = Union[
    MessageRecord,
    Ticket,
    RefusedMessage,
    RefusedInput,
]
KeytabRecord = Union[
    Entry,
    Hole,
]
CcacheRecord = Union[
    Cache,
    Cred,
    Config,
    File,
]
CaptureRecord = Union[
    MessageRecord,
    Refused,
    Joined,
    Unread,
    Unanswered,
    Unreachable,
]
EndRecord = Union[
    EndStream,
    EndFrames,
    EndKeytab,
    EndCcache,
    EndCapture,
    RefusedStream,
    RefusedCapture,
    Refused,
    RefusedMessage,
    RefusedInput,
]
Record = Union[
    MessageRecord,
    EndStream,
    EndFrames,
    EndKeytab,
    EndCcache,
    EndCapture,
    RefusedStream,
    RefusedMessage,
    RefusedInput,
    Refused,
    RefusedCapture,
    Ticket,
    Entry,
    Hole,
    Cache,
    Cred,
    Config,
    Kpasswd,
    Joined,
    Lost,
    Unread,
    Unanswered,
    Unreachable,
    File,
]
