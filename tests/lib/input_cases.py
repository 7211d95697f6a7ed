"""The cases of tests/data/inputs.jsonl and choices.jsonl, and command lines with the files of tests/data/sources, some of which have odd names."""

import itertools
import json
import os
import pathlib
import shutil
from typing import NamedTuple

from reference.runs import run

DATA = pathlib.Path(__file__).resolve().parents[1] / "data"
# The files of cases.
KEPT = (DATA / "inputs.jsonl", DATA / "choices.jsonl")

# A name that is not UTF-8, and what the file has, which is copied from another one.
ODD_NAME = b"b\xe4r.keytab"

# Names that are commands of a shell, or more than one word, or none, if they are not quoted; each is a keytab, or gzip.
HOSTILE_NAMES = [
    "x;reboot",
    "a b",
    "$(reboot)",
    "it's",
    "''",
    "a\\b",
    "a@b",
    "C:x",
    "~",
    "*",
    b"\x1b]0;x\x07",
    b"a\nb",
    b"it's\\\n",
    "caf\u00e9",
    "-H",
    "plain-1.0_a+b/x.gz",
]

# A time that some credential is compared with, in three ways.
TIMES = ("2026-11-22T12:00:00Z", "1795348800", "now")

# Command lines whose outcome the reference says.
WORDS = [
    ["list", "a.keytab"],
    ["list", "--names", "x.kirbi", "a.keytab", "cc/tkt1", "m.hex", "x.gz"],
    ["--json", "x.kirbi", "a.keytab", "cc/tkt1", "m.hex", "x.gz"],
    ["-H", "x.kirbi", "a.keytab", "cc/tkt1", "m.hex", "x.gz", "none"],
    ["--with-filename", "--names", "x.kirbi"],
    ["-H", "--json", "x.kirbi"],
    ["list", "-H", "-"],
    ["list"],
    ["--names"],
    ["--strict", "a.keytab"],
    ["keytab", "-H", "a.keytab", "b c.keytab"],
    ["keytab", "-H", "--names", "a.keytab", "none", "FILE:a.keytab", "WRFILE:b c.keytab"],
    ["keytab", "--json", "a.keytab", "b c.keytab"],
    ["keytab", "DIR:cc"],
    ["keytab", "FILE:FILE:a.keytab"],
    ["message", "FILE:m.hex"],
    ["stream", "FILE:m.hex"],
    ["capture", "WRFILE:m.hex"],
    ["ccache", "DIR:cc"],
    ["ccache", "--json", "DIR:cc"],
    ["ccache", "-H", "DIR:cc"],
    ["ccache", "-H", "--json", "DIR:cc", "a.keytab"],
    ["ccache", "--file", "DIR::cc/tkt1", "--names"],
    ["ccache", "DIR:nowhere", "cc/tkt1"],
    ["ccache", "DIR:cc/tkt1"],
    ["ccache", "DIR::cc/none"],
    ["ccache", "DIR:shared"],
    ["ccache", "--json", "DIR:nowhere", "cc/tkt1"],
    ["DIR:shared", "a.keytab"],
    ["ccache", "--json", "DIR:shared"],
    ["ccache", "DIR::shared/tkt4"],
    ["ccache", "DIR:shared/tkt5", "DIR:empty", "cc/tkt1"],
    ["--json", "DIR:empty"],
    ["DIR:cc"],
    ["DIR::cc/tkt1", "FILE:a.keytab", "WRFILE:x.kirbi"],
    ["./FILE:a.keytab"],
    *(["ccache", "cc/tkt1", "--now", when] for when in TIMES),
    *(
        ["ccache", "cc/tkt1", "--now", when]
        for when in (
            "2026-11-22T12:00:00",
            "2026-11-22 12:00:00Z",
            "2026-11-22T12:00:00z",
            "2026-13-01T00:00:00Z",
            "2026-00-01T00:00:00Z",
            "2026-11-31T00:00:00Z",
            "2023-02-29T00:00:00Z",
            "2024-02-29T00:00:00Z",
            "2100-02-29T00:00:00Z",
            "2026-11-22T24:00:00Z",
            "2026-11-22T23:60:00Z",
            "2026-11-22T23:59:60Z",
            "1970-01-01T00:00:00Z",
            "2106-02-07T06:28:15Z",
            "2106-02-07T06:28:16Z",
            "9999-12-31T23:59:59Z",
            "10000-01-01T00:00:00Z",
            "4294967295",
            "4294967296",
            "253402300799",
            "253402300800",
            "99999999999999999999",
            "then",
            "",
        )
    ),
    ["ccache", "KCM:", "KCM:1000", "cc/tkt1"],
    ["KEYRING:persistent:0"],
    ["API:x", "MEMORY:"],
    ["--json", "MEMORY:\x1b[2J"],
    ["keytab", "MEMORY:x"],
    ["stream", "KCM:0"],
    ["--json", "capture", "m.hex"],
    ["--names", "decode", "list", "captures"],
    ["keytab", "--names", "capture"],
    ["stream", "--", *HOSTILE_NAMES],
    ["ccache", "--json", "--", *HOSTILE_NAMES],
    ["message", "--lines", "m.hex", "x.kirbi"],
    ["message", "--lines", "-H", "m.hex", "x.kirbi"],
    ["message", "--lines", "--json", "m.hex", "x.kirbi"],
    ["message", "--lines", "--strict", "--names", "m.hex"],
    ["keytab", ODD_NAME],
    ["keytab", ODD_NAME, b"n\xf6", "a.keytab"],
    ["-H", "--names", ODD_NAME],
    ["--json", ODD_NAME, "a.keytab"],
    ["capture", ODD_NAME],
    ["--header", "--fields", "kind,principal", "a.keytab", "b c.keytab", "cc/tkt1"],
    ["-H", "--header", "--fields", "kind,principal", "b c.keytab", "x.kirbi", "none", "x.gz"],
    ["--fields", "name", "a.keytab", "b c.keytab"],
    ["--fields", "file,kind,Ticket.server", "x.kirbi", ODD_NAME, "x.kirbi"],
    ["--only", "file,end", "a.keytab", "b c.keytab", "DIR:cc"],
    ["--only", "cred,Ticket", "--json", "DIR:cc", "x.kirbi"],
    ["-H", "--only", "KRB-CRED", "--names", "DIR:cc", "x.kirbi"],
    ["ccache", "--fields", "server.components,value", "DIR:cc"],
    ["--only", "AP-REP", "--fields", "enc.etype", "x.gz", "m.hex"],
    ["--only", "KRB-EROR", "a.keytab"],
    ["keytab", "--only", "cred", "a.keytab"],
    ["--fields", "clinet,code", "a.keytab"],
    ["stream", "--fields", "salt", "m.hex"],
    ["stream", "--fields", "\x1b]0;x\x07", "m.hex"],
    ["stream", "--fields", "code,PA-TGS-REQ.ticket,etypes", "m.hex"],
    ["--fields", "", "a.keytab"],
    ["--header", "a.keytab"],
    ["--json", "--fields", "kind", "a.keytab"],
    ["--only", "unanswered", "m.hex"],
]


# What sources begin with that are of another kind than the command, or nearly so.
BEGINNINGS = [
    *map(
        bytes.fromhex,
        (
            "1f8b 1f8b08 1f 1f8a fd377a585a00 fd377a585a 28b52ffd 28b52ffe 425a68 425a 0502 0503 0504 0505 0501 05 a1b2c3d4 d4c3b2a1 "
            "a1b23c4d 4d3cb2a1 0a0d0d0a 0a0d0d0b a1b2cd34 34cdb2a1 a1b2cd a1b2 736e6f6f70000000 736e6f6f700000 00000000 0000001f6f "
            "0000001f60 0000001f62 0000001fa0 0000001f 00 6f1d 60 6e00 6e7e 7f454c46 a000 a1 a2 efbbbf36 efbbbf fffe3600 ff"
        ).split(),
    ),
    *(bytes.fromhex(f"0502{name_type:08x}00000001") for name_type in (0, 1, 12, 13, 256, 0x1000001)),
    b"-----BEGIN",
    b"-----BEGI",
    b"SQLite",
    b"SQLit",
    b"tkt",
    b"tkt\n",
    b"tkt x\n",
    b"tkt\tx",
    b"tktabcdefghijklm n",
    b"x",
    b"0123456789abcdef\xff",
    b"0123456789abcde\xff",
    b"NTLMSSP\x00\x01",
    b"GET / HTTP/1.1\r\n\r\n",
    b"GET",
    b"GETX",
    b"HEAD / HTTP/1.0\r\n",
    b"POST /KdcProxy HTTP/1.1\r\n",
    b"PUT /",
    b"DELETE /",
    b"CONNECT x:88",
    b"OPTIONS *",
    b"HTTP/1.1 401 Unauthorized\r\n",
    b"http/1.1",
    b"",
]
COMMANDS = ("list", "stream", "message", "message --lines", "keytab", "ccache", "capture")


class Case(NamedTuple):
    kind: str
    words: list
    given: bytes
    output: str
    # None for any text.
    error: str
    status: int


def kept_cases(path):
    """The cases of a file. They may name the files of tests/data/sources."""
    for line in path.read_text().splitlines():
        case = json.loads(line)
        words = case.get("words") or [word for word in (case["command"],) if word] + case["options"]
        yield Case(case["kind"], words, bytes.fromhex(case["input"]), case["output"], case["error"], case["status"])


def files_in(folder):
    """The files of a folder, by their names in it, as the reference takes them."""
    found = {}
    for path in folder.rglob("*"):
        name = bytes(path.relative_to(folder))
        if path.is_file():
            found[name] = path.read_bytes()
        elif not path.is_dir():
            found[name] = None
        elif not any(path.iterdir()):
            found[name + b"/"] = None
    return found


def sources(folder):
    """Copies the sources into a folder, with one of an odd name, and one whose name looks like a prefix.

    A directory to which anyone may write has caches, and names that are not UTF-8, a pipe that nobody writes to, a folder
    and links among them; another one has no cache.
    """
    shutil.copytree(DATA / "sources", folder, dirs_exist_ok=True)
    for name in (ODD_NAME, b"FILE:a.keytab"):
        shutil.copy(folder / "a.keytab", bytes(folder) + b"/" + name)
    for name in HOSTILE_NAMES:
        path = bytes(folder) + b"/" + (name if isinstance(name, bytes) else name.encode())
        os.makedirs(os.path.dirname(path), exist_ok=True)
        shutil.copy(folder / ("x.gz" if path.endswith(b".gz") else "a.keytab"), path)
    shared = bytes(folder) + b"/shared"
    for name in (shared, shared + b"/tkt5", bytes(folder) + b"/empty"):
        os.mkdir(name)
    for name in (b"tkt1", b"tkt2\xff", b"tkt3", b"a\xff", b"\xff", b"Tkt6"):
        shutil.copy(folder / "cc/tkt1", shared + b"/" + name)
    os.mkfifo(shared + b"/tkt4")
    os.mkfifo(shared + b"/pipe")
    os.symlink(b"tkt1", shared + b"/tkt7")
    os.symlink(b"tkt4", shared + b"/tkt8")


def cases_of_beginnings():
    """Each command over each of these octets, as the reference has it."""
    for command, octets in itertools.product(COMMANDS, BEGINNINGS):
        words = [*command.split(), "-"]
        made = run(words, octets, {})
        yield Case("beginning", words, octets, made.output, made.errors, made.status)


def cases_by_reference(folder, clock):
    """The command lines above, as the reference has them."""
    yield from cases_of_beginnings()
    files = files_in(folder)
    given = files[b"m.hex"]
    for words in WORDS:
        texts = [word if isinstance(word, str) else word.decode("utf-8", "surrogateescape") for word in words]
        made = run(texts, given, files, clock)
        yield Case("words", words, given, made.output, made.errors, made.status)
