"""Whole runs of krbls: a command line, its sources one after another, and what is written on both outputs."""

import calendar
import re
from typing import NamedTuple

from . import RECORDS, file, lines_of, records
from .choosing import Wrong, choice_of, last_line
from .hints import command_for, hint
from .values import file_name

COMMANDS = ("list", *dict.fromkeys(command.split()[0] for command in RECORDS))

ALL_COMMANDS = (*COMMANDS, "decode", "encode")
# What is said of a file that is not there and has the name of one of them, where none was given.
COMMAND_FIRST = "a command comes before options: krbls COMMAND [OPTIONS] [FILE]..."

# The options of each command, and those that have a value.
COMMON = ("--names", "--json", "--only", "--fields", "--header", "-H", "--with-filename", "--file")
OPTIONS = {
    "stream": ("--limit", "--keep-going", "--strict"),
    "message": ("--lines", "--strict"),
    "items": ("--strict",),
    "keytab": (),
    "ccache": ("--now",),
    "capture": ("--limit", "--port", "--strict"),
    "list": ("--now",),
}
WITH_VALUES = ("--file", "--limit", "--port", "--now", "--only", "--fields")

# Of which commands a name may have a prefix that is no part of the file's name, and of which one for a directory of caches.
OF_FILES = ("keytab", "ccache", "list")
OF_DIRECTORIES = ("ccache", "list")

DATE = re.compile(r"(\d{4})-(\d\d)-(\d\d)T(\d\d):(\d\d):(\d\d)Z")
# That of 9999-12-31T23:59:59Z, the last one that a date can say; a cache has times of 32 bits.
LAST_SECOND = 253402300799
# What is said of names of caches that are no files, by their types.
BY_KVNO = "kvno -c NAME --out-cache FILE krbtgt/REALM (MIT)"
BY_KCC = "kcc copy_cred_cache NAME FILE (Heimdal)"
OTHER_CACHES = {
    b"KCM:": f"a daemon keeps this cache; to copy it into a file: {BY_KVNO}, or {BY_KCC}",
    b"KEYRING:": f"the kernel keeps this cache; to copy it into a file: {BY_KVNO}",
    b"API:": f"a service of the system keeps this cache; to copy it into a file: {BY_KVNO}, or {BY_KCC}",
    b"MEMORY:": "this cache is in the memory of the program that made it, and no other program reads it; to get one in a file: kinit -c FILE",
}
NO_FILE = "No such file or directory (os error 2)"
# Names that are not UTF-8 cannot be opened.
NO_NAME = "invalid filename"
NOT_A_DIRECTORY = "Not a directory (os error 20)"
NOT_REGULAR = "not a regular file"
NO_CACHE = "this directory has no credential cache: no name in it begins with tkt"


class WrongWords(Exception):
    """A command line that is wrong."""


class Source(NamedTuple):
    # As it is shown, and as it is opened: None for the standard input.
    name: bytes
    path: bytes
    # Why it cannot be read, if that is known by its name or its kind.
    why_unread: str = None


# What a shell takes as it is.
BARE = re.compile(rb"[A-Za-z0-9._/+-]+")


def shell_word(name):
    """A name as a shell reads it: as it is, between single quotes, or, if it has what is not printed, with escapes."""
    if BARE.fullmatch(name):
        return name.decode()
    if all(0x20 <= octet <= 0x7E for octet in name):
        return "'" + name.decode().replace("'", "'\\''") + "'"
    return "$'" + "".join(chr(octet) if 0x20 <= octet <= 0x7E and octet not in b"'\\" else f"\\x{octet:02x}" for octet in name) + "'"


class Run(NamedTuple):
    output: str
    errors: str
    status: int


def words_of(words):
    """The command, its flags, the values of its options, and the names of its sources."""
    command, words = (words[0], words[1:]) if words and words[0] in COMMANDS else ("list", words)
    flags, values, names = [], {}, []
    while words:
        word, *words = words
        if word == "--":
            names, words = [*names, *words], []
        elif not word.startswith("-") or word == "-":
            names.append(word)
        elif word not in (*COMMON, *OPTIONS[command]) or word in values or word in flags:
            raise WrongWords
        elif word not in WITH_VALUES:
            flags.append(word)
        elif words:
            values[word], *words = words
        else:
            raise WrongWords
    return command, flags, values, names


def seconds(when, clock):
    """The time that an option gives."""
    if when == "now":
        return clock
    date = DATE.fullmatch(when)
    if date is None:
        if not when.isdecimal() or int(when) > LAST_SECOND:
            raise WrongWords
        return min(int(when), 2**32 - 1)
    parts = tuple(map(int, date.groups()))
    found = calendar.timegm(parts) if 1 <= parts[1] <= 12 else -1
    is_a_day = 1 <= parts[2] <= calendar.monthrange(*parts[:2])[1] if 1 <= parts[1] <= 12 else False
    if not is_a_day or parts[0] < 1970 or parts[3] > 23 or parts[4] > 59 or parts[5] > 59:
        raise WrongWords
    return min(found, 2**32 - 1)


def sources_of(command, name, files):
    """The sources that a name stands for."""
    if name == b"-":
        return [Source(name, None)]
    if command in OF_FILES:
        for prefix in (b"FILE:", b"WRFILE:"):
            if name.startswith(prefix):
                return [Source(name, name[len(prefix) :])]
    if command in OF_DIRECTORIES and name.startswith(b"DIR::"):
        return [cache_of(name, name[len(b"DIR::") :], files)]
    return [Source(name, name, why_unread=None if is_utf8(name) else NO_NAME)]


def is_directory(command, name):
    """Whether a name stands for all caches of a directory."""
    return command in OF_DIRECTORIES and name.startswith(b"DIR:") and not name.startswith(b"DIR::")


def is_utf8(name):
    try:
        name.decode()
    except UnicodeDecodeError:
        return False
    return True


def cache_of(name, path, files):
    """A cache of a directory, which has to be a regular file."""
    return Source(name, path, NO_NAME if not is_utf8(path) else NOT_REGULAR if is_other(path, files) else None)


def is_other(path, files):
    """Whether there is something at a path that is no regular file: what is said of it is None, or it has files in it."""
    return path in files and files[path] is None or any(other.startswith(path + b"/") for other in files)


def caches_of(name, files):
    """The caches of a collection in a directory, or what is said of it and its status if there are none."""
    directory = name[len(b"DIR:") :] + b"/"
    entries = {path[len(directory) :].split(b"/")[0] for path in files if path.startswith(directory)}
    if not entries:
        return [], NOT_A_DIRECTORY if directory[:-1] in files else NO_FILE, 3
    found = [directory + entry for entry in sorted(entries) if entry.startswith(b"tkt")]
    return [cache_of(b"DIR::" + path, path, files) for path in found], None if found else NO_CACHE, 0


def run(words, given, files, clock=0):
    """What krbls does with words, a standard input, and files by their names.

    What is no regular file has None in place of octets, and a directory with nothing in it is named with `/` at its end.
    """
    try:
        command, flags, values, names = words_of(words)
        named = [*([values["--file"]] if "--file" in values else []), *names]
        if command == "list" and not named:
            raise WrongWords
        now = seconds(values["--now"], clock) if "--now" in values else None
        choice = choice_of(command, values.get("--only"), values.get("--fields"), flags)
    except WrongWords:
        return Run("", None, 2)
    except Wrong as wrong:
        return Run("", f"error: {wrong}\n\nFor more information, try '--help'.\n", 2)
    encoded = [name.encode("utf-8", "surrogateescape") for name in named] or [b"-"]
    sources, errors, status = [], [], 0
    for name in encoded:
        if not is_directory(command, name):
            sources += sources_of(command, name, files)
            continue
        found, why, fault = caches_of(name, files)
        sources += found
        errors += [] if why is None else [f"krbls: {file_name(name).text}: {why}\n"]
        status = max(status, fault)
    listing = Listing(command, flags, values, now, len(sources) > 1, any(is_directory(command, name) for name in encoded))
    listing.errors, listing.status = errors, status
    listing.choice = choice
    if choice is not None:
        listing.lines += choice.header
    for source in sources:
        if source.path is None:
            listing.take(source, given)
            given = b""
        else:
            listing.take(source, None if source.why_unread else files.get(source.path.removeprefix(b"./")))
    return Run("".join(listing.lines), "".join(listing.errors), listing.status)


def said(command, octets):
    """What is said on the standard error of a command's standard input."""
    return run(command.split(), octets, {}).errors


class Listing:
    """What is written of one source after another."""

    def __init__(self, command, flags, values, now, is_many, has_directory):
        self.command = command
        self.now = now
        self.forms = [flag for flag in flags if flag in ("--names", "--json")]
        options = [flag for flag in ("--keep-going", "--lines", "--strict") if flag in flags]
        numbers = [word for name in ("--limit", "--port") if name in values for word in (name, values[name])]
        self.options = [*options, *numbers]
        self.is_many = is_many
        self.has_names = "-H" in flags or "--with-filename" in flags
        # Each cache of a directory has its record, even if it is the only one.
        self.has_records = not self.has_names and (is_many or has_directory)
        self.lines, self.errors, self.status = [], [], 0
        self.choice = None

    def take(self, source, octets):
        """One more source, of which there are octets unless it cannot be opened."""
        name = source.name
        text = file_name(name).text
        said_of = "standard input" if name == b"-" else text
        if self.has_records:
            self.put(file(name), name)
        if octets is None:
            self.fail(3, f"{said_of}: {source.why_unread or NO_FILE}")
            if self.command == "list" and name.decode(errors="replace") in ALL_COMMANDS:
                self.errors.append(f"krbls: {said_of}: {COMMAND_FIRST}\n")
            elif self.command in OF_DIRECTORIES:
                for prefix, said in OTHER_CACHES.items():
                    if name.startswith(prefix):
                        self.errors.append(f"krbls: {said_of}: {said}\n")
            return
        used = command_for(octets) if self.command == "list" else self.command
        found, status = records(" ".join([used, *self.options]), octets, self.now)
        for number, record in enumerate(found, 1):
            self.put(self.with_name(record, name), name, number == len(found))
        if self.choice is not None and status == 1 and not self.choice.keeps(found[-1], True):
            self.errors.append(f"krbls: {said_of}: {last_line(found[-1])}\n")
        self.status = max(self.status, status)
        # What `items` lists before a refusal is of what `message` refuses at once.
        is_refused = found[-1 if used == "items" else 0].kind == "refused"
        said = hint(octets, used, self.command, shell_word(name))
        if is_refused and said is not None:
            self.errors.append(f"krbls: {said_of}: {said}\n")

    def put(self, record, source, ends=False):
        """A record of a source, if it is kept; the last one ends the listing."""
        if self.choice is None:
            self.lines += [f"{line}\n" for line in lines_of([record], self.forms)]
        elif self.choice.keeps(record, ends):
            self.lines += self.choice.shown(record, source)

    def with_name(self, record, name):
        """A record with the name of its source, if it has that."""
        if "--json" in self.forms:
            return record.named_at_end(name) if self.has_names or self.is_many else record
        return record._replace(before={"file": file_name(name), **record.before}) if self.has_names else record

    def fail(self, status, said):
        self.errors.append(f"krbls: {said}\n")
        self.status = max(self.status, status)
