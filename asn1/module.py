"""Reads an ASN.1 module, as far as those here need it, into the types that are written from it.

It reads types that are one of the basic types below, a SEQUENCE, a SEQUENCE OF, a CHOICE of one SEQUENCE in a tag, or a
type of the module or one that it imports, in a tag [APPLICATION n] or in none; and the CHOICE of all messages. Components
have explicit tags of one octet, and may be OPTIONAL; INTEGER stands for numbers that are fixed. All else, and what nothing
would be written of, is refused with its line.
"""

import pathlib
import re
from dataclasses import dataclass, field
from typing import NamedTuple

# The greatest number of a tag of one octet (X.690, 8.1.2.4).
GREATEST_TAG = 30

TOKEN = re.compile(r"--!(?P<note>.*)|--(?P<comment>.*?)(?:--|$)|(?P<word>[A-Za-z][\w-]*|\d+|::=|\.\.|[\[\](){}|,;])|\s+", re.M)


class Refused(Exception):
    """What is wrong with a module, after the file and the line where it is."""


class Token(NamedTuple):
    kind: str
    text: str
    line: int


class Home(NamedTuple):
    """Where a module is, and the crate that is written from it."""

    path: str
    crate: str


@dataclass(frozen=True)
class Basic:
    """A type with a Rust type of its own: its names in Rust and in definitions, and the form of its views."""

    rust: str
    term: str
    row: str
    form: str  # number, micros, text, octets, time, flags


BASICS = {
    "Int32": Basic("Int32", "int32", "Int32", "number"),
    "UInt32": Basic("Wide32", "wide32", "Wide32", "number"),
    "Microseconds": Basic("Micros", "microseconds", "Microseconds", "micros"),
    "KerberosString": Basic("KString", "kerberos_string", "KerberosString", "text"),
    "OCTET STRING": Basic("Octets", "octet_string", "OctetString", "octets"),
    "KerberosTime": Basic("KerberosTime", "kerberos_time", "KerberosTime", "time"),
    "KerberosFlags": Basic("Flags", "kerberos_flags", "KerberosFlags", "flags"),
}


@dataclass(frozen=True)
class Number:
    """INTEGER (n), or of several numbers, one for each message of the type."""

    values: tuple


@dataclass(frozen=True)
class ListOf:
    """SEQUENCE OF an item type."""

    item: object
    name: str = ""
    about: str = ""

    rust = property(lambda self: camel(self.name))
    term = property(lambda self: snake(self.name))


@dataclass(frozen=True)
class Tagged:
    """A CHOICE of one type, in a tag [index]."""

    item: object
    name: str
    index: int
    about: str

    rust = property(lambda self: camel(self.name))
    term = property(lambda self: snake(self.name))


@dataclass
class Field:
    """A component of a SEQUENCE."""

    name: str
    index: int
    type: object
    optional: bool
    about: str = ""
    rust: str = ""

    row = property(lambda self: camel(self.name))
    is_fixed = property(lambda self: isinstance(self.type, Number))
    is_list = property(lambda self: isinstance(self.type, ListOf))
    # the type of the field, or of its items
    part = property(lambda self: self.type.item if self.is_list else self.type)


@dataclass
class Sequence:
    """A SEQUENCE, in a tag of its own if it has an application number."""

    name: str
    section: str
    about: str
    notes: list
    home: Home
    application: int = None
    fields: list = field(default_factory=list)
    messages: list = field(default_factory=list)  # those that are it in a tag of their own

    rust = property(lambda self: camel(self.name))
    term = property(lambda self: snake(self.name))
    crate = property(lambda self: self.home.crate)
    # a section of another document than RFC 4120 is named with it
    source = property(lambda self: self.section if " " in self.section else f"RFC 4120, {self.section}")
    kept = property(lambda self: [it for it in self.fields if not it.is_fixed])
    fixed = property(lambda self: [it for it in self.fields if it.is_fixed])
    # a list of more than ten fields is cut in half, since lists nest no deeper than a proof of them stays short
    cut = property(lambda self: len(self.kept) // 2 if len(self.kept) > 10 else None)
    letter = property(lambda self: self.note("letter") or "m")
    is_parametric = property(lambda self: len(self.messages) > 1)

    def note(self, word):
        return next((it[len(word) :].strip() for it in self.notes if it.startswith(word)), None)


@dataclass
class Message:
    """An alternative of the CHOICE of messages."""

    name: str
    type: Sequence
    number: int
    section: str
    about: str = ""

    rust = property(lambda self: camel(self.name))
    term = property(lambda self: snake(self.name))
    # the argument by which functions of a type that two messages are know which one is meant
    argument = property(lambda self: f" {self.number}" if self.type.is_parametric else "")


@dataclass
class Module:
    name: str
    path: str
    home: Home
    types: list
    lists: list  # those with a name that are part of no type
    tagged: list
    messages: list
    sections: dict  # the heading with which a section begins, by the name of its first type
    named: dict  # each type, by its name
    lines: dict  # the line in which each type begins, by its name

    def refuse(self, name, what):
        """Refuses a type of the module."""
        raise Refused(f"{self.path}:{self.lines[name]}: {name} {what}")


def words(name):
    return name.lower().split("-") if "-" in name or name.isupper() else re.sub(r"(?<=.)([A-Z])", r" \1", name).lower().split()


def snake(name):
    return "_".join(words(name))


def camel(name):
    return "".join(it.capitalize() for it in words(name))


class Reader:
    def __init__(self, path, text, home, others):
        self.path, self.home, self.others, self.at = path, home, others, 0
        self.named, self.parts, self.imported, self.lines = {}, set(), set(), {}
        self.tokens = list(self.split(text))

    def split(self, text):
        for number, line in enumerate(text.split("\n"), 1):
            at = 0
            while at < len(line):
                found = TOKEN.match(line, at)
                if not found:
                    raise Refused(f"{self.path}:{number}: {line[at:]} is none of this notation")
                at = found.end()
                if found.lastgroup:
                    yield Token(found.lastgroup, found[found.lastgroup].strip(), number)
        yield Token("end", "the end of the file", number)

    def refuse(self, what):
        """Refuses what the last token that was taken belongs to."""
        raise Refused(f"{self.path}:{self.tokens[max(self.at - 1, 0)].line}: {what}")

    def peek(self):
        return self.tokens[self.at]

    def take(self, *texts):
        """Takes the next token, which has to be one of these if any are given."""
        token = self.peek()
        self.at = min(self.at + 1, len(self.tokens) - 1)
        if texts and token.text not in texts or token.kind == "end":
            self.refuse(f"{token.text} and not {' or '.join(texts) or 'a name'}")
        return token.text

    def takes(self, text):
        if self.peek().kind == "word" and self.peek().text == text:
            self.at += 1
            return True
        return False

    def take_number(self):
        text = self.take()
        return int(text) if text.isdigit() else self.refuse(f"{text} and not a number")

    def take_tag(self):
        """Takes the number of a tag, which has to be one of one octet."""
        number = self.take_number()
        if number > GREATEST_TAG:
            self.refuse(f"the tag {number} has more than one octet, which is that of a number up to {GREATEST_TAG}")
        return number

    def comments(self):
        """Takes comments and notes: the paragraph of comments that ends here, and the notes."""
        about, notes, last = [], [], 0
        while self.peek().kind in ("comment", "note"):
            token = self.peek()
            if token.kind == "note":
                notes.append(token.text)
            else:
                about = about + [token.text] if token.line <= last + 1 else [token.text]
                last = token.line
            self.at += 1
        return about, notes

    def imports(self):
        """Takes names that are imported, if there are some."""
        before, _ = self.at, self.comments()
        if not self.takes("IMPORTS"):
            self.at = before
            return
        names = [self.take()]
        while self.take(",", "FROM") == ",":
            names.append(self.take())
        module = self.take()
        other = self.others.get(module) or self.refuse(f"there is no module {module} to import from")
        for name in names:
            if name not in BASICS and name not in other.named:
                self.refuse(f"there is no type {name} in {module}")
            self.imported.add(name)
            if name not in BASICS:
                self.named[name] = other.named[name]
        self.take(";")

    def module(self):
        self.comments()
        module_name = self.take()
        while self.take() != "BEGIN":
            pass
        self.imports()
        types, tagged, messages, sections, section, heading = [], [], [], {}, "", None
        while True:
            about, notes = self.comments()
            if about and about[0].startswith("# "):
                heading, about = about[0].removeprefix("# "), about[1:]
                section = heading.split(":")[0]
            if self.takes("END"):
                own = {name: made for name, made in self.named.items() if name not in self.imported}
                lists = [made for name, made in own.items() if isinstance(made, ListOf) and name not in self.parts]
                return Module(module_name, self.path, self.home, types, lists, tagged, messages, sections, own, self.lines)
            name = self.take()
            self.lines[name] = self.tokens[self.at - 1].line
            if name in self.named or name in BASICS:
                self.refuse(f"there is a type {name} already")
            if heading:
                sections[name], heading = heading, None
            self.take("::=")
            if self.takes("CHOICE"):
                if self.tokens[self.at + 2].text == "[":
                    self.named[name] = made = self.tagged(name, " ".join(about))
                    tagged.append(made)
                else:
                    messages = self.choice()
                continue
            self.named[name] = made = self.type(name, section, " ".join(about), notes)
            if isinstance(made, Sequence):
                types.append(made)

    def type(self, name="", section="", about="", notes=()):
        application = None
        if self.takes("["):
            self.take("APPLICATION")
            application = self.take_tag()
            self.take("]")
        if self.takes("SEQUENCE"):
            if self.takes("OF"):
                return self.untagged(application, ListOf(self.type(), name, about))
            if not name:
                self.refuse("a SEQUENCE without a name of its own")
            return Sequence(name, section, about, list(notes), self.home, application, self.fields())
        if self.takes("INTEGER"):
            return self.untagged(application, self.number())
        word = self.take()
        if word == "OCTET":
            self.take("STRING")
            word = "OCTET STRING"
        if word == "OCTET STRING" or word in BASICS and (word in self.imported or not self.others):
            return self.untagged(application, BASICS[word])
        if word not in self.named:
            self.refuse(f"there is no type {word}")
        made = self.named[word]
        self.parts.add(word)
        if application is not None and not (name and isinstance(made, Sequence)):
            self.untagged(application, made)
        if application is not None:
            message = Message(name, made, application, section)
            made.messages.append(message)
            return message
        return made

    def untagged(self, application, made):
        """A type, which is not in a tag of its own."""
        if application is not None:
            self.refuse(f"the tag [APPLICATION {application}] of what is no SEQUENCE with a name")
        return made

    def number(self):
        self.take("(")
        values = [self.take_number()]
        self.comments()
        while self.takes("|"):
            values.append(self.take_number())
            self.comments()
        self.take(")")
        return Number(tuple(values))

    def fields(self):
        made = []
        self.take("{")
        while not self.takes("}"):
            self.comments()
            if self.takes("}"):
                break
            made.append(self.field(made))
        return made

    def field(self, before):
        name = self.take()
        if not self.takes("["):
            self.refuse(f"{name} has no tag")
        index, _ = self.take_tag(), self.take("]")
        if any(it.index == index or it.name == name for it in before):
            self.refuse(f"there is a component {name} or a tag [{index}] before")
        made = Field(name, index, self.type(), self.takes("OPTIONAL"))
        if self.peek().text == "DEFAULT":
            self.refuse(f"{name} has a default, which DER leaves out")
        made.about, made.rust = self.after_field(), snake(name)
        if made.about.startswith("as "):
            made.rust, made.about = made.about[3:].split(": ", 1)
        return made

    def after_field(self):
        """Takes the comma after a field, and what its line says of it."""
        line = self.tokens[self.at - 1].line
        if not self.takes(",") and self.peek().kind == "word" and self.peek().text != "}":
            self.refuse(f"{self.peek().text} after the type of a component")
        token = self.peek()
        if token.kind == "comment" and token.line == line:
            return self.take()
        return ""

    def tagged(self, name, about):
        """Takes the one alternative of a choice, which is in a tag."""
        self.take("{")
        made = self.field([])
        self.comments()
        self.take("}")
        if made.optional or not isinstance(made.type, Sequence):
            self.refuse(f"{name} is no choice of one SEQUENCE")
        return Tagged(made.type, name, made.index, about)

    def choice(self):
        made = []
        self.take("{")
        while not self.takes("}"):
            self.take()
            name = self.take()
            it = self.named.get(name)
            if isinstance(it, Sequence) and it.application is not None:
                it.messages.append(it := Message(name, it, it.application, it.section))
            if not isinstance(it, Message):
                self.refuse(f"{name} is no type in a tag of its own")
            if any(it.number == other.number for other in made):
                self.refuse(f"there is a message [APPLICATION {it.number}] before")
            it.about = self.after_field()
            made.append(it)
        return made


def read(path, crate, others=()):
    """The module of a file, from which a crate is written, with those that it may import from."""
    home = Home(f"asn1/{pathlib.Path(path).name}", crate)
    return Reader(path, pathlib.Path(path).read_text(), home, {it.name: it for it in others}).module()
