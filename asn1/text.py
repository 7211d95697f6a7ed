"""Text: comments, pairs in pairs as definitions have them, and what a file brings in."""

import pathlib
import re
import textwrap


def by(path="asn1/krb5.asn1"):
    """What a written file says of itself."""
    return f"asn1/generate wrote this from {path}"


BY = by()


def doc(text, indent=0, sign="///"):
    """A doc comment, with lines of at most 100 characters."""
    lead = " " * indent + sign + " "
    return "\n".join(textwrap.wrap(text, 100, initial_indent=lead, subsequent_indent=lead, break_on_hyphens=False))


def an(name):
    return ("an " if name[0] in "AEIOU" else "a ") + name


def nested(items, end, wrap):
    """What is in the last of what is in the last of .., as `a(b, a(c, end))`."""
    for it in reversed(items):
        end = wrap(it, end)
    return end


def pairs(items, end):
    return nested(items, end, lambda it, rest: f"({it}, {rest})")


def path(root, at):
    """The item at an index of pairs in pairs."""
    return root + ".1" * at + ".0"


def braces(names):
    return names[0] if len(names) == 1 else "{" + ", ".join(names) + "}"


def broken(items, end, indent):
    """Pairs in pairs, each on lines of its own as long as it is too long for one."""
    lead = " " * (indent + 2)
    rest = pairs(items[1:], end) + ","
    if len(lead + rest) > 138:
        rest = broken(items[1:], end, indent + 2) + ","
    return f"(\n{lead}{items[0]},\n{lead}{rest}\n{' ' * indent})"


def equation(head, items, end="tt"):
    """An equation whose right side is pairs in pairs: on its line, on the next, or on many."""
    line = pairs(items, end)
    if len(f"{head} = {line}") <= 150:
        return f"{head} = {line}"
    if len(line) <= 178:
        return f"{head} =\n    {line}"
    return f"{head} = {broken(items, end, 0)}"


def record(head, rows):
    line = f"{head} = record {{ {'; '.join(rows)} }}"
    return line if len(line) <= 150 else f"{head} = record {{\n" + "".join(f"  {it};\n" for it in rows) + "}"


def filled(items, width=120):
    """A list over several lines."""
    lines = ["    " + items[0]]
    for it in items[1:]:
        if len(lines[-1]) + len(it) + 3 > width:
            lines.append("    ∷ " + it)
        else:
            lines[-1] += " ∷ " + it
    return "\n".join(lines) + " ∷ []"


def occurs(name, body):
    """Whether a text has a name, other than as a field of something or as a field that is set."""
    if "◌" in name:
        return f" {name.strip('◌')} " in body
    if name == "[]":
        return name in body
    return re.search(rf"(?<![\w.-]){re.escape(name)}(?![\w-]| =|\.\w*\{{)", body) is not None


def brought(body, homes, ghost=""):
    """The lines that bring in what a text needs, of these modules with their names."""
    lines = ""
    for module, names in homes:
        needed = [name for name in names if occurs(name.split(" as ")[-1], body)]
        if needed:
            lines += f"{ghost}use {module}.{{{', '.join(needed)}}}{';' * bool(ghost)}\n"
    return lines


TEMPLATES = pathlib.Path(__file__).resolve().parent / "templates"
EACH = re.compile(r"«each( type)?»")


def filled_in(text, words):
    for word, value in words.items():
        text = text.replace(f"«{word}»", str(value))
    return text


def fill(name, messages=(), types=(), **words):
    """A template with words in place of those between « and ».

    Lines that begin with «each» stand for as many as there are messages, and those with «each type» for as many as
    there are types of messages, with the words of each.
    """
    lines = (TEMPLATES / f"{name}.template").read_text().split("\n")
    made, at = [], 0
    while at < len(lines):
        mark = EACH.match(lines[at])
        if not mark:
            made.append(lines[at])
            at += 1
            continue
        end = at
        while end < len(lines) and lines[end].startswith(mark[0]):
            end += 1
        run = "\n".join(line.removeprefix(mark[0]) for line in lines[at:end])
        made += [filled_in(run, it) for it in (types if mark[1] else messages)]
        at = end
    text = filled_in("\n".join(made), words)
    assert "«" not in text, text[text.index("«") :][:60]
    return text
