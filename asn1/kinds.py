"""What is by cases of a kind of messages: Message, Kind and MessageView with what is said of them."""

from model import matched
from text import doc, fill
from values import defined


def words_of(message, at):
    """What a line of a template says of a message."""
    type, it = message.type, matched(message)
    two = f"::<{message.number}>" if type.is_parametric else ""
    realm = type.note("realm")
    return {
        "Kind": message.rust,
        "kind": message.term,
        "NAME": message.name,
        "number": message.number,
        "tag": f"0x{0x60 + message.number:02X}",
        "about": doc(message.about, 4),
        "type": type.term,
        "Type": type.rust,
        "argument": message.argument,
        "it": it,
        "index": at,
        "size": f"{type.term}::size{two}({it})" if two else f"{it}.size()",
        "put": f"{type.term}::put{two}({it}, out)" if two else f"{it}.put(out)",
        "noted": f"{type.term}::notes{two}({it})" if two else f"{it}.notes()",
        "view": f"{type.rust}::view_into{two}" if two else f"view_whole_into::<{type.rust}>",
        "call": "view_into" if two else "view_whole_into",
        "copy": f"{type.term}::copy{two}" if two else f"{type.rust}::from_view",
        "notes": f"view.notes{two}()" if two else f"{type.rust}::notes(view)",
        "realm": f"Some m.{realm}" if realm else "None",
        "realm_seen": f"(m) => Some(m.{realm})" if realm else "(_) => None",
        "in": f"-in-{message.rust}" * (at > 0),
        "else": "else " * (at > 0),
        "open": "(" * (at > 0),
        "inr": "inr (" * at,
        "close": ")" * at,
    }


def messages_of(module):
    made, calls = [words_of(message, at) for at, message in enumerate(module.messages)], set()
    for message, words in zip(module.messages, made):
        # calls have the names of their goals in order: the first of a name has it alone
        call = "copy" if message.type.is_parametric else "from_view"
        words["copy_requires"] = f"{call}-requires" + f"-in-{message.rust}" * (call in calls)
        calls.add(call)
    return made


def types_of(module):
    types = sorted((it for it in module.types if it.messages), key=lambda it: it.term)
    return [{"type": it.term, "Type": it.rust} for it in types]


def file(template):
    """What writes the file of a template."""

    def write(module):
        types = [it for it in module.types if it.messages]
        last = len(module.messages) - 1
        return fill(
            template,
            messages_of(module),
            types_of(module),
            count=len(module.messages),
            kinds=", ".join(message.term for message in module.messages),
            uses="".join(f"use crate::{it.term};\n" for it in sorted(types, key=lambda it: it.term) if it.is_parametric),
            message_types=", ".join(sorted({it.rust for it in types} | {"Message", "MessageView", "Notes"})),
            kind_types=", ".join(sorted(f"{message.rust}Kind" for message in module.messages)),
            definitions=", ".join(name for it in types for name in defined(it) if not name.endswith("Value")),
            of=", ".join(f"{it.term}_of" for it in types),
            backs=", ".join(f"{it.term}-back" for it in types),
            seen=", ".join(f"{it.term}_value-seen" for it in types),
            laws=", ".join(f"{it.term}_{word}" for it in types for word in ("value-of", "value-seen")),
            inr="inr (" * last,
            close=")" * last,
        )

    return write
