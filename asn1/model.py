"""Types in Rust and in definitions, and how values go from one to the other."""

from module import Basic, ListOf, Sequence


def owned(type):
    return f"Many<{owned(type.item)}>" if isinstance(type, ListOf) else type.rust


def viewed(type):
    if isinstance(type, ListOf):
        return "ItemsView<'a>"
    if isinstance(type, Sequence):
        return f"{type.rust}View<'a>"
    return {"number": "i64", "micros": "i64", "flags": "FlagsView<'a>"}.get(type.form, "&'a [u8]")


def option(field, text):
    return f"Option<{text}>" if field.optional else text


def mapped(type):
    """Whether a value of the type is another one as a value of its term."""
    if isinstance(type, ListOf):
        return mapped(type.item)
    return isinstance(type, Sequence) or type.form == "micros"


def there(type):
    """The function from values of a type, or of a list of it, to those of its term."""
    if isinstance(type, ListOf):
        return f"(map {there(type.item)})"
    return "pos" if isinstance(type, Basic) else f"{type.term}_value"


def back(type):
    """The function from values of a term to those of its type."""
    if isinstance(type, ListOf):
        return f"(map {back(type.item)})"
    return "micros_of" if isinstance(type, Basic) else f"{type.term}_of"


def moved(field, function, value):
    """A field's value under a function of `there` or `back`."""
    if not mapped(field.type):
        return value
    return f"option_map {function(field.type)} {value}" if field.optional else f"{function(field.type).strip('()')} {value}"


def fixed_value(field):
    return "pos " + (str(field.type.values[0]) if len(field.type.values) == 1 else "message_type")


def term_of(type):
    """The term of a type as an argument."""
    return f"(sequence_of {term_of(type.item)})" if isinstance(type, ListOf) else type.term


# How many fields a view is made of at most in one step.
MOST_IN_ONE_STEP = 4


def is_plain(it):
    """Whether the type has so few fields that a view of it is made in one step."""
    return it.application is None and not it.fixed and len(it.kept) <= MOST_IN_ONE_STEP


def item_row(type):
    return type.row if isinstance(type, Basic) else type.rust


# The names under which messages are matched, where they are not the last words of theirs.
MATCHED = {"KrbPriv": "private"}


def matched(message):
    return MATCHED.get(message.rust, message.term.split("_")[-1])


def types_of(it):
    """The types of this module that have a Rust type, as those of fields and of items: each once."""
    return list(dict.fromkeys(field.part for type in it.types for field in type.kept))
