"""krb_codec/src: a file for each type, with what makes octets and notes of a value, and a value of a view."""

from model import owned
from module import Sequence
from structs import BASIC, ghost_homes, halves, has_notes, layouts, lists_of_items, may_have_notes, noted, noting, optional_items, slot, term_name, use_lines, uses_of_items
from text import brought, doc, fill, nested

NOTES = "Noted no_optional_notes optional_list_notes optional_notes"
FIELDS = "Application Cut End Fixed ItemsView Notes Optional Required Sequence any_of"


def uses(module, it, body):
    """The lines that bring in what the code of a type needs."""
    types = [name for type in module.types for name in (type.rust, f"{type.rust}View")]
    homes = [
        ("crate::copying", ["FromPlainView", "FromView", "copy_item_option", "copy_items", "copy_option", "copy_plain_option"]),
        ("crate::fields", ["Encode", "EncodeFields"]),
        ("crate::item", ["Item"]),
        ("crate::notes", NOTES.split()),
        ("krb_der", BASIC.split()),
        ("krb_msg", sorted(types + FIELDS.split())),
        ("std::alloc", ["Global"]),
    ]
    return use_lines(body, homes)


def ghost_uses(module, it, body):
    """The lines that bring in what the contracts of a type need."""
    homes = ghost_homes(module, it) + [
        ("Rattle.krb_msg.specs.inner.RoundTrips", [f"{it.term}-back"]),
        ("Rattle.krb_codec.specs.Encoding", ["IsSized"]),
        ("Rattle.krb_codec.specs.inner.PrefixFree", ["type_is_prefix_free"]),
    ]
    return brought(body, homes, "ghost ")


def layout_value(fields, end):
    """The description of fields as a value, each borrowed."""

    def wrap(field, rest):
        if field.is_fixed:
            return f"Fixed({rest})"
        return f"{slot(field)}({f'it.{field.rust}.as_ref()' if field.optional else f'&it.{field.rust}'}, {rest})"

    return nested(fields, end, wrap)


def layout_function(it):
    before, after = halves(it)
    rest = f"let rest = {layout_value(after, 'End')};\n" if after else ""
    value = f"Sequence({layout_value(before, 'Cut(rest)' if after else 'End')})"
    value = value if it.application is None and not it.is_parametric else f"Application({value})"
    number, argument, numbers = ("<const N: u8>", " N", ", N") if it.is_parametric else ("", "", "")
    return fill("layout.rt", type=it.term, Type=it.rust, number=number, argument=argument, numbers=numbers, value=rest + value)


def noted_of_value(field, value):
    """The notes on a field of a value."""
    return f"{noting(field, 'notes')}(&{value})" if field.optional else f"{value}.notes()"


def copied(field):
    if field.is_list:
        return f"{'copy_item_option' if field.optional else 'copy_items'}(alloc, seen.{field.rust})?"
    if not owns(field):
        return f"{'copy_plain_option' if field.optional else f'{field.type.rust}::from_plain_view'}(&seen.{field.rust})"
    return f"{'copy_option' if field.optional else f'{field.type.rust}::from_view'}(alloc, &seen.{field.rust})?"


def owns(field):
    """Whether a value of the field has memory of its own."""
    return field.is_list or isinstance(field.type, Sequence) or field.type.form in ("text", "octets", "flags")


def in_order_of_copying(it):
    """The fields of a type as they are copied: what owns memory comes last, since each step that fails drops what was copied before it."""
    return sorted(it.kept, key=owns)


def copy(it):
    return f"Ok({it.rust} {{ {', '.join(f'{field.rust}: {copied(field)}' for field in in_order_of_copying(it))} }})"


def codec_file(module, it):
    words = {"type": it.term, "Type": it.rust, "term": term_name(it)}
    parts = [layouts(it, lambda type: f"&'a {owned(type)}", ", borrowed", "'a"), layout_function(it)]
    parts += [fill("cut.rt")] if it.cut else []
    if it.is_parametric:
        parts.append(fill("two_values.rt", noted=noted(it, noted_of_value, "it"), copy=copy(it), **words))
    else:
        parts.append(fill("item.rt", **words))
        parts += [fill("noted.rt", noted=noted(it, noted_of_value, "self"), **words)] if has_notes(it) else []
        parts.append(fill("from_view.rt", copy=copy(it), **words))
    parts += [fill("list_copy.rt", about=doc(made.about), **words) for made in module.lists if made.item is it]
    body = "\n".join(parts)
    # traits are brought in where their methods are called
    code = "FromView\n" * ("::from_view" in body) + "FromPlainView\n" * ("::from_plain_view" in body) + "Noted\n" * has_notes(it) + "Item\n" * (not it.is_parametric)
    code += "\n".join(line for line in body.splitlines() if not line.lstrip().startswith("//"))
    return f"//! {it.name} as a value. `asn1/generate` wrote this from `asn1/krb5.asn1`.\n\n{ghost_uses(module, it, code)}\n{uses(module, it, code)}\n{body}"


def noted_lists_file(module):
    """krb_codec/src/notes/lists.rt: the notes on the lists of the grammar."""
    items = lists_of_items(module)
    noted = []
    for item in items:
        noted.append(fill("list_notes.rt", Type=owned(item), no="" if has_notes(item) else "no_"))
        noted += [fill("optional_list_notes.rt", Type=owned(item))] if item.rust in optional_items(module) else []
    return fill("noted_lists.rt", uses=uses_of_items(items, "krb_msg"), noted="\n".join(noted))
