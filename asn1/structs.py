"""krb_msg/src: a file for each type, with its struct, its view and the description of its fields."""

from model import option, owned, viewed
from module import Basic, Sequence
from text import an, brought, doc, fill, nested, pairs

FIELDS = "Application Cut End Fixed NotedView Optional Required Sequence View ViewFields ViewSequence no_optional_view_notes optional_list_view_notes optional_view_notes view_by_call"
BASIC = "Flags Int32 KString KerberosTime Many Memory Micros Octets Wide32"


def uses(module, it, body):
    """The lines that bring in what the code of a type needs."""
    homes = [(f"crate::{type.term}", [type.rust, f"{type.rust}View"]) for type in module.types if type is not it]
    homes += [
        ("crate::fields", FIELDS.split()),
        ("crate", ["any_of"]),
        ("crate::notes", ["Notes"]),
        ("crate::view::items", ["ItemsView"]),
        ("crate::view::scalars", ["FlagsView"]),
        ("crate::view", ["view_whole_sequence"]),
        ("krb_der", BASIC.split()),
    ]
    return use_lines(body, homes)


def use_lines(body, homes):
    """The `use` items that a text needs, of these modules with their names."""
    lines = brought(body, homes).replace(".{", "::{").splitlines()
    lines = [line.replace("{", "").replace("}", "") if "," not in line else line for line in lines]
    return "".join(sorted(f"{line};\n" for line in lines))


def term_name(it):
    """The term of a type in Rust, where a word of its own would be that of a module."""
    return it.term if "_" in it.term else f"{it.term}_term"


def ghost_homes(module, it):
    """The modules of definitions that the contracts of a type may need, with their names."""
    term = it.term if it.is_parametric or it.term == term_name(it) else f"{it.term} as {term_name(it)}"
    lists = [made.item.term for made in module.lists if made.item is it]
    return [
        ("Rattle.std.specs.Prelude", "◌≡◌ refl ◌+◌ ◌^◌ ◌<◌ ◌≤◌ ◌++◌ true IfOk length map MatchOption".split()),
        ("Rattle.std.specs.Vec", ["vec_len", "vec_capacity"]),
        ("Rattle.krb_der.specs.Puts", ["Puts"]),
        ("Rattle.krb_msg.specs.Shape", ["has_octet_tags"]),
        ("Rattle.krb_msg.specs.Term", ["Application as ApplicationTerm", "der", "Fits", "tag_of"]),
        ("Rattle.krb_msg.specs.Notes", ["has", "notes_by"]),
        ("Rattle.krb_msg.specs.Grammar", [term] + [name for name in lists if name != it.term]),
        ("Rattle.krb_msg.specs.Types", [f"{it.term}_{word}" for word in "value of view_value of_view".split()] + [f"IsValid{it.rust}"]),
        ("Rattle.krb_msg.specs.Viewed", ["AreContents", "AreNoContents", "IfElse", "IsNotWhole", "IsViewOf", "items_of"]),
    ]


def about(it):
    """What the type's description says of the numbers that are not kept."""
    if not it.fixed:
        return it.about
    if it.is_parametric:
        end = "Their version and their message type are fixed, and so not kept; so"
        return f"{it.about} {end} {an(it.name)} has octets only as one or the other."
    which = "version is" if len(it.fixed) == 1 else "version and its message type are"
    return f"{it.about} Its {which} fixed, and so not kept."


def rows(fields, type_of, sign="pub "):
    return "".join(f"{doc(field.about, 4)}\n    {sign}{field.rust}: {option(field, type_of(field.type))},\n" for field in fields)


def structs(it, derives="PartialEq, Eq, Debug, Drop"):
    return fill("struct.rt", Type=it.rust, derives=derives, about=doc(about(it)), a_NAME=an(it.name), fields=rows(it.kept, owned), views=rows(it.kept, viewed))


def slot(field):
    return "Optional" if field.optional else "Required"


def halves(it):
    """The fields of a type, and those that are cut from them."""
    if it.cut is None:
        return it.fields, []
    first = it.kept[it.cut]
    return it.fields[: it.fields.index(first)], it.kept[it.cut :]


def layout_type(fields, end, held=owned):
    """The description of fields, each by what holds its value."""

    def wrap(field, rest):
        if field.is_fixed:
            return f"Fixed<{field.index}, {field.type.values[0] if len(field.type.values) == 1 else 'N'}, {rest}>"
        return f"{slot(field)}<{field.index}, {held(field.type)}, {rest}>"

    return nested(fields, end, wrap)


def layouts(it, held=owned, whose="", lifetime=""):
    """The descriptions of the fields of a type, with `lifetime` if values are borrowed."""
    before, after = halves(it)
    given = f"<{lifetime}>" if lifetime else ""
    inside = f"Sequence<{layout_type(before, f'Cut<Rest{given}>' if after else 'End', held)}>"
    if it.is_parametric:
        parameters = f"{lifetime}, const N: u8".removeprefix(", ")
        return f"/// Its fields{whose}, in a message whose number and whose message type are `N`.\ntype Layout<{parameters}> = Application<N, {inside}>;\n"
    text = f"/// Its fields{whose}.\ntype Layout{given} = {inside if it.application is None else f'Application<{it.application}, {inside}>'};\n"
    if after:
        text += f"\n/// The second half of its fields.\ntype Rest{given} = {layout_type(after, 'End', held)};\n"
    return text


def cut_views(it):
    after = halves(it)[1]
    names = [field.rust for field in after]
    return fill(
        "cut_view.rt",
        views=rows(after, viewed, ""),
        seen=pairs(names, "()"),
        made=f"RestView {{ {', '.join(names)} }}",
        those=pairs([f"seen.{name}" for name in names], "tt"),
    )


def is_call(it):
    """Whether the view of a type is a call."""
    return it.note("not inlined") is not None


def view_impl(it, layout, seen, made):
    """How a view is made of the views of the fields."""
    tag = 0x30 if it.application is None else 0x60 + it.application
    found = fill("found_by_call.rt" if is_call(it) else "found.rt", layout=layout, seen=seen)
    return fill("view.rt", tag=f"{tag:02X}", found=found, made=made, type=it.term, Type=it.rust, term=term_name(it))


def word_by_word(field, seen):
    """A field of a view that a call returned, such that the compiler may keep each word of it in a register."""
    if field.optional or viewed(field.type) in ("i64", "FlagsView<'a>"):
        return seen
    if field.is_list:
        return f"ItemsView {{ octets: &*{seen}.octets }}"
    if isinstance(field.type, Sequence):
        return view_of(field.type, [word_by_word(part, f"{seen}.{part.rust}") for part in field.type.kept])
    return f"&*{seen}"


def view_of(it, values):
    """The view that has these fields."""
    fields = [name if name == value else f"{name}: {value}" for name, value in zip((field.rust for field in it.kept), values)]
    return f"{it.rust}View {{ {', '.join(fields)} }}"


def in_one_step(it):
    """The views of the fields, and the view that has them, of a call word by word."""
    names = [field.rust for field in it.kept]
    first = names[: it.cut]
    values = first + [f"rest.{name}" for name in names[len(first) :]]
    made = view_of(it, [word_by_word(field, value) for field, value in zip(it.kept, values)] if is_call(it) else values)
    return pairs(first, "rest" if it.cut else "()"), made


def view_impls(it):
    """The impls of the view: how it is made and noted."""
    impls = [view_impl(it, "Layout", *in_one_step(it))]
    impls += [fill("noted_view.rt", type=it.term, Type=it.rust, noted=noted(it, noted_in_view, "seen"))] if has_notes(it) else []
    return "\n".join(impls)


def noting(field, notes):
    """The call that returns the notes on a field that may be left out."""
    return f"optional_list_{notes}" if field.is_list else f"optional_{notes}" if has_notes(field.part) else f"no_optional_{notes}"


def noted_in_view(field, value):
    """The notes on a field of a view."""
    return f"{noting(field, 'view_notes')}::<{owned(field.type)}>(&{value})" if field.optional else f"<{owned(field.type)} as NotedView<'_>>::notes(&{value})"


def may_have_notes(field):
    """Whether there may be notes on a field, of which it is no matter whether it is there."""
    return field.optional or field.is_list or has_notes(field.part)


def noted(it, call, value):
    """The notes on a value or on a view, field by field."""
    return f"any_of!({', '.join(call(field, f'{value}.{field.rust}') for field in it.kept if may_have_notes(field))})"


def struct_file(module, it):
    parts = [structs(it), layouts(it)]
    if it.is_parametric:
        seen, made = in_one_step(it)
        parts.append(fill("two.rt", type=it.term, Type=it.rust, seen=seen, made=made))
        parts.append(fill("two_view.rt", type=it.term, Type=it.rust, noted=noted(it, noted_in_view, "self")))
    parts += [cut_views(it)] if it.cut else []
    parts += [] if it.is_parametric else [view_impls(it)]
    body = "\n".join(parts)
    # traits are brought in where their methods are called
    code = "NotedView\n" * has_notes(it) + "\n".join(line for line in body.splitlines() if not line.lstrip().startswith("//"))
    return f"//! {it.name}. `asn1/generate` wrote this from `asn1/krb5.asn1`.\n\n{brought(code, ghost_homes(module, it), 'ghost ')}\n{uses(module, it, code)}\n{body}"


def lists_of_items(module):
    """What lists are of."""
    items = {field.part.rust: field.part for it in module.types for field in it.kept if field.is_list}
    items |= {made.item.rust: made.item for made in module.lists}
    return sorted(items.values(), key=lambda item: item.rust)


def uses_of_items(items, home=None):
    """The lines that bring these in, and lists of them: from another crate, if `home` is one."""
    types = [item for item in items if isinstance(item, Sequence)]
    crate = f"use {home}::{{{', '.join(item.rust for item in types)}, Notes}};\n" if home else "".join(f"use crate::{item.term}::{item.rust};\n" for item in types)
    basics = ", ".join([item.rust for item in items if isinstance(item, Basic)] + ["Many"])
    return f"{crate}use krb_der::{{{basics}}};\n"


def lists_file(module):
    """krb_msg/src/view/lists.rt: the lists of the grammar, each with what its items are."""
    items = lists_of_items(module)
    views = "\n".join(fill("list_view.rt", List=f"Many<{owned(item)}>", Type=owned(item), term=item.term) for item in items)
    return fill("lists.rt", terms=", ".join(item.term for item in items), uses=uses_of_items(items), views=views)


def has_notes(type):
    """Whether a note may hold of a value of a type, of which it is no matter whether it is an empty list."""
    if isinstance(type, Sequence):
        return any(has_notes(field.part) or field.optional and field.is_list for field in type.kept)
    return type.rust in ("KString", "Flags", "Wide32")


def noted_lists_file(module):
    """krb_msg/src/notes/lists.rt: the notes on the lists of the grammar that are viewed."""
    items = lists_of_items(module)
    noted = []
    for item in items:
        no = "" if has_notes(item) else "no_"
        in_view = "notes_of_strings_in_view(seen)" if item.rust == "KString" else f"{no}notes_of_items_in_view::<{owned(item)}>({'seen' if no else '*seen'})"
        noted.append(fill("list_view_notes.rt", Type=owned(item), in_view=in_view))
        noted += [fill("optional_list_view_notes.rt", Type=owned(item))] if item.rust in optional_items(module) else []
    return fill("noted_view_lists.rt", uses=uses_of_items(items), noted="\n".join(noted))


def optional_items(module):
    """What lists are of that may be left out."""
    return {field.part.rust for it in module.types for field in it.kept if field.is_list and field.optional}
