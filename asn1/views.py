"""krb_padata/src: a file for each type, with its struct, its view and the description of its fields, and what is of it."""

from model import owned
from module import Sequence
from structs import BASIC, halves, in_one_step, layout_type, structs, term_name, view_impl
from text import brought, doc, fill

DESCRIBED = "End FlagsView ItemsView Optional Required Sequence Tagged View ViewSequence view_items"


def uses(module, it, body):
    """The lines that bring in what the code of a type needs."""
    parts = {field.part.rust: field.part for field in it.kept if isinstance(field.part, Sequence)}.values()
    names = {part.rust: [part.rust, f"{part.rust}View"] for part in parts}
    homes = [(f"crate::{part.term}", names[part.rust]) for part in parts if part.home == module.home]
    imported = [name for part in parts if part.home != module.home for name in names[part.rust]]
    homes += [("krb_der", BASIC.split()), ("krb_msg", sorted(imported + DESCRIBED.split()))]
    lines = brought(body, homes).replace(".{", "::{").splitlines()
    lines = [line.replace("{", "").replace("}", "") if "," not in line else line for line in lines]
    return "".join(sorted(f"{line};\n" for line in lines))


def ghost_uses(it, body):
    """The lines that bring in what the contracts of a type need."""
    homes = [
        ("Rattle.std.specs.Prelude", "◌≡◌ ◌^◌ ◌<◌ true length".split()),
        ("Rattle.krb_msg.specs.Term", ["tag_of"]),
        ("Rattle.krb_msg.specs.Basic", ["sequence_of"]),
        ("Rattle.krb_msg.specs.Viewed", ["AreContents", "AreNoContents", "AreViewed", "IfElse", "items_of"]),
        (f"Rattle.{it.crate}.specs.Grammar", [it.term]),
        (f"Rattle.{it.crate}.specs.Types", [f"{it.term}_view_value", f"IsValid{it.rust}"]),
    ]
    return brought(body, homes, "ghost ")


def layout(it):
    text = layout_type(halves(it)[0], "End", owned)
    return f"/// Its fields.\ntype Layout = Sequence<{text}>;\n"


def of_type(module, it):
    """The lists of a type, and the choice of it."""
    for made in module.lists:
        if made.item is it:
            view = fill("list_view.rt", List=made.rust, Type=it.rust, term=it.term)
            yield f"{doc(made.about)} Its view is its items, one after another.\npub struct {made.rust};\n\n{view}"
    for made in module.tagged:
        if made.item is it:
            yield f"{doc(made.about)}\npub type {made.rust} = Tagged<{made.index}, {it.rust}>;\n"


def view_file(module, it):
    parts = [structs(it, "Drop"), layout(it), view_impl(it, "Layout", *in_one_step(it)), *of_type(module, it)]
    body = "\n".join(parts)
    code = "\n".join(line for line in body.splitlines() if not line.lstrip().startswith("//"))
    return f"//! {it.name}. `asn1/generate` wrote this from `{module.home.path}`.\n\n{ghost_uses(it, code)}\n{uses(module, it, code)}\n{body}"
