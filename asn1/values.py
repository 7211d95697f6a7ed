"""specs and proofs: the grammar, values of types and of views as those of terms, and that they come back."""

from model import back, fixed_value, mapped, moved, term_of, there
from module import BASICS, Basic, Number, Sequence
from text import BY, brought, by, equation, pairs, path, record

PRELUDE = "⊤ ℕ pos ◌≡◌ ◌≤ℤ◌ ◌^◌ ◌<◌ List [] ◌∷◌ length map Option refl".split()


def field_term(type):
    if isinstance(type, Number):
        return "version" if type.values == (5,) else f"(exactly {type.values[0] if len(type.values) == 1 else 'message_type'})"
    return term_of(type)


def grammar_type(it):
    lines = [f'{"optional" if field.optional else "field"} {field.index} "{field.name}" {field_term(field.type)}' for field in it.fields]
    inside = "(\n    " + "\n    ⨟ ".join(lines + ["End"]) + ")"
    if it.is_parametric:
        text = f"abbrev pub {it.term} : ℕ → Term\n{it.term} message_type = Sequence {inside}\n"
        for message in it.messages:
            text += f"\nabbrev pub {message.term} : Term\n{message.term} = Application {message.number} ({it.term} {message.number})\n"
        return text
    number, close = (f"Application {it.application} (", ")") if it.application is not None else ("", "")
    return f"abbrev pub {it.term} : Term\n{it.term} = {number}Sequence {inside}{close}\n"


GRAMMAR = f"""-- RFC 4120, appendix A, as terms. A line of a SEQUENCE is a line of the appendix: the index, the field's name, its type. {BY}
-- The terms are those of the lenient profile: a string has any octets, flags are of any number, a list may be empty.
use Rattle.std.specs.Prelude.{{ℕ, false, List, [], ◌∷◌, map}}
use Rattle.krb_der.specs.declared.profile.Profile.{{Profile}}
use Rattle.krb_msg.specs.Profiles.{{profile_term}}
use Rattle.krb_msg.specs.Term.{{Term, Sequence, Application, End}}
use Rattle.krb_msg.specs.Basic.{{◌⨟◌, field, optional}}
pub use Rattle.krb_msg.specs.Basic.{{exactly, version, int32, wide32, microseconds, kerberos_string, octet_string, kerberos_time, kerberos_flags, sequence_of}}
"""


def type_terms(module):
    """The terms of the types of a module."""
    for it in module.types:
        heading = f"-- ---- {module.sections[it.name]}\n" if it.name in module.sections else ""
        yield heading + grammar_type(it)


def list_term(made):
    return f"abbrev pub {made.term} : Term\n{made.term} = {term_of(made)[1:-1]}\n"


def tagged_term(made):
    return f"abbrev pub {made.term} : Term\n{made.term} = Tagged {made.index} {term_of(made.item)}\n"


def padata_grammar(module):
    """krb_padata/specs/Grammar."""
    parts = []
    for it, text in zip(module.types, type_terms(module)):
        parts += [text] + [list_term(made) for made in module.lists if made.item is it]
        parts += [tagged_term(made) for made in module.tagged if made.item is it]
    body = "\n".join(parts)
    basics = [basic.term for basic in BASICS.values()]
    homes = [
        ("Rattle.krb_msg.specs.Term", ["Term", "Sequence", "Tagged", "End"]),
        ("Rattle.krb_msg.specs.Basic", ["◌⨟◌", "field", "optional", "sequence_of"] + basics),
        ("Rattle.krb_msg.specs.Grammar", imported_terms(module)),
    ]
    text = f"-- Pre-authentication data as terms. A line of a SEQUENCE is a line of its document: the index, the field's name, its type. {by(module.home.path)}\n"
    return f"{text}{brought(body, homes)}\n{body}"


def imported_terms(module):
    """The terms of the types of another module that are parts of these."""
    parts = [field.part for it in module.types for field in it.kept]
    return list(dict.fromkeys(part.term for part in parts if isinstance(part, Sequence) and part.home != module.home))


def grammar(module):
    parts = [GRAMMAR, *type_terms(module), *map(list_term, module.lists)]
    messages = " ∷ ".join(message.term for message in module.messages)
    parts.append(f"""-- The messages of a profile, by their tags; any other first octet is refused.
abbrev pub messages : Profile → List Term
messages profile =
    map (profile_term profile false)
    ({messages} ∷ [])
""")
    return "\n".join(parts)


def value_type(it):
    return f"{it.rust}Value" if it.is_parametric else f"Value {it.term}"


def type_values(it):
    number, argument = ("ℕ → ", " message_type") if it.is_parametric else ("", "")
    values = [fixed_value(field) if field.is_fixed else moved(field, there, f"{it.letter}.{field.rust}") for field in it.fields]
    if len(it.kept) > 5:
        names = [field.rust for field in it.fields]
        values_of, head = dict(zip(names, names)), f"{it.term}_of {pairs(names, 'none')}"
    else:
        values_of, head = {field.rust: path("v", at) for at, field in enumerate(it.fields)}, f"{it.term}_of v"
    rows = [f"{field.rust} = {moved(field, back, values_of[field.rust])}" for field in it.kept]
    both = ""
    if it.is_parametric:
        first, second = it.messages
        both = f"""-- the values of {first.name} and of {second.name}, which differ in their message type alone
abbrev pub {it.rust}Value : Type 0
{it.rust}Value = Value {first.term}

"""
    return f"""{both}abbrev pub {it.term}_value : {number}{it.rust} → {value_type(it)}
{equation(f"{it.term}_value{argument} {it.letter}", values)}

abbrev pub {it.term}_of : {value_type(it)} → {it.rust}
{record(head, rows)}
"""


def seen_value(field, value):
    """A field of a view as a value of its term."""
    if field.is_list:
        name, function = "items", f"items_of {term_of(field.part)} {{}}.octets.now"
    elif isinstance(field.type, Sequence):
        name, function = "", f"{field.type.term}_view_value"
    elif field.type.form in ("number", "micros"):
        return value
    elif field.type.form == "flags":
        name, function = "", "flags_of_view"
    else:
        name, function = ("time" if field.type.form == "time" else "octets"), "{}.now"
    if not name:
        return f"option_map {function} {value}" if field.optional else f"{function} {value}"
    return f"option_map (λ {name}. {function.format(name)}) {value}" if field.optional else function.format(value)


def known(field, value):
    """What is known of a field of a view, if anything is."""
    if field.is_list:
        name, fact = "items", f"AreViewed {term_of(field.part)} {{}}.octets.now"
    elif isinstance(field.type, Sequence):
        return f"IfPresent IsValid{field.type.rust} {value}" if field.optional else f"IsValid{field.type.rust} {value}"
    elif field.type.form in ("time", "micros", "octets"):
        facts = {
            "time": ("time", "IsTimeFrom 14 {}.now"),
            "micros": ("number", "pos 0 ≤ℤ {}"),
            "octets": ("octets", "length {}.now < 2 ^ 31"),
        }
        name, fact = facts[field.type.form]
    else:
        return None
    return f"IfPresent (λ {name}. {fact.format(name)}) {value}" if field.optional else fact.format(value)


def facts_of(it, root):
    """What is known of each field of a view of the type, by the field's name: where it is in a fact of the view."""
    names = [field.rust for field in it.kept if known(field, "")]
    if len(names) > 2:
        return {name: f"{root}.{name}" for name in names}
    return {name: f"{root}.{at}" if len(names) > 1 else root for at, name in enumerate(names)}


def view_values(it):
    number, argument = ("ℕ → ", " message_type") if it.is_parametric else ("", "")
    of_view = it.messages[0].argument if it.is_parametric else ""
    letter, view = it.letter, f"{it.rust}View"
    values = [fixed_value(field) if field.is_fixed else seen_value(field, f"{letter}.{field.rust}") for field in it.fields]
    facts = {field.rust: fact for field in it.kept if (fact := known(field, f"{letter}.{field.rust}"))}
    if len(facts) > 2:
        lists = f"pub record IsValid{it.rust} ({letter} : {view}) : Type 0 where\n" + "".join(f"  pub {name} : {fact}\n" for name, fact in facts.items())
    else:
        lists = f"abbrev pub IsValid{it.rust} : {view} → Type 0\nIsValid{it.rust} {letter} = {' × '.join(facts.values()) or '⊤'}\n"
    return f"""-- ---- a view of it: as a value of its term, as a value of the type, and what is known of it
abbrev pub {it.term}_view_value : {number}{view} → {value_type(it)}
{equation(f"{it.term}_view_value{argument} {letter}", values)}

abbrev pub {it.term}_of_view : {view} → {it.rust}
{it.term}_of_view {letter} = {it.term}_of ({it.term}_view_value{of_view} {letter})

{lists}"""


def parts_in(it):
    """The types of the fields, each once."""
    return list({field.part.rust: field.part for field in it.kept}.values())


def listed_terms(it):
    """The terms of the lists in a type."""
    return list(dict.fromkeys(term_of(field.part) for field in it.kept if field.is_list))


def values_file(it):
    """specs/Types: a type."""
    body = type_values(it) + "\n" + view_values(it)
    own = it.messages[0].term if it.is_parametric else it.term
    terms = ", ".join([own] + listed_terms(it))
    homes = [
        ("Rattle.std.specs.Prelude", PRELUDE),
        ("Rattle.std.specs.Option", ["option_map"]),
        ("Rattle.krb_msg.specs.Term", ["Value", "IfPresent", "IsTimeFrom"]),
        ("Rattle.krb_msg.specs.Basic", ["micros_of", "flags_of_view"]),
        ("Rattle.krb_msg.specs.Viewed", ["AreViewed", "items_of"]),
    ]
    text = f"-- {it.name} ({it.source}): values of the type and of views of it, as values of its term, and back. {by(it.home.path)}\n"
    text += brought(body, homes) + f"use Rattle.{it.crate}.specs.Grammar.{{{terms}}}\n"
    for name in (it.rust, f"{it.rust}View"):
        text += f"use Rattle.{it.crate}.specs.declared.{it.term}.{name}.{{{name}}}\n"
    for part in parts_in(it):
        if isinstance(part, Sequence):
            words = [f"{part.term}_value", f"{part.term}_of", f"{part.term}_view_value", f"IsValid{part.rust}"]
            text += brought(body, [(f"Rattle.{part.crate}.specs.Types.{part.rust}", words)])
    return f"{text}\n{body}"


def defined(it):
    """The definitions of a type."""
    names = [f"{it.rust}Value"] * it.is_parametric + [f"{it.term}_{word}" for word in ("value", "of", "view_value", "of_view")]
    return names + [f"IsValid{it.rust}"]


def index_of_types(module):
    """specs/Types."""
    text = f"-- The types of the grammar, a file each: values of a type as those of its term, and back; views of it. {by(module.home.path)}\n"
    text += "".join(f"pub mod {it.rust}\n" for it in module.types)
    return text + "".join(f"pub use {it.rust}.{{{', '.join(defined(it))}}}\n" for it in module.types)


def back_lemma(it):
    """A value of a type comes back from that of its term."""
    rows = []
    for field in it.kept:
        value, part = f"{it.letter}.{field.rust}", field.part
        lemma = f"{part.term}-back" if isinstance(part, Sequence) else "(λ number. refl)"
        ways = f"{there(part)} {back(part)} {lemma}" if mapped(field.type) else ""
        if ways and (field.optional or field.is_list):
            law = {(True, False): "option-back", (False, True): "map-back", (True, True): "list-back"}[field.optional, field.is_list]
            value = f"{law} {ways} {value} i"
        elif isinstance(part, Sequence):
            value = f"{lemma} {value} i"
        rows.append(f"{field.rust} = {value}")
    n, number = ("(n : ℕ) ", " n") if it.is_parametric else ("", "")
    head = f"pub {it.term}-back : {n}({it.letter} : {it.rust}) → {it.term}_of ({it.term}_value{number} {it.letter}) ≡ {it.letter}\n"
    return head + record(f"{it.term}-back{number} {it.letter} = λ i.", rows).replace(". = record", ". record") + "\n"


def round_trips(module):
    """specs/inner/RoundTrips."""
    body = "\n".join(map(back_lemma, module.types))
    text = f"-- The values of each type come back from those of its term: each field does. {BY}\n"
    text += brought(body, [("Rattle.std.specs.Prelude", PRELUDE), ("Rattle.krb_msg.specs.Basic", ["micros_of"])])
    text += brought(body, [("Rattle.krb_msg.specs.Types", [f"{it.term}_{word}" for it in module.types for word in ("value", "of")])])
    text += brought(body, [("Rattle.krb_msg.specs.inner.Backs", ["map-back", "option-back", "list-back"])])
    text += "".join(f"use Rattle.krb_msg.specs.declared.{it.term}.{it.rust}.{{{it.rust}}}\n" for it in module.types)
    return f"{text}\n{body}"


def fitting_part(field, at):
    """A field of a value that fits, on the way from its type and back."""
    value, fits, part = path("v", at), path("f", at), field.part
    if field.is_fixed:
        number = field.type.values[0] if len(field.type.values) == 1 else "n"
        return f"exactly_one {number} {value} {fits}.0 {fits}.1 i"
    if not mapped(field.type):
        return value
    if isinstance(part, Basic):
        return f"option_fits-back (Fits microseconds) pos micros_of (λ z g. micros-back z g.0) {value} {fits} i" if field.optional else f"micros-back {value} {fits}.0 i"
    ways, lemma = f"(Fits {part.term}) {there(part)} {back(part)}", f"{part.term}_value-of"
    if field.is_list and field.optional:
        each = f"(λ vs g. list_fits-back {ways} {lemma} vs g.1)"
        return f"option_fits-back (Fits (sequence_of {part.term})) (map {there(part)}) (map {back(part)}) {each} {value} {fits} i"
    if field.is_list:
        return f"list_fits-back {ways} {lemma} {value} {fits}.1 i"
    return f"option_fits-back {ways} {lemma} {value} {fits} i" if field.optional else f"{lemma} {value} {fits} i"


def seen_part(field, facts, letter):
    """A field of a view, on the way from the type that is copied out of it and back."""
    value, part = f"{letter}.{field.rust}", None if field.is_fixed else field.part
    if field.is_fixed:
        return "pos " + ("n" if len(field.type.values) > 1 else str(field.type.values[0]))
    if not mapped(field.type):
        return seen_value(field, value)
    if isinstance(part, Basic):
        return f"option_seen-back (λ number. pos 0 ≤ℤ number) pos micros_of micros-back {value} {facts[field.rust]} i" if field.optional else f"micros-back {value} {facts[field.rust]} i"
    ways = f"{there(part)} {back(part)}"
    if field.is_list:
        law = "option_items-back" if field.optional else "items-back"
        return f"{law} {part.term} {ways} {part.term}_value-of {value if field.optional else value + '.octets.now'} {facts[field.rust]} i"
    if field.optional:
        return f"option_part-back IsValid{part.rust} {part.term}_view_value {ways} {part.term}_value-seen {value} {facts[field.rust]} i"
    return f"{part.term}_value-seen {value} {facts[field.rust]} i"


def value_lemmas(it):
    """The value of a term is that of the type that it is, if it fits; and so is that of a view, by what is known of it."""
    n, number = ("(n : ℕ) ", " n") if it.is_parametric else ("", "")
    fits = f"Fits ({it.term} n) v" if n else f"Fits {it.term} v"
    of = [fitting_part(field, at) for at, field in enumerate(it.fields)]
    letter, facts = it.letter, facts_of(it, "lists")
    seen = [seen_part(field, facts, letter) for field in it.fields]
    same = f"{it.term}_value{number} ({it.term}_of_view {letter}) ≡ {it.term}_view_value{number} {letter}"
    return f"""pub {it.term}_value-of : {n}(v : {value_type(it)}) → {fits} → {it.term}_value{number} ({it.term}_of v) ≡ v
{equation(f"{it.term}_value-of{number} v f = λ i.", of).replace(". =", ".")}

pub {it.term}_value-seen : {n}({letter} : {it.rust}View) → IsValid{it.rust} {letter} → {same}
{equation(f"{it.term}_value-seen{number} {letter} lists = λ i.", seen).replace(". =", ".")}
"""


def type_laws(module):
    """proofs/TypeValues."""
    body = "\n".join(map(value_lemmas, module.types))
    names = [name for it in module.types for name in defined(it)]
    terms = list(dict.fromkeys([it.term for it in module.types] + [name for it in module.types for name in listed_terms(it)]))
    homes = [
        ("Rattle.std.specs.Prelude", PRELUDE),
        ("Rattle.std.specs.Option", ["option_map"]),
        ("Rattle.krb_msg.specs.Term", ["Value", "Fits"]),
        ("Rattle.krb_msg.specs.Grammar", ["sequence_of", "microseconds"] + terms),
        ("Rattle.krb_msg.specs.Basic", ["micros_of", "flags_of_view"]),
        ("Rattle.krb_msg.specs.Types", names),
        ("Rattle.krb_msg.specs.Viewed", ["items_of"]),
    ]
    laws = "exactly_one micros-back option_fits-back list_fits-back option_seen-back option_part-back items-back option_items-back"
    text = f"-- A value that fits a term is that of the type that it is; and a view has the value of what is copied out of it. {BY}\n"
    text += brought(body, homes + [("Rattle.krb_msg.proofs.ValuesBack", laws.split())])
    for it in module.types:
        text += f"use Rattle.krb_msg.specs.declared.{it.term}.{it.rust}View.{{{it.rust}View}}\n"
    return f"{text}\n{body}"
