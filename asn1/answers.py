"""krb_msg/proofs and krb_codec/proofs: the answers of functions that list a type or its fields, and of those by cases of a kind."""

from codec import copied, in_order_of_copying, noted_of_value, owns
from kinds import file, messages_of
from model import back, fixed_value, is_plain, mapped
from module import Basic, Sequence
from structs import is_call, may_have_notes, noted_in_view
from tables import count_of_rows
from text import BY, brought, by, fill, pairs, path, record
from values import known, parts_in, seen_value


def valid(it, those, fits):
    """What is known of a view, of what is known of its fields in pairs; or nothing, if nothing is known of them."""
    facts = {}
    for at, field in enumerate(it.kept):
        if known(field, ""):
            facts[field.rust] = path(those, at)
            if field.rust in fits and field.type.form == "micros":
                facts[field.rust] = f"subst (λ number. pos 0 ≤ℤ number) {fits[field.rust]} {facts[field.rust]}"
    if len(facts) > 2:
        return f"record {{ {'; '.join(f'{name} = {fact}' for name, fact in facts.items())} }}"
    return ", ".join(facts.values()) or "tt"


def again(field, seen, lets):
    """A field of a view that a call returned, made again: a number in it is kept as what its 64 bits say."""
    if isinstance(field.type, Sequence) and not field.optional:
        return f"record {{ {'; '.join(f'{part.rust} = ' + again(part, f'{seen}.{part.rust}', lets) for part in field.type.kept)} }}"
    if field.is_list or field.optional or field.type.form not in ("number", "micros"):
        return seen
    lets.append(f"    let fits_{len(lets)} : FitsSigned w64 {seen} = search rules in\n")
    return f"(sym (to_z-of_z w64 {seen} fits_{len(lets) - 1}) i)"


def is_number(field):
    """Whether a field is always there and a number."""
    return not field.optional and not field.is_list and isinstance(field.type, Basic) and field.type.form in ("number", "micros")


def fields_seen(it):
    """What is known of the views of the fields, and where each of them is."""
    if is_call(it):
        return "c.in-Some.ensures", lambda at: f"c.in-Some.{it.kept[at].rust}"
    call = "view_whole_sequence" if it.is_parametric else "view_into"
    seen, first = f"c.{call}.new.seen", len(it.kept[: it.cut])
    return f"c.if-not-{call}.ensures", lambda at: path(seen, at) if at < first else f"{seen}{'.1' * first}.{it.kept[at].rust}"


def view_answer(it):
    """That a view is made of those of the fields. A number is kept as what its 64 bits say, and one that may be left out is mapped to itself."""
    known_of_fields, seen_in = fields_seen(it)
    form, values, fits, lets, numbers = f"{known_of_fields}.0", [], {}, "", []
    for field in it.fields:
        seen = None if field.is_fixed else seen_in(it.kept.index(field))
        value = fixed_value(field) if field.is_fixed else seen_value(field, seen)
        if value == seen and not field.optional:
            lets += f"    let fits_{field.rust} : FitsSigned w64 {seen} = search rules in\n"
            fits[field.rust] = f"(sym (to_z-of_z w64 {seen} fits_{field.rust}))"
            value = f"{fits[field.rust]} i"
        if is_call(it) and not field.is_fixed and isinstance(field.type, Sequence):
            value = f"{field.type.term}_view_value ({again(field, seen, numbers)})"
        values.append(f"option_map_id {seen} i" if value == seen else value)
    lets += "".join(numbers)
    if any(value.endswith(" i") for value in values) or numbers:
        form = f"subst (AreContents {it.term} c.args.contents.now) (λ i. {pairs(values, 'tt')}) {form}"
    homes = [
        ("Rattle.std.proofs.Common", "pos subst sym w64 FitsSigned rules".split()),
        ("Rattle.std.specs.Prelude", ["◌≤ℤ◌"]),
        ("Rattle.std.specs.Option", ["option_map"]),
        ("Rattle.std.proofs.lemmas.Int", ["to_z-of_z"]),
        ("Rattle.std.proofs.lemmas.Iterator.Adapters", ["option_map_id"]),
        ("Rattle.krb_msg.specs.Grammar", sorted(field.part.term for field in it.kept if field.is_list)),
        (f"Rattle.{it.crate}.specs.Grammar", [it.term]),
        ("Rattle.krb_msg.specs.Viewed", ["AreContents", "items_of"]),
        ("Rattle.krb_msg.specs.Types", [f"{part.term}_view_value" for part in parts_in(it) if isinstance(part, Sequence)]),
        ("Rattle.krb_msg.specs.Basic", ["flags_of_view"]),
    ]
    function, given = (f"{it.rust}.view_into", "g c") if it.is_parametric else (f"{it.rust}ViewImpl.view_into", "c")
    body = f"returns {given} ={chr(10) + lets + '   ' if lets else ''} ({form}, ({valid(it, f'{known_of_fields}.1', fits)}))\n"
    return f"{brought(body, homes)}use Rattle.{it.crate}.proofs.{it.term}.{function}.Goals as goal\n\npub returns : goal.returns\n{body}"


def copied_part(field, call):
    """That a field is copied, by the call that copies it."""
    part, seen = field.part, f"c.args.seen.now.{field.rust}"
    if field.is_list and not mapped(field.type):
        return f"({call}.ensures (λ item. item) (λ seen. refl) ∙ map-id _) i"
    if field.is_list:
        return f"{call}.ensures {back(part)} (λ seen. refl) i"
    if field.optional and isinstance(part, Sequence):
        return f"({call}.ensures ∙ option_seen {back(part)} {part.term}_view_value {seen}) i"
    return f"{call}.ensures i"


def copy_answer(it):
    """That the fields of a type with lists are copied, each by a call."""
    calls, rows = {}, []
    for field in in_order_of_copying(it):
        name = copied(field).partition("(")[0].rpartition("::")[2]
        calls[name] = calls.get(name, 0) + 1
        call = ("c.in_ok-" if owns(field) else "c.") + name + (f"-{calls[name]}" if calls[name] > 1 else "")
        rows.append(f"{field.rust} = {copied_part(field, call)}")
    function, given = ("copy", "g c") if it.is_parametric else (f"{it.rust}FromView.from_view", "c")
    body = "\n".join(rows)
    homes = [
        ("Rattle.std.proofs.Common", ["refl", "◌∙◌"]),
        ("Rattle.std.proofs.lemmas.List", ["map-id"]),
        ("Rattle.krb_msg.specs.Types", [f"{part.term}_{word}" for part in parts_in(it) if isinstance(part, Sequence) for word in ("of", "view_value")]),
        ("Rattle.krb_codec.proofs.Copies", ["option_seen"]),
    ]
    text = f"{brought(body, homes)}use Rattle.krb_codec.proofs.{it.term}.{function}.Goals as goal\n\npub returns : goal.returns\n"
    return text + record(f"returns {given} = λ i.", rows).replace(". = record", ". record") + "\n"


def noted_part(field, seen, noted):
    """That the notes on a field are these, by the call that returns them."""
    if field.is_list and not field.optional and not seen and not mapped(field.type):
        return f"{noted} ∙ same_list {field.part.term} c.args.self.now.{field.rust}"
    is_same = field.type.form in ("number", "micros") if seen and isinstance(field.type, Basic) else not seen and not mapped(field.type)
    if field.optional and is_same:
        return f"{noted} ∙ same_option {field.type.term} c.args.{'seen' if seen else 'self'}.now.{field.rust}"
    return noted


def notes_answer(it, crate, impl, call, value):
    """That the notes are those of the fields, each by a call."""
    fields = [field for field in it.kept if may_have_notes(field)]
    calls = [call(field, f"{value}.").partition("(")[0].partition("::")[0] for field in fields]
    names = ["or"] * len(calls) + ["notes" if name.startswith(("<", value)) else name for name in calls]
    numbered = [f"c.{name}-{names[:at].count(name) + 1}.ensures".replace("-1.", ".") for at, name in enumerate(names)]
    ors, none = numbered[: len(calls)], "c.none.ensures"
    if crate != "krb_msg":
        # what a macro of another crate calls has its name before, and the last call is the value of the macro
        ors = [name.replace("c.or", "c.any_of-or") for name in ors[:-1]] + ["c.any_of.ensures"]
        none = "c.any_of-none.ensures"
    notes = [noted_part(field, value == "seen", noted) for field, noted in zip(fields, numbered[len(calls) :])]
    body = f"returns c = rw ({', '.join([*reversed(ors), none, *notes])}) refl\n"
    homes = [
        ("Rattle.std.proofs.Common", ["refl", "◌∙◌"]),
        ("Rattle.krb_msg.specs.Grammar", sorted({field.part.term for field in fields if isinstance(field.part, Basic)})),
        ("Rattle.krb_msg.proofs.Noted", ["same_list", "same_option"]),
    ]
    return f"{brought(body, homes)}use Rattle.{crate}.proofs.{it.term}.{it.rust}{impl}.notes.Goals as goal\n\npub returns : goal.returns\n{body}"


def view_answers(it):
    """The answers of a type in krb_msg, by their paths below its name."""
    made = {}
    if it.is_parametric or not is_plain(it):
        made[f"{it.rust}/view_into" if it.is_parametric else f"{it.rust}ViewImpl/view_into"] = view_answer(it)
    if it.cut:
        made[f"{it.rust}NotedView/notes"] = notes_answer(it, "krb_msg", "NotedView", noted_in_view, "seen")
    return made


def value_answers(it):
    """The answers of a type in krb_codec, by their paths below its name."""
    if it.is_parametric:
        names = {"put": "two_put", "size": "two_size"}
    else:
        names = {f"{it.rust}Item/size": "size", f"{it.rust}Item/put": "put" if it.application is None else "put_tagged"}
    made = {name: fill(f"answers/{template}.antt", type=it.term, Type=it.rust) for name, template in names.items()}
    if it.cut:
        made[f"{it.rust}Noted/notes"] = notes_answer(it, "krb_codec", "Noted", noted_of_value, "self")
    if any(field.is_list for field in it.kept):
        made["copy" if it.is_parametric else f"{it.rust}FromView/from_view"] = copy_answer(it)
    return made


def padata_answers(it):
    """The answer of a type of krb_padata, by its path in the crates: of one with a number and with a field that may be left out."""
    if any(field.optional for field in it.kept) and any(is_number(field) for field in it.kept):
        return {f"{it.crate}/proofs/{it.term}/{it.rust}ViewImpl/view_into/Answers.antt": f"-- {by(it.home.path)}\n{view_answer(it)}"}
    return {}


def rows_answer(module):
    """The rows of the grammar, twenty at a time."""
    twenties = (2 * count_of_rows(module) - 1) // 20
    return fill("answers/rows.antt", proof="twenty (search rows) (" * twenties + "search rows" + ")" * twenties)


# The functions by cases of a kind, with their templates.
OF_KINDS = {
    "krb_msg/proofs/message_view/notes_of_view": "notes_of_view",
    "krb_codec/proofs/message/octets_of": "octets_of",
    "krb_codec/proofs/message/put": "message_put",
    "krb_codec/proofs/message/notes_of": "notes_of",
    "krb_codec/proofs/message/copy_message": "copy_message",
}


def answers(module):
    """All answers, by their paths in the crates."""
    made = {f"krb_msg/proofs/{it.term}/{name}": text for it in module.types for name, text in view_answers(it).items()}
    made |= {f"krb_codec/proofs/{it.term}/{name}": text for it in module.types for name, text in value_answers(it).items()}
    for words in messages_of(module):
        for name in ("view_into", "notes"):
            made[f"krb_msg/proofs/message_kinds/{words['Kind']}KindMessageKind/{name}"] = fill(f"answers/kind_{name}.antt", **words)
    for list_of in module.lists:
        item = list_of.item
        made[f"krb_codec/proofs/{item.term}/Many{item.rust}FromView/from_view"] = fill("answers/copy_list.antt", type=item.term, Type=item.rust)
    made |= {name: file(f"answers/{template}.antt")(module) for name, template in OF_KINDS.items()}
    made["krb_msg/proofs/grammar/rows"] = rows_answer(module)
    return {f"{name}/Answers.antt": f"-- {BY}\n{text}" for name, text in made.items()}
