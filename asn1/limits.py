"""What a module has that nothing, or not all, would be written of: it is refused, at its line."""

from model import MOST_IN_ONE_STEP
from module import Sequence


def refuse_of_messages(module):
    """Refuses the first type of krb5.asn1 of which not all would be written."""
    refuse_first(module, faults_of_lists(module) | {made.name: "is a choice of one type, which messages and their parts have not" for made in module.tagged})


def refuse_of_padata(module):
    """Refuses the first type of padata.asn1 of which no view is made, or not all would be written."""
    faults = {it.name: fault for it in module.types if (fault := fault_of_view(it))}
    choices = {made.name: "is a choice, and that of one here is a SEQUENCE of this module" for made in module.tagged if not is_own(module, made.item)}
    refuse_first(module, faults | faults_of_lists(module) | choices)


def refuse_first(module, faults):
    """Refuses that type of these which comes first in the module."""
    for name in sorted(faults, key=module.lines.get):
        module.refuse(name, faults[name])


def faults_of_lists(module):
    return {made.name: "is a list, and the items of one here are a SEQUENCE of this module" for made in module.lists if not is_own(module, made.item)}


def fault_of_view(it):
    """Why no view of a type is made in one step, if none is."""
    if it.application is not None:
        return "is in a tag of its own, which no type here is"
    if it.fixed:
        return f"has a number that is fixed, {it.fixed[0].name}, which no type here has"
    if len(it.kept) > MOST_IN_ONE_STEP:
        return f"has {len(it.kept)} fields, and a type here has at most {MOST_IN_ONE_STEP}"
    return None


def is_own(module, item):
    """Whether an item is a SEQUENCE of a module."""
    return isinstance(item, Sequence) and item.home == module.home
