"""Checks objects against krbls.schema.json: krbls --json FILE.. | tools/check_schema.py

Each object has to keep to just one of its definitions. What is at fault is said, and then how many objects of each definition
there were. It needs python3-jsonschema.
"""

import collections
import json
import pathlib
import sys

import jsonschema

SCHEMA = json.loads((pathlib.Path(__file__).resolve().parents[1] / "src/krbls/krbls.schema.json").read_text())
NAMES = [one["$ref"].rsplit("/", 1)[1] for one in SCHEMA["oneOf"]]


def validators():
    """Those of each kind, so that an object is compared with these alone: the whole schema takes ten times as long."""
    made = collections.defaultdict(list)
    for name in NAMES:
        kind = SCHEMA["$defs"][name]["properties"]["kind"]["const"]
        one = {"$schema": SCHEMA["$schema"], "$ref": f"#/$defs/{name}", "$defs": SCHEMA["$defs"]}
        made[kind].append((name, jsonschema.Draft202012Validator(one)))
    return made


VALIDATORS = validators()


def names_of(record):
    """The definitions that an object keeps to; just one should be."""
    return [name for name, validator in VALIDATORS[record["kind"]] if validator.is_valid(record)]


def main():
    jsonschema.Draft202012Validator.check_schema(SCHEMA)
    seen, faults = collections.Counter(), 0
    for line in sys.stdin:
        names = names_of(json.loads(line))
        seen.update(names)
        if len(names) != 1:
            faults += 1
            print(f"{names}: {line[:300].rstrip()}")
    for name in NAMES:
        print(f"{seen[name]:8} {name}")
    print(f"{sum(seen.values())} objects, {faults} at fault")
    return 1 if faults else 0


if __name__ == "__main__":
    sys.exit(main())
