"""What of JSON Schema docs/trace.schema.json uses, and no more: faults(value) lists where a value is not as it says."""

import json
import pathlib

TOP = pathlib.Path(__file__).resolve().parents[2]
SCHEMA = json.loads((TOP / "docs/trace.schema.json").read_text())
TYPES = {"object": dict, "array": list, "string": str, "boolean": bool, "integer": int, "number": (int, float)}
KNOWN = {"$schema", "$defs", "$ref", "title", "description", "source", "oneOf", "anyOf", "type", "properties", "required",
         "additionalProperties", "items", "prefixItems", "minItems", "maxItems", "enum"}


def faults(value, schema=SCHEMA, at="$"):
    """Each place where the value is not as the schema says, with what is wrong there."""
    unknown = schema.keys() - KNOWN
    if unknown:
        raise ValueError(f"this reads no {unknown} of a schema")
    if "$ref" in schema:
        return faults(value, SCHEMA["$defs"][schema["$ref"].rpartition("/")[2]], at)
    for key, wanted in (("oneOf", 1), ("anyOf", None)):
        if key in schema:
            fit = sum(not faults(value, each, at) for each in schema[key])
            if not fit or (wanted and fit != wanted):
                return [f"{at}: fits {fit} of {key}"] + [fault for each in schema[key] for fault in faults(value, each, at)][:3]
            return []
    if "enum" in schema and value not in schema["enum"]:
        return [f"{at}: {value!r} is none of {schema['enum']}"]
    if "type" in schema and not is_type(value, schema["type"]):
        return [f"{at}: {value!r} is no {schema['type']}"]
    return list(inside(value, schema, at))


def is_type(value, name):
    # a bool is an int in Python
    return isinstance(value, TYPES[name]) and (name == "boolean" or not isinstance(value, bool))


def inside(value, schema, at):
    if isinstance(value, dict):
        yield from (f"{at}: {name} is missing" for name in schema.get("required", []) if name not in value)
        for name, each in value.items():
            if name in schema.get("properties", {}):
                yield from faults(each, schema["properties"][name], f"{at}.{name}")
            elif schema.get("additionalProperties") is False:
                yield f"{at}: {name} is not in the schema"
    if isinstance(value, list):
        if not schema.get("minItems", 0) <= len(value) <= schema.get("maxItems", len(value)):
            yield f"{at}: {len(value)} items"
        for i, each in enumerate(value):
            fixed = schema.get("prefixItems", [])
            item = fixed[i] if i < len(fixed) else schema.get("items", {})
            yield from faults(each, item, f"{at}[{i}]")
