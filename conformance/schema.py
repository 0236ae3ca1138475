#!/usr/bin/env python3
"""schema.py SCHEMA FILE ..: whether the files keep the schema, by the words of JSON Schema that it uses."""
import json
import re
import sys

TYPES = {"object": dict, "array": list, "string": str, "boolean": bool, "integer": int}


def faults(schema, value, root, at):
    if "$ref" in schema:
        schema = {**root["$defs"][schema["$ref"].split("/")[-1]], **{k: v for k, v in schema.items() if k != "$ref"}}
    kind = schema.get("type")
    if kind and (not isinstance(value, TYPES[kind]) or kind == "integer" and isinstance(value, bool)):
        return [f"{at}: no {kind}"]
    found = []
    if "const" in schema and value != schema["const"] or "enum" in schema and value not in schema["enum"]:
        found.append(f"{at}: {value!r}")
    if "pattern" in schema and not re.search(schema["pattern"], value):
        found.append(f"{at}: not {schema['pattern']}")
    if "minimum" in schema and value < schema["minimum"] or isinstance(value, int) and value >= 2**53:
        found.append(f"{at}: out of range")
    if "oneOf" in schema and sum(not faults(one, value, root, at) for one in schema["oneOf"]) != 1:
        found.append(f"{at}: not one of those allowed")
    if isinstance(value, dict):
        found += [f"{at}: no {key}" for key in schema.get("required", []) if key not in value]
        for key, member in value.items():
            inner = schema.get("properties", {}).get(key, schema.get("additionalProperties", {}))
            found += [f"{at}: {key}"] if inner is False else faults(inner, member, root, f"{at}.{key}")
    if isinstance(value, list):
        if not schema.get("minItems", 0) <= len(value) <= schema.get("maxItems", len(value)):
            found.append(f"{at}: {len(value)} items")
        items = schema.get("prefixItems", [])
        for i, item in enumerate(value):
            found += faults(items[i] if i < len(items) else schema.get("items", {}), item, root, f"{at}[{i}]")
    return found


def main(schema, *names):
    with open(schema, encoding="utf-8") as opened:
        schema = json.load(opened)
    found = []
    for name in names:
        with open(name, encoding="utf-8") as opened:
            file = json.load(opened)
        found += faults(schema, file, schema, name)
        used = {flag for test in file["tests"] for flag in test["flags"]}
        found += [f"{name}: flag {flag} is not explained" for flag in sorted(used ^ set(file["flags"]))]
    for what in found[:20]:
        print(what)
    return 1 if found or not names else 0


if __name__ == "__main__":
    sys.exit(main(*sys.argv[1:]))
