#!/usr/bin/python3
"""tool/schema.py FORM: whether every line of standard input is an object of this form of output.schema.json."""
import json
import sys
from pathlib import Path

import jsonschema

SCHEMA = json.loads(Path(__file__).with_name("output.schema.json").read_text(encoding="utf-8"))


def main(form):
    text = sys.stdin.read()
    objects = [json.loads(line) for line in text.splitlines()] if form == "played" else [json.loads(text)]
    for one in objects:
        jsonschema.validate(one, {**SCHEMA, "$ref": f"#/definitions/{form}"})
    return 0 if objects else 1


sys.exit(main(sys.argv[1]))
