#!/usr/bin/env python3
"""counts.py README FILE ..: whether the table of the README says how many tests each file has, and how many they are together."""
import json
import os
import sys

readme, *names = sys.argv[1:]
with open(readme, encoding="utf-8") as opened:
    lines = opened.read().splitlines()
wrong, total = [], 0
for name in sorted(names):
    with open(name, encoding="utf-8") as opened:
        tests = len(json.load(opened)["tests"])
    subject, total = os.path.basename(name)[: -len(".json")], total + tests
    wrong += [f"| `{subject}` | {tests:,} |"] * (sum(line.startswith(f"| `{subject}` | {tests:,} |") for line in lines) != 1)
wrong += [f"| all | {total:,} |"] * (sum(line.startswith(f"| all | {total:,} |") for line in lines) != 1)
for row in wrong:
    print(f"{readme} has no row, or another: {row}")
sys.exit(1 if wrong else 0)
