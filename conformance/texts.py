#!/usr/bin/env python3
"""texts.py ASSEMBLE FILE ..: whether the program that reads step lists as text makes of each test's text its list, or its plan."""
import json
import subprocess
import sys


def main(program, *names):
    passed, failed = 0, 0
    for name in names:
        with open(name, encoding="utf-8") as opened:
            tests = json.load(opened)["tests"]
        for test in (test for test in tests if "text" in test):
            text = "".join(line + "\n" for line in test["text"])
            made = subprocess.run([program], input=text.encode(), capture_output=True).stdout
            same = made == b"".join(bytes.fromhex(word.ljust(16, "0")) for word in test.get("list", test.get("out", "")).split())
            passed, failed = passed + same, failed + (not same)
            if not same:
                print(f"{name} {test['number']}: the text says another list")
    print(f"{passed} passed, {failed} failed")
    return 1 if failed or not passed else 0


if __name__ == "__main__":
    sys.exit(main(*sys.argv[1:]))
