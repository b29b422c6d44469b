#!/usr/bin/env python3
"""Measures patterns: seconds and peak memory of `check` on the largest patterns that are allowed, and on long texts.

Each pattern stands in a table of one route, which one test asks with a header of so many letters:

    python3 bench/patterns.py [PROGRAM]

PROGRAM is the built program; without it, the one that `./route_check` builds.
"""
import json
import os
import sys
import tempfile

from read import BUILT, measured

PATTERNS = [
    ("4,000 letters in a row", "(a{200}){20}"),
    ("optional positions in a row", "((a?){255}){15}"),
    ("choices in a row", "(((a|b)?){127}){15}"),
    ("nested stars", "(((a*)*b*)*c*)*"),
    ("stars in a row", "(a*a*){200}"),
    ("letters behind any", ".*a.{255}"),
    ("short", "[a-z]+"),
]
LENGTHS = [0, 10_000, 100_000, 1_000_000]


def table(pattern):
    rule = {"prefix": "/", "headers": [{"name": "x", "safe_regex_match": {"regex": pattern}}]}
    return {"virtual_hosts": [{"name": "h", "domains": ["*"], "routes": [{"match": rule, "route": {"cluster": "c"}}]}]}


def tests(length):
    headers = [{"key": "x", "value": "a" * length}]
    return {"tests": [{
        "test_name": "t",
        "input": {"authority": "a", "path": "/", "additional_request_headers": headers},
        "validate": {"cluster_name": "c"},
    }]}


def main():
    program = sys.argv[1] if len(sys.argv) > 1 else BUILT
    with tempfile.TemporaryDirectory() as folder:
        config, asked = os.path.join(folder, "config.json"), os.path.join(folder, "tests.json")
        for name, pattern in PATTERNS:
            with open(config, "w") as file:
                json.dump(table(pattern), file)
            for length in LENGTHS:
                with open(asked, "w") as file:
                    json.dump(tests(length), file)
                seconds, mib, _, status = measured([program, "check", config, asked])
                print(f"{name}, {pattern}, {length:,} letters: {seconds:.2f} s, {mib:.0f} MiB, status {status}", flush=True)
                if seconds > 30:
                    break


if __name__ == "__main__":
    main()
