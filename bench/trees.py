#!/usr/bin/env python3
"""Measures matcher trees: seconds and peak memory of `check` with 10,000 tests on 1,000 routes, in a tree and in a list.

The tree is an exact map of 500 keys over the path, and a prefix map of 500 keys for what the first doesn't take. Each key leads
to one route; the list has the same routes in the same order:

    python3 bench/trees.py [PROGRAM]

PROGRAM is the built program; without it, the one that `./route_check` builds.
"""
import json
import os
import sys
import tempfile

from read import BUILT, measured

KEYS = 500
TESTS = 10_000
TYPES = "type.googleapis.com/envoy"


def route(number):
    path = f"/service/{number}"
    rule = {"path": path} if number < KEYS else {"prefix": path + "/"}
    return {"match": rule, "route": {"cluster": f"c{number}"}}


def led_to(number):
    return {"action": {"typed_config": {"@type": f"{TYPES}.config.route.v3.Route"} | route(number)}}


def keys(kind, numbers):
    """A map of these routes by their paths."""
    path = {"typed_config": {"@type": f"{TYPES}.type.matcher.v3.HttpRequestHeaderMatchInput", "header_name": ":path"}}
    return {"input": path, kind: {"map": {next(iter(route(i)["match"].values())): led_to(i) for i in numbers}}}


def tree():
    prefixes = {"matcher_tree": keys("prefix_match_map", range(KEYS, 2 * KEYS))}
    return {"matcher": {"matcher_tree": keys("exact_match_map", range(KEYS)), "on_no_match": {"matcher": prefixes}}}


def table(body):
    return {"virtual_hosts": [{"name": "h", "domains": ["*"]} | body]}


def tests():
    """Tests that go round the routes in an order that jumps."""
    asked = []
    for i in range(TESTS):
        number = i * 617 % (2 * KEYS)
        path = f"/service/{number}" + ("" if number < KEYS else "/item")
        asked.append({
            "test_name": str(i),
            "input": {"authority": "a", "path": path},
            "validate": {"cluster_name": f"c{number}"},
        })
    return {"tests": asked}


def main():
    program = sys.argv[1] if len(sys.argv) > 1 else BUILT
    bodies = [("tree", tree()), ("list", {"routes": [route(i) for i in range(2 * KEYS)]})]
    with tempfile.TemporaryDirectory() as folder:
        config, asked = os.path.join(folder, "config.json"), os.path.join(folder, "tests.json")
        with open(asked, "w") as file:
            json.dump(tests(), file)
        for name, body in bodies:
            with open(config, "w") as file:
                json.dump(table(body), file)
            seconds, mib, _, status = measured([program, "check", config, asked])
            print(f"{name}: {seconds:.2f} s, {mib:.0f} MiB, status {status}", flush=True)


if __name__ == "__main__":
    main()
