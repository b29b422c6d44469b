#!/usr/bin/env python3
"""Measures the search for requests: seconds and peak memory of `reach`, of `verify` of its report, and of `sample`.

For each table it prints how many routes are reached, refuted and undecided, and how long the report is:

    python3 bench/reach.py [PROGRAM [WORD..]]

PROGRAM is the built program; without it, the one that `./route_check` builds. WORD names the tables to measure; without one, all
are. Reports are kept in a temporary folder while a table is measured.
"""
import json
import os
import sys
import tempfile

from read import BUILT, measured


def cluster(rule, number):
    return {"match": rule, "route": {"cluster": f"c{number}"}}


def host(name, domains, rules):
    return {"name": name, "domains": domains, "routes": [cluster(rule, i) for i, rule in enumerate(rules)]}


def plain_rule(number):
    """Prefixes, exact paths below some of them, and whole segments."""
    service = f"/service/{number // 3}"
    return [{"prefix": service + "/"}, {"path": service + "/item"}, {"path_separated_prefix": service}][number % 3]


def mixed_rule(number):
    """Paths with headers, queries, patterns and letter case."""
    path = f"/service/{number // 5}"
    header = {"name": "x-tenant", "string_match": {"exact": f"t{number % 7}"}}
    query = {"name": "v", "string_match": {"exact": str(number % 5)}}
    return [
        {"prefix": path, "headers": [header]},
        {"path": path + "/item", "query_parameters": [query]},
        {"safe_regex": {"regex": path + "/[a-z]+"}},
        {"prefix": path.upper(), "case_sensitive": False},
        {"path_separated_prefix": path},
    ][number % 5]


def plain(count):
    return {"virtual_hosts": [host("h", ["*"], [plain_rule(i) for i in range(count)])]}


def mixed(count):
    return {"virtual_hosts": [host("h", ["*"], [mixed_rule(i) for i in range(count)])]}


def hosts(count, routes):
    """Hosts whose wildcard domains overlap: each is a suffix of the next ones."""
    rules = [plain_rule(i) for i in range(routes)]
    names = [("*." + ".".join(["a"] * (1 + i // 10)) + f"{i % 10}.test") for i in range(count)]
    return {"virtual_hosts": [host(f"h{i}", [name], rules) for i, name in enumerate(names)]}


def contained(count):
    """A route behind this many rules of one field, none of which covers the others."""
    rules = [{"prefix": "/", "headers": [{"name": "x-a", "string_match": {"contains": f"k{i}"}}]} for i in range(count)]
    covered = {"prefix": "/", "headers": [{"name": "x-a", "string_match": {"prefix": "k0"}}]}
    return {"virtual_hosts": [host("h", ["*"], rules + [covered])]}


TABLES = {
    "plain-100": plain(100),
    "plain-1000": plain(1000),
    "mixed-200": mixed(200),
    "mixed-1000": mixed(1000),
    "hosts-100x100": hosts(100, 100),
    "contains-12": contained(12),
}
SAMPLES = {"sample-200": 200, "sample-2000": 2000}


def verdicts(report):
    counts = {"reached": 0, "refuted": 0, "undecided": 0}
    for line in report.splitlines():
        counts[line[line.rindex(b'"verdict":"') + 11:line.rindex(b'"')].decode()] += 1
    return ", ".join(f"{count} {verdict}" for verdict, count in counts.items())


def table(program, name, folder):
    config, report = os.path.join(folder, "config.json"), os.path.join(folder, "report")
    with open(config, "w") as file:
        json.dump(TABLES[name], file)
    seconds, mib, text, status = measured([program, "reach", config])
    with open(report, "wb") as file:
        file.write(text)
    size = len(text) / 2**20
    print(f"{name}: reach {seconds:.2f} s, {mib:.0f} MiB, status {status}; {verdicts(text)}; {size:.1f} MiB of rows", flush=True)
    seconds, mib, _, status = measured([program, "verify", config, report])
    print(f"{name}: verify {seconds:.2f} s, {mib:.0f} MiB, status {status}", flush=True)


def sample(program, name):
    seconds, mib, _, status = measured([program, "sample", str(SAMPLES[name])])
    print(f"{name}: {seconds:.2f} s, {mib:.0f} MiB, status {status}", flush=True)


def main():
    program = sys.argv[1] if len(sys.argv) > 1 else BUILT
    asked = sys.argv[2:] or [*TABLES, *SAMPLES]
    with tempfile.TemporaryDirectory() as folder:
        for name in asked:
            if name in SAMPLES:
                sample(program, name)
            else:
                table(program, name, folder)


if __name__ == "__main__":
    main()
