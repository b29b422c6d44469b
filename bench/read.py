#!/usr/bin/env python3
"""Measures how a large configuration is read: seconds and peak memory of `check` with one test, beside Python's json.load.

Makes a configuration of about 16 MiB with 10,000 routes and 4,000 domains in a folder of its own and runs the program on it:

    python3 bench/read.py [PROGRAM]

PROGRAM is the built program; without it, the one that `./route_check` builds.
"""
import json
import os
import subprocess
import sys
import tempfile
import time

TOP = os.path.dirname(os.path.dirname(os.path.abspath(__file__)))
BUILT = os.path.join(TOP, "crates", "route_main", "out", "route_main")
LIMIT = 16_777_216
HOSTS, ROUTES, DOMAINS = 100, 100, 40


def route(host, number, room):
    """A route with matchers and with carried fields that fill up its room."""
    return {
        "name": f"route-{host}-{number}",
        "match": {
            "prefix": f"/h{host}/r{number}/",
            "headers": [{"name": "x-user", "string_match": {"exact": f"user-{number}"}}],
            "query_parameters": [{"name": "v", "string_match": {"prefix": "1"}}],
        },
        "route": {"cluster": f"cluster-{host}-{number}", "timeout": "15s", "retry_policy": {"retry_on": "5xx", "num_retries": 3}},
        "metadata": {"filter_metadata": {"filler": {"text": "x" * room}}},
    }


def configuration(room):
    hosts = []
    for host in range(HOSTS):
        hosts.append({
            "name": f"host-{host}",
            "domains": [f"d{i}.h{host}.example.com" for i in range(DOMAINS)],
            "routes": [route(host, i, room) for i in range(ROUTES)],
        })
    return json.dumps({"name": "large", "virtual_hosts": hosts})


def largest():
    """The text whose routes have the most room that keeps it within the limit."""
    least, most = 0, 4_000
    while least < most:
        middle = (least + most + 1) // 2
        if len(configuration(middle)) <= LIMIT:
            least = middle
        else:
            most = middle - 1
    return configuration(least)


def measured(words):
    """Seconds and peak MiB of a command, its output and its status."""
    start = time.perf_counter()
    child = subprocess.Popen(words, stdout=subprocess.PIPE)
    text = child.stdout.read()
    _, status, usage = os.wait4(child.pid, 0)
    seconds = time.perf_counter() - start
    return seconds, usage.ru_maxrss / 1024, text, os.waitstatus_to_exitcode(status)


def main():
    program = sys.argv[1] if len(sys.argv) > 1 else BUILT
    with tempfile.TemporaryDirectory() as folder:
        config, tests = os.path.join(folder, "config.json"), os.path.join(folder, "tests.json")
        text = largest()
        with open(config, "w") as file:
            file.write(text)
        last = f"d{DOMAINS - 1}.h{HOSTS - 1}.example.com"
        with open(tests, "w") as file:
            json.dump({"tests": [{
                "test_name": "last",
                "input": {
                    "authority": last,
                    "path": f"/h{HOSTS - 1}/r{ROUTES - 1}/x?v=1",
                    "additional_request_headers": [{"key": "x-user", "value": f"user-{ROUTES - 1}"}],
                },
                "validate": {"cluster_name": f"cluster-{HOSTS - 1}-{ROUTES - 1}"},
            }]}, file)
        print(f"configuration: {len(text):,} bytes, {HOSTS * ROUTES:,} routes, {HOSTS * DOMAINS:,} domains")
        seconds, mib, out, status = measured([program, "check", config, tests])
        print(f"check: {seconds:.2f} s, {mib:.0f} MiB, status {status}, {out.decode().strip()}")
        load = "import json,sys; json.load(open(sys.argv[1]))"
        seconds, mib, _, status = measured([sys.executable, "-c", load, config])
        print(f"python3 json.load: {seconds:.2f} s, {mib:.0f} MiB, status {status}")


if __name__ == "__main__":
    main()
