#!/usr/bin/env python3
"""Measures `hill play` over 200,000 small messages of every kind, heard in turn by sixteen sessions.

Each session loads a small table, and then goes round: a filter, an info, a view and its cancel, a projection and a
derived column in turns, a text that is no JSON, an operation that isn't known, a column that isn't there. The number of
each kind of answer is checked. A script of a quarter of the length tells whether a message costs more in a longer
script: the median of eleven pairs of runs counts. The time is that of processors (user and system), the best run's.
Targets: at least 150,000 messages a second; a message of the long script costs at most a fifth more.

usage: bench/talk.py    (with hill proved and built: rt ci)
"""

import collections
import json
import os
import statistics
import subprocess
import sys
import tempfile

TOP = os.path.dirname(os.path.dirname(os.path.realpath(__file__)))
HILL = [f"{TOP}/crates/hill/out/hill", "play"]
SESSIONS = 16
MESSAGES = 200_000
PAIRS = 11
TABLE = {"inline": {"parts": ["x,t\n1,a\n2,b\n3,c"], "schema": [["x", "int"], ["t", "text"]]}}
FILTER = {"col": "x", "how": "ge", "p": "cmp", "to": 2}
LINEAR = {"a": 2, "b": 1, "e": "linear", "of": {"col": "x", "e": "col"}}


def compact(value):
    return json.dumps(value, separators=(",", ":"))


def turn(id):
    """The messages of one turn, each with the kinds of its answers."""
    odd = id // 8 % 2
    made = (
        {"id": id, "op": "project", "of": 0, "cols": ["t", "x"]}
        if odd
        else {"id": id, "op": "derive", "of": 0, "name": "y", "expr": LINEAR}
    )
    return [
        ({"id": id, "op": "filter", "of": 0, "pred": FILTER}, ["made"]),
        ({"id": id, "op": "info", "of": 1}, ["info"]),
        ({"id": id, "op": "view", "of": 1, "view": {"col": "x", "kind": "range"}}, []),
        ({"id": id + 1, "op": "cancel", "request": id}, ["cancelled", "done"]),
        (made, ["made"]),
        ("{", ["json"]),
        ({"id": id, "op": "sum", "of": 0}, ["op"]),
        ({"id": id, "op": "view", "of": 0, "view": {"col": "q", "k": 3, "kind": "distinct"}}, ["column"]),
    ]


def script(messages):
    """The lines of a script, and how many answers of each kind it has."""
    heard = [[({"id": 0, "op": "load", "table": TABLE}, ["made"])] for _ in range(SESSIONS)]
    each = messages // SESSIONS
    for session in heard:
        id = 8
        while len(session) < each:
            session += turn(id)
            id += 8
        del session[each:]
    lines, wanted = [], collections.Counter()
    for said in zip(*heard):
        for s, (message, kinds) in enumerate(said):
            key = "raw" if isinstance(message, str) else "msg"
            lines.append(compact({"s": s, key: message}) + "\n")
            wanted.update(kinds)
    return "".join(lines), wanted, len(lines)


def kind_of(line):
    reply = json.loads(line)["out"]
    if "why" in reply:
        return reply["why"]
    for kind in ("made", "cancelled", "done", "last"):
        if kind in reply:
            return kind
    return "info"


def play(path, output):
    """The processor time of a run, in seconds."""
    with open(path, "rb") as given, open(output, "wb") as taken:
        child = subprocess.Popen(HILL, stdin=given, stdout=taken)
        _, status, used = os.wait4(child.pid, 0)
    if status != 0:
        sys.exit(f"hill ends with {status}")
    return used.ru_utime + used.ru_stime


def counts(output):
    with open(output, encoding="utf-8") as lines:
        return collections.Counter(map(kind_of, lines))


def main():
    if not os.access(HILL[0], os.X_OK):
        sys.exit("hill isn't built: run rt ci first")
    with tempfile.TemporaryDirectory() as work:
        sizes, paths = [], []
        for name, messages in (("short", MESSAGES // 4), ("long", MESSAGES)):
            text, wanted, size = script(messages)
            path, output = f"{work}/{name}.jsonl", f"{work}/{name}.out"
            with open(path, "w", encoding="utf-8") as file:
                file.write(text)
            play(path, output)
            found = counts(output)
            # requests that the last turn left open are answered in the drain
            found.pop("last", None)
            if found != wanted:
                sys.exit(f"{name}: {dict(found)} in place of {dict(wanted)}")
            print(f"{name}: {size} messages, answers {dict(sorted(wanted.items()))}")
            sizes.append(size)
            paths.append(path)
        pairs = [[play(path, f"{work}/out") / size for path, size in zip(paths, sizes)] for _ in range(PAIRS)]
    rate = 1 / min(long for _, long in pairs)
    growth = statistics.median(long / short for short, long in pairs)
    print(f"{rate:,.0f} messages a second; a message of the long script costs {growth:.2f} times one of the short")
    missed = rate < 150_000 or growth > 1.2
    print("missed" if missed else "met")
    sys.exit(1 if missed else 0)


if __name__ == "__main__":
    main()
