#!/usr/bin/env python3
"""Measures `hill play` over many messages and over large tables, beside the plain Python of plain.py, and over the
longest messages.

Both play each script three times, in rounds over all scripts, and the outputs are compared byte for byte. The best
run counts, by its processor time (user and system). On a shared machine the same run may take twice as long a
few seconds later, so whether a message costs more in a longer script is told from pairs of runs: the shortest
script and right after it the longest, and of all pairs the median.
Messages of 1,048,576 bytes, the most that one may have, are played beside messages of a quarter of it, in many shapes,
each in scripts with as many bytes; the word of each answer is checked. Again the median of pairs of runs counts.
Targets: on the tables hill takes a third of Python's time or less; a message costs at most a fifth
more in a script of 60,000 than in one of 10,000; and the longest message of a shape costs at most eight times one of a
quarter of its length, where four is linear and sixteen quadratic (what a long message is read into no longer fits the
processor's cache); but for the shape that NOT_JUDGED names.

usage: bench/messages.py    (with hill proved and built: rt ci)
"""

import json
import os
import random
import statistics
import subprocess
import sys
import tempfile
import time

TOP = os.path.dirname(os.path.dirname(os.path.realpath(__file__)))
HILL = [f"{TOP}/crates/hill/out/hill", "play"]
PLAIN = [sys.executable, f"{TOP}/bench/plain.py"]
ROUNDS = 3
PAIRS = 11
LENGTHS = (10_000, 20_000, 60_000)
TABLES = 60
PART_BYTES = 900_000
LONGEST = 1 << 20
LONG_MESSAGES = 4
LONG_PAIRS = 5
SMALL = {"schema": [["x", "int"]], "parts": ["x,y\n5,a\n,b\n-2,c", "x,y\n9,d"]}


def compact(value):
    return json.dumps(value, separators=(",", ":"))


def line(message):
    return compact({"s": 0, "msg": message}) + "\n"


def load(id, table):
    return line({"id": id, "op": "load", "table": {"inline": table}})


def view(id, of):
    return line({"id": id, "op": "view", "of": of, "view": {"col": "x", "kind": "range"}})


def views(count):
    """One small table and then views of it: 64 stay open until the end, the others are refused as full."""
    return [load(1, SMALL), *(view(id, 0) for id in range(2, count + 1))]


def loads(count):
    """Loads of a small table: 4,096 make objects, the others are refused as full."""
    return [load(id, SMALL) for id in range(1, count + 1)]


def large_part(rows):
    """About 900 KB of CSV: a number, a number or an empty field, and a text."""
    made, size = ["x,y,name"], 0
    while size < PART_BYTES:
        y = rows.randrange(1000) if rows.random() < 0.9 else ""
        made.append(f"{rows.randrange(-10**9, 10**9)},{y},row{len(made)}")
        size += len(made[-1]) + 1
    return "\n".join(made)


def tables():
    """Tables of one large partition each, and a view of each table."""
    rows = random.Random(1)
    schema = [["x", "int"], ["y", "int"]]
    made = [load(of, {"schema": schema, "parts": [large_part(rows)]}) for of in range(TABLES)]
    return [*made, *(view(TABLES + of, of) for of in range(TABLES))]


def asked(op, **fields):
    return {"id": 1, "op": op, **fields}


def long_load(parts, schema):
    return asked("load", table={"inline": {"parts": parts, "schema": schema}})


def long_filter(pred):
    return asked("filter", of=0, pred=pred)


def names(count):
    return [f"k{i:06}" for i in range(count)]


def shuffled(values):
    return random.Random(2).sample(values, len(values))


# What makes a message of each shape from a number, and the word of its answer. Each is longer by the same number of
# bytes for each step of the number. A text is heard as it stands.
SHAPES = {
    "digits of a part": ("made", lambda n: long_load(["7" * n], SMALL["schema"])),
    "newlines of a part": ("made", lambda n: long_load(["\n" * n], SMALL["schema"])),
    "quotes of a part": ("made", lambda n: long_load(['"' * n], SMALL["schema"])),
    "parts": ("made", lambda n: long_load(["7" * 20] * n, SMALL["schema"])),
    "empty parts": ("limit", lambda n: long_load([""] * n, SMALL["schema"])),
    "columns": ("schema", lambda n: long_load([], [[name, "int"] for name in names(n)])),
    "chosen columns": ("schema", lambda n: asked("project", of=0, cols=["x"] * n)),
    "name of a column": ("schema", lambda n: asked("derive", of=0, name="n" * n, expr={"col": "x", "e": "col"})),
    "constant": ("limit", lambda n: long_filter({"col": "x", "how": "eq", "p": "cmp", "to": "c" * n})),
    "predicates": ("limit", lambda n: long_filter({"of": [{"col": "x", "p": "missing"}] * n, "p": "and"})),
    "operation": ("op", lambda n: asked("o" * n)),
    "other keys": ("op", lambda n: asked("sum", **dict.fromkeys(names(n), 0))),
    "keys in no order": ("op", lambda n: asked("sum", **dict.fromkeys(shuffled(names(n)), 0))),
    "numbers": ("op", lambda n: asked("sum", other=[7] * n)),
    "nested lists": ("op", lambda n: asked("sum", other=[json.loads("[" * 120 + "]" * 120)] * n)),
    "one key again": ("op", lambda n: "{" + '"op":"sum",' * n + '"id":1}'),
    "spaces": ("op", lambda n: '{"id":1,' + " " * n + '"op":"sum"}'),
    "escapes": ("op", lambda n: '{"id":1,"op":"' + "\\u00e9" * n + '"}'),
    "floats": ("op", lambda n: '{"id":1,"op":"sum","other":[' + "0.1234567890123456789e-300," * n + "7]}"),
    "digits of an id": ("json", lambda n: '{"id":' + "7" * n + "}"),
    "zeros of an id": ("id", lambda n: '{"id":0.' + "0" * n + "7}"),
    "open brackets": ("json", lambda n: "[" * n),
}
# The keys of an object make a sorted map, which costs n log n. Where they come in no order each also finds the map's
# nodes out of the processor's cache.
NOT_JUDGED = "keys in no order"


def long_line(make, size):
    """The line of a shape's longest message that has at most `size` bytes."""

    def text(count):
        made = make(count)
        return made if isinstance(made, str) else compact(made)

    first = len(text(1))
    count = 1 + (size - first) // (len(text(2)) - first)
    assert size * 0.99 < len(text(count)) <= size
    made = make(count)
    return compact({"s": 0, "raw": made}) + "\n" if isinstance(made, str) else line(made)


def word_of(text):
    out = json.loads(text)["out"]
    return out.get("why", "made" if "made" in out else None)


class Long:
    """A shape's scripts of its longest messages and of four times as many of a quarter of their length."""

    def __init__(self, folder, name):
        self.name = name
        self.word, make = SHAPES[name]
        self.scripts = []
        for count, size in ((LONG_MESSAGES, LONGEST), (LONG_MESSAGES * 4, LONGEST // 4)):
            path = f"{folder}/long.{size}"
            with open(path, "w") as it:
                it.writelines([load(0, SMALL), *[long_line(make, size)] * count])
            self.scripts.append((path, count))
        self.costs = [tuple(map(self.cost, self.scripts)) for _ in range(LONG_PAIRS)]

    def cost(self, script):
        """Milliseconds of processors that hill takes for a message."""
        path, count = script
        used = play(HILL, path, f"{path}.hill")[1]
        _, *words = map(word_of, bytes_of(f"{path}.hill").splitlines())
        if words != [self.word] * count:
            sys.exit(f"{self.name}: the answers are {sorted(set(words))}, not {count} times {self.word}")
        return used / count * 1e3

    def ratio(self):
        return statistics.median(long / short for long, short in self.costs)

    def show(self):
        long, short = best(self.costs)
        print(f"{self.name:20} {self.word:8} {long:9.2f} {short:9.2f} {self.ratio():6.2f}", flush=True)


def shown_long(folder, name):
    """A shape's runs, shown as soon as they are done."""
    long = Long(folder, name)
    long.show()
    return long


def play(words, script, output):
    """Runs a program over a script, and returns its seconds by the clock and of processors."""
    with open(script, "rb") as given, open(output, "wb") as taken:
        start = time.monotonic()
        child = subprocess.Popen(words, stdin=given, stdout=taken)
        _, status, used = os.wait4(child.pid, 0)
        passed = time.monotonic() - start
    child.returncode = os.waitstatus_to_exitcode(status)
    if child.returncode:
        sys.exit(f"{words[0]} ended with status {child.returncode}")
    return passed, used.ru_utime + used.ru_stime


def bytes_of(path):
    with open(path, "rb") as it:
        return it.read()


class Case:
    """A script, with the seconds of each run over it, by the clock and of processors."""

    def __init__(self, folder, name, lines):
        self.name, self.script = name, f"{folder}/{name}"
        self.hill, self.plain = [], []
        self.lines = len(lines)
        with open(self.script, "w") as it:
            it.writelines(lines)
        self.megabytes = os.path.getsize(self.script) / 1e6

    def play(self):
        ours, theirs = f"{self.script}.hill", f"{self.script}.plain"
        self.hill.append(play(HILL, self.script, ours))
        self.plain.append(play(PLAIN, self.script, theirs))
        if bytes_of(ours) != bytes_of(theirs):
            sys.exit(f"{self.name}: hill and Python give other outputs")

    def play_hill(self):
        """Microseconds of processors that hill takes for a line."""
        return play(HILL, self.script, f"{self.script}.hill")[1] / self.lines * 1e6

    def ratio(self):
        """How many times hill's processor time Python takes."""
        return best(self.plain)[1] / best(self.hill)[1]

    def show(self):
        clock, used = best(self.hill)
        plain_clock, plain_used = best(self.plain)
        print(
            f"{self.name:14} {self.megabytes:7.2f} {clock:8.3f} {used:9.3f} {self.megabytes / used:7.1f}"
            f" {used / self.lines * 1e6:8.2f} {plain_clock:9.3f} {plain_used:9.3f} {self.ratio():6.2f}"
        )


def best(runs):
    """The least seconds by the clock, and the least of processors."""
    return tuple(min(it) for it in zip(*runs))


def judge(what, found, holds):
    print(f"{what}: {found:.2f}, {'met' if holds else 'missed'}")
    return holds


def growth(cases):
    """How many times the cost of a message in the shortest script one in the longest has."""
    shortest, *_, longest = cases
    pairs = ((shortest.play_hill(), longest.play_hill()) for _ in range(PAIRS))
    return statistics.median(there / here for here, there in pairs)


def judge_growth(name, found):
    return judge(f"{name}: a message of the longest script to one of the shortest, at most 1.2", found, found <= 1.2)


def main():
    if not os.access(HILL[0], os.X_OK):
        sys.exit("hill isn't built: run rt ci first")
    with tempfile.TemporaryDirectory(prefix="hill-bench-") as folder:
        of_views = [Case(folder, f"views {n:,}", views(n)) for n in LENGTHS]
        of_loads = [Case(folder, f"loads {n:,}", loads(n)) for n in LENGTHS]
        of_tables = Case(folder, f"tables {TABLES}", tables())
        cases = [*of_views, *of_loads, of_tables]
        for _ in range(ROUNDS):
            for case in cases:
                case.play()
        print("                       ------------- hill --------------    ------- Python -------")
        print("script              MB    clock  user+sys    MB/s  us/line     clock  user+sys  ratio")
        for case in cases:
            case.show()
        print("The outputs are the same, byte for byte.", flush=True)
        growths = {"views": growth(of_views), "loads": growth(of_loads)}
        print("messages long by     answer   ms: 1 MiB   256 KiB  ratio")
        longs = [shown_long(folder, name) for name in SHAPES]
    ratio = of_tables.ratio()
    steepest = max(long.ratio() for long in longs if long.name != NOT_JUDGED)
    held = [
        judge("tables: times as fast as Python, at least 3", ratio, ratio >= 3),
        *(judge_growth(name, found) for name, found in growths.items()),
        judge("longest messages: the cost to that of a quarter of the length, at most 8", steepest, steepest <= 8),
    ]
    return 0 if all(held) else 1


if __name__ == "__main__":
    sys.exit(main())
