#!/usr/bin/env python3
"""Plays a script as `hill play` does, in plain Python: what messages.py measures hill against.

It knows loads of inline tables of whole numbers and ranges in session 0, and that a message beyond 4,096 objects or
64 open requests is refused as `full`. Of every other refusal, of other messages and sessions, of raw texts, of a
message with a number that isn't a whole one of 64 bits, or of want of memory, it knows nothing.
"""

import csv
import io
import json
import re
import sys

MAX_ID = 2**53 - 1
MAX_MESSAGE_BYTES = 2**20
MAX_OBJECTS = 4096
MAX_OPEN = 64
INT = re.compile(r"-?[0-9]+").fullmatch


class Unknown(Exception):
    """A text whose answer isn't known here."""


def check(holds):
    if not holds:
        raise Unknown


def full(id):
    return {"error": "malformed", "id": id, "why": "full"}


def compact(value):
    return json.dumps(value, ensure_ascii=False, separators=(",", ":"), sort_keys=True)


def is_whole(value, most):
    return type(value) is int and 0 <= value <= most


def is_column(column):
    return isinstance(column, list) and len(column) == 2 and isinstance(column[0], str) and column[1] == "int"


def is_name(name):
    return 0 < len(name.encode()) <= 128


def int_of(field):
    """The whole number of 64 bits that a field reads as, or None."""
    if not INT(field):
        return None
    number = int(field)
    return number if -(2**63) <= number < 2**63 else None


def table_of(message):
    """The names of the columns and the texts of the partitions that a load brings."""
    try:
        inline = message["table"]["inline"]
        schema, parts = inline["schema"], inline["parts"]
    except (KeyError, TypeError):
        raise Unknown
    check(isinstance(schema, list) and isinstance(parts, list))
    check(all(is_column(column) for column in schema) and all(isinstance(part, str) for part in parts))
    names = [name for name, _ in schema]
    check(0 < len(names) <= 64 and all(is_name(name) for name in names) and len(set(names)) == len(names))
    return names, parts


def range_of(name, parts):
    """The range of a column over all partitions."""
    cells = []
    for part in parts:
        records = (record for record in csv.reader(io.StringIO(part, newline="")) if record)
        header = next(records, [])
        place = header.index(name) if name in header else len(header)
        cells += [int_of(record[place]) if place < len(record) else None for record in records]
    there = [cell for cell in cells if cell is not None]
    return {
        "count": len(there),
        "max": max(there, default=None),
        "min": min(there, default=None),
        "missing": len(cells) - len(there),
        "sum": str(sum(there)),
    }


class Session:
    def __init__(self):
        self.objects = []
        self.open = {}

    def hear(self, message):
        """The reply that is due at once, or None."""
        id, op = message.get("id"), message.get("op")
        check(is_whole(id, MAX_ID) and id not in self.open)
        if op == "load":
            table = table_of(message)
            if len(self.objects) == MAX_OBJECTS:
                return full(id)
            self.objects.append(table)
            return {"id": id, "made": len(self.objects) - 1}
        check(op == "view")
        of, view = message.get("of"), message.get("view")
        check(is_whole(of, len(self.objects) - 1) and isinstance(view, dict))
        check(view.get("kind") == "range" and view.get("col") in self.objects[of][0])
        if len(self.open) == MAX_OPEN:
            return full(id)
        self.open[id] = of, view["col"]
        return None

    def answers(self):
        """The last words of the open requests, in the order of opening."""
        for id, (of, name) in self.open.items():
            parts = self.objects[of][1]
            yield {"id": id, "last": True, "parts": list(range(len(parts))), "value": range_of(name, parts)}


def do_line(session, line):
    """What a line shows, without its number, or None."""
    try:
        value = json.loads(line)
    except ValueError:
        return {"bad": "json"}
    if not isinstance(value, dict):
        return {"bad": "json"}
    message = value.get("msg")
    if not is_whole(value.get("s"), 0) or not isinstance(message, dict):
        return {"bad": "line"}
    # a message's compact text is never longer than the line that holds it
    check(len(line) <= MAX_MESSAGE_BYTES or len(compact(message).encode()) <= MAX_MESSAGE_BYTES)
    reply = session.hear(message)
    return None if reply is None else {"out": reply, "s": 0}


def main():
    session, number = Session(), 0
    for number, line in enumerate(sys.stdin.buffer, 1):
        line = line.removesuffix(b"\n")
        shown = do_line(session, line) if line else None
        if shown is not None:
            print(compact({**shown, "line": number}))
    for reply in session.answers():
        print(compact({"line": number + 1, "out": reply, "s": 0}))


if __name__ == "__main__":
    main()
