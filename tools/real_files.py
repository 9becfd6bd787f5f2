#!/usr/bin/env python3
"""Runs twenty filters over each file of records in a folder, by `vx filter` and by Python's readers, and
compares the records that are kept. Which type a column has, whether a file can be read, and what a filter
keeps is worked out here by docs/use/DATA.md alone. Prints each difference, and at the end a count; the
status is 1 where there is one. The filters are random, but the same each time.

usage: tools/real_files.py PROGRAM FOLDER
"""
import csv
import datetime
import io
import json
import math
import os
import random
import re
import subprocess
import sys
import tempfile

FILTERS = 20
WHOLE = re.compile(r"-?(0|[1-9][0-9]*)\Z", re.ASCII)
NUMBER = re.compile(r"-?(0|[1-9][0-9]*)(\.[0-9]+)?([eE][-+]?[0-9]+)?\Z", re.ASCII)
DAY = re.compile(r"[0-9]{4}-[0-9]{2}-[0-9]{2}\Z", re.ASCII)
INSTANT = re.compile(r"[0-9]{4}-[0-9]{2}-[0-9]{2}[Tt ][0-9]{2}:", re.ASCII)
PLAIN = re.compile(r"[A-Za-z0-9 ]+\Z")
ENDINGS = {".csv": ",", ".tsv": "\t", ".json": None, ".jsonl": None}


class Unreadable(Exception):
    """A file that has to be refused."""


class Pointed(str):
    """A number of JSON with a point or an exponent, as it is written."""


class Column:
    """A column: how an expression names it, its type, its values as they are compared (None is null), and how each
    is written in an expression."""

    def __init__(self, path, kind, values, shown):
        self.path = path
        self.kind = kind
        self.values = values
        self.shown = dict(zip(values, shown))


def column_of(path, texts, kind):
    """The column of that kind, whose values have these texts; None stands for null."""
    value = {"bool": lambda text: text == "true", "whole": int, "float": key_of}.get(kind, str)
    quote = (lambda text: f'"{text}"') if kind in ("text", "day") else str
    values = [None if text is None else value(text) for text in texts]
    return Column(path, kind, values, [None if text is None else quote(text) for text in texts])


def key_of(text):
    """A floating-point number, with its sign behind it, since -0.0 comes before 0.0."""
    number = float(text)
    return number, math.copysign(1, number)


def kind_of(texts):
    """The type of the texts, as it is guessed of the cells of a CSV file; None stands for an empty cell."""
    known = [text for text in texts if text is not None]
    if known and all(text in ("true", "false") for text in known):
        return "bool"
    return kind_of_numbers(known) or kind_of_texts(known)


def kind_of_numbers(known):
    """The type of these, if they are numbers that have one; other numbers are texts."""
    if known and all(WHOLE.match(text) for text in known):
        numbers = [int(text) for text in known]
        least, greatest = min(numbers), max(numbers)
        return "whole" if least >= -(2**63) and greatest < 2**63 or least >= 0 and greatest < 2**64 else None
    if known and all(NUMBER.match(text) for text in known):
        is_long = any(WHOLE.match(text) and len(text.lstrip("-")) > 38 for text in known)
        return None if is_long or any(math.isinf(float(text)) for text in known) else "float"
    return None


def kind_of_texts(known):
    """The type of texts that are no numbers: days, what looks like instants, others."""
    if known and all(is_day(text) for text in known):
        return "day"
    return "instant" if known and all(INSTANT.match(text) for text in known) else "text"


def is_day(text):
    try:
        return bool(DAY.match(text) and datetime.date.fromisoformat(text))
    except ValueError:
        return False


def quoted(name):
    return "`" + name.replace("`", "``") + "`"


def reads_as_path(name):
    """Whether a name with dots leads to a field of a field."""
    parts = name.split(".")
    return len(parts) == 1 or (not parts[0][:1].isdigit() and all(part and all(c == "_" or c.isalnum() for c in part) for part in parts))


def path_of(name, nested):
    return ".".join(quoted(part) for part in name.split(".")) if nested else quoted(name)


def are_nested(names):
    """Whether names with dots lead to fields of fields: each reads so, and none is a cell and the way to others."""
    ways = {name[:i] for name in names for i, c in enumerate(name) if c == "."}
    return all(reads_as_path(name) for name in names) and not ways & set(names)


def csv_file(path, delimiter):
    """The words that `vx` takes, the records, how they are read from an output, and the columns."""
    with open(path, "rb") as file:
        content = file.read()
    words = ["--comment", "#"] if content.startswith(b"#") else []
    try:
        text = content.decode("utf-8-sig")
    except UnicodeDecodeError:
        raise Unreadable from None
    records = rows_of(text, delimiter, bool(words))
    if not records or len(set(records[0])) < len(records[0]):
        raise Unreadable
    names, rows = records[0], records[1:]
    if any(len(row) > len(names) for row in rows):
        raise Unreadable
    nested = are_nested(names)
    cells = [[row[i] or None if i < len(row) else None for row in rows] for i in range(len(names))]
    columns = [column_of(path_of(name, nested), texts, kind_of(texts)) for name, texts in zip(names, cells)]
    return words, rows, lambda output: rows_of(output, delimiter, False)[1:], columns


def rows_of(text, delimiter, has_comments):
    lines = io.StringIO(text, newline="")
    if has_comments:
        lines = (line for line in lines if not line.startswith("#"))
    return [row for row in csv.reader(lines, delimiter=delimiter) if row]


def json_file(path):
    """The same of a file of JSON."""
    with open(path, encoding="utf-8") as file:
        records = values_of(file.read())
    if len(records) == 1 and isinstance(records[0], list):
        records = records[0]
    if not records or not all(isinstance(record, dict) for record in records):
        raise Unreadable
    names = list(dict.fromkeys(name for record in records for name in record))
    columns = []
    for name in names:
        values = [record.get(name) for record in records]
        known = [value for value in values if value is not None]
        if all(type(value) is str for value in known):
            columns.append(column_of(quoted(name), values, kind_of_texts(known)))
        elif all(type(value) in (int, Pointed) for value in known):
            texts = [None if value is None else str(value) for value in values]
            kind = kind_of_numbers([text for text in texts if text is not None])
            columns.append(column_of(quoted(name), texts, kind or "text"))
    return [], records, values_of, columns


def values_of(text):
    decoder, values, at = json.JSONDecoder(parse_float=Pointed), [], 0
    while at < len(text):
        if text[at].isspace():
            at += 1
        else:
            value, at = decoder.raw_decode(text, at)
            values.append(value)
    return values


def test_of(column, chance):
    """A test of a column, and its value at each record: True, False or None."""
    known = [value for value in column.values if value is not None]
    ways = ["null", "not null"]
    if column.kind == "bool":
        ways += ["is", "is not"]
    elif column.kind in ("whole", "float", "day") and known:
        ways += ["=", "<", ">=", "between"] * 2
    elif column.kind == "text" and any(PLAIN.match(value) for value in known):
        ways += ["=", "<>", "<", ">=", "like"] * 2
        known = [value for value in known if PLAIN.match(value)]
    way = chance.choice(ways)
    at, values = column.path, column.values

    def each(test):
        return [None if value is None else test(value) for value in values]

    if way == "null":
        return f"{at} is null", [value is None for value in values]
    if way == "not null":
        return f"{at} is not null", [value is not None for value in values]
    if way == "is":
        return at, values
    if way == "is not":
        return f"not {at}", each(lambda value: not value)
    chosen = chance.choice(known)
    shown = column.shown[chosen]
    if way == "like":
        start = chosen[: chance.randrange(len(chosen) + 1)]
        return f'{at} like "{start}%"', each(lambda value: value.startswith(start))
    if way == "between":
        other = chance.choice(known)
        return f"{at} between {shown} and {column.shown[other]}", each(lambda value: chosen <= value <= other)
    order = str.encode if column.kind == "text" else lambda value: value
    tests = {
        "=": lambda value: value == chosen,
        "<>": lambda value: value != chosen,
        "<": lambda value: order(value) < order(chosen),
        ">=": lambda value: order(value) >= order(chosen),
    }
    return f"{at} {way} {shown}", each(tests[way])


def both(left, right):
    return False if left is False or right is False else None if left is None or right is None else True


def either(left, right):
    return True if left is True or right is True else None if left is None or right is None else False


def filter_of(columns, chance):
    """A test, or two that are joined."""
    text, truths = test_of(chance.choice(columns), chance)
    joint = chance.choice(["", "and", "or"])
    if not joint:
        return text, truths
    other, others = test_of(chance.choice(columns), chance)
    join = both if joint == "and" else either
    return f"({text}) {joint} ({other})", [join(left, right) for left, right in zip(truths, others)]


def run(program, expression, path, words):
    command = [program, "filter", expression, "--data", path, "--guess", "all", *words]
    return subprocess.run(command, stdout=subprocess.PIPE, stderr=subprocess.PIPE, check=False)


def differences(program, path):
    """How many filters were run over the file, and what differs."""
    ending = os.path.splitext(path)[1].lower()
    try:
        words, records, read, columns = csv_file(path, ENDINGS[ending]) if ENDINGS[ending] else json_file(path)
    except Unreadable:
        ended = run(program, "true", path, [])
        return 0, [] if ended.returncode == 2 else [(path, "true", "expected a refusal")]
    if not columns:
        return 0, []
    chance, found = random.Random(os.path.basename(path)), []
    for _ in range(FILTERS):
        expression, truths = filter_of(columns, chance)
        ended = run(program, expression, path, words)
        kept = [record for record, truth in zip(records, truths) if truth is True]
        if ended.returncode != 0:
            said = ended.stderr.decode(errors="replace").splitlines()
            found.append((path, expression, said[0] if said else f"status {ended.returncode}"))
        elif read(ended.stdout.decode("utf-8-sig")) != kept:
            found.append((path, expression, f"expected {len(kept)} records"))
    return FILTERS, found


def files_in(folder, room):
    """The files of records, and for an object of one array the array, as a file of its own."""
    for at, _, names in sorted(os.walk(folder)):
        for name in sorted(names):
            path = os.path.join(at, name)
            if os.path.islink(path) or os.path.splitext(name)[1].lower() not in ENDINGS:
                continue
            array = array_in(path) if name.endswith(".json") else None
            if array is not None:
                path = os.path.join(room, name)
                with open(path, "w", encoding="utf-8") as file:
                    json.dump(array, file, indent=1, ensure_ascii=False)
            yield path


def array_in(path):
    with open(path, encoding="utf-8") as file:
        value = json.load(file)
    if isinstance(value, dict) and len(value) == 1:
        (only,) = value.values()
        return only if isinstance(only, list) else None
    return None


def main():
    if len(sys.argv) != 3:
        sys.exit(__doc__.rsplit("\n", 2)[1])
    program, folder = sys.argv[1:]
    csv.field_size_limit(sys.maxsize)
    files = filters = differ = 0
    with tempfile.TemporaryDirectory() as room:
        for path in files_in(folder, room):
            count, found = differences(program, path)
            for at, expression, what in found:
                print(f"{os.path.relpath(at, folder)}: {expression}: {what}")
            files, filters, differ = files + 1, filters + count, differ + len(found)
    print(f"real files: {files} files, {filters} filters, {differ} differ")
    return 1 if differ else 0


if __name__ == "__main__":
    sys.exit(main())
