#!/usr/bin/env python3
"""Does for tools/cluster.sh what a user does with `vx plan --sql`: an engine selects the rows of its statement, what is left
is evaluated over them, and the records have to be those that the source keeps of all rows.

usage: tools/residuals.py plan ENGINE VX FOLDER
       tools/residuals.py compare ENGINE VX FOLDER

FOLDER has what `vx_sql_rows plans` printed for the engine, clickhouse or postgres. `plan` has the program VX print the plan
of each of `sources`, keeps them in `plans`, and writes `asks`, by which the engine prints the rows of each statement
behind a line `plan N`, and `ask_all`, by which it prints all rows.

`compare` makes JSON lines of what the engine printed, in `said` and `all`, and gives them to `vx filter RESIDUAL --data -`
and to `vx filter SOURCE --data -`. The records of both have to be the same in each column that the statement selects, and
those of the source have to be the rows of `answers`. Prints how many there were, and a line for each plan that differs.

Ends with status 1 where a plan differs."""
import concurrent.futures
import json
import os
import pathlib
import re
import subprocess
import sys

# A name, a text or another character of a type's source text.
TOKEN = re.compile(r"`(?:[^`]|``)*`|\"(?:[^\"\\]|\\.)*\"|.", re.DOTALL)
PLAN = re.compile(rb"^plan (\d+)\n", re.MULTILINE)
# A column behind SELECT, in either engine's quotes.
SELECTED = re.compile(r"(?:\"((?:[^\"]|\"\")*)\"|`((?:[^`]|``)*)`)(?:, | FROM )")
ESCAPES = {b"b": b"\b", b"f": b"\f", b"r": b"\r", b"n": b"\n", b"t": b"\t", b"0": b"\0"}


def columns_of(schema):
    """The columns of a type's source text, by their names: how the name is written there, and the type."""
    parts, depth = [""], 0
    for token in TOKEN.findall(schema.strip()[1:-1]):
        depth += (token in "({") - (token in ")}")
        if token == "," and not depth:
            parts.append("")
        else:
            parts[-1] += token
    found = {}
    for part in map(str.strip, parts):
        word = re.match(r"`(?:[^`]|``)*`|\w+", part)[0]
        name = word[1:-1].replace("``", "`") if word[0] == "`" else word
        found[name] = word, part[len(word) + 1 :]
    return found


def sections(text):
    """What stands behind each line `plan N`, by N. Several of one number are joined."""
    found = {}
    parts = PLAN.split(text)
    for number, part in zip(parts[1::2], parts[2::2]):
        found[int(number)] = found.get(int(number), b"") + part
    return found


def selected(statement):
    """The names of the columns that the statement selects."""
    names, at = [], len("SELECT ")
    while name := SELECTED.match(statement, at):
        names.append(name[1].replace('""', '"') if name[1] is not None else name[2].replace("``", "`"))
        at = name.end()
        if name[0].endswith(" FROM "):
            break
    return names


def json_of_postgres(names, columns, table):
    """A statement of the rows of a table as JSON, in the columns of those names."""
    def written(name):
        kind = columns[name][1].rstrip("?")
        column = 'r."' + name.replace('"', '""') + '"'
        if kind == "binary":
            return f"'0x' || encode({column}, 'hex')"
        if kind == "date":
            return f"{column} - DATE '1970-01-01'"
        if kind.startswith("timestamp"):
            units = 1000000 if kind.startswith("timestamp(us") else 1000
            return f"CAST(extract(epoch FROM {column}) * {units} AS bigint)"
        if kind in ("f32", "f64"):
            return f"replace(lower(CAST({column} AS text)), 'infinity', 'inf')"
        return f"CAST({column} AS text)" if kind.startswith("decimal") else column

    pairs = ", ".join("'" + name.replace("'", "''") + "', " + written(name) for name in names)
    return f"SELECT json_build_object({pairs}) FROM {table} AS r"


def value_of_clickhouse(cell, kind):
    """The value of a cell of ClickHouse's tables, which have what it lacks as texts: decimals without their points."""
    if cell == b"\\N":
        return None
    octets = re.sub(rb"\\(.)", lambda it: ESCAPES.get(it[1], it[1]), cell, flags=re.DOTALL)
    if kind == "binary":
        return "0x" + octets.hex()
    text = octets.decode("utf-8")
    if kind == "bool":
        return {"0": False, "1": True}[text]
    if kind.startswith("decimal"):
        scale = int(re.search(r"(\d+)\)", kind)[1])
        digits = text.lstrip("-").zfill(scale + 1)
        return ("-" if text[0] == "-" else "") + f"{digits[:-scale]}.{digits[-scale:]}"
    return text.lower() if kind in ("f32", "f64") else text if kind == "utf8" else int(text)


def json_lines(engine, printed, names, columns):
    """The rows that the engine printed, as lines of JSON."""
    lines = printed.splitlines() if engine == "postgres" else printed.split(b"\n")
    if engine == "postgres":
        return [line.decode("utf-8") for line in lines if line]
    kinds = [columns[name][1].rstrip("?") for name in names]
    rows = (zip(names, line.split(b"\t"), kinds, strict=True) for line in lines if line)
    return [json.dumps({name: value_of_clickhouse(cell, kind) for name, cell, kind in row}) for row in rows]


def run(program, *words, given=""):
    """What the program prints."""
    done = subprocess.run([program, *words], input=given.encode("utf-8"), capture_output=True)
    if done.returncode:
        raise RuntimeError(f"{words[0]} ends with status {done.returncode}: {done.stderr.decode('utf-8', 'replace')}")
    return done.stdout.decode("utf-8")


def records(program, condition, columns, names, lines):
    """The records of which the condition is true, by the numbers of their rows."""
    schema = "{" + ", ".join(f"{columns[name][0]}={columns[name][1]}" for name in names) + "}"
    said = run(program, "filter", condition, "--data", "-", "--schema", schema, given="".join(line + "\n" for line in lines))
    return sorted((json.loads(line, parse_float=str) for line in said.split("\n") if line), key=lambda it: it["row"])


class Folder:
    """The files that the script keeps of an engine, and what they say of its plans."""

    def __init__(self, engine, program, folder):
        self.engine, self.program, self.path = engine, program, pathlib.Path(folder)
        self.schema = self.read("schema").decode("utf-8").strip()
        self.columns = columns_of(self.schema)
        self.sources = {number: part.decode("utf-8")[:-1] for number, part in sections(self.read("sources")).items()}

    def read(self, name):
        return (self.path / name).read_bytes()

    def each(self, does, numbers):
        """What is to be done of each plan, side by side."""
        with concurrent.futures.ThreadPoolExecutor(os.cpu_count()) as pool:
            return list(pool.map(does, numbers))

    def plan_of(self, number):
        """The statement, and what is left or nothing."""
        said = run(self.program, "plan", self.sources[number], "--schema", self.schema, "--sql", self.engine, "--table", "spread")
        statement, _, left = said[:-1].partition("\nresidual: ")
        return statement, left

    def plan(self):
        plans = dict(zip(self.sources, self.each(self.plan_of, self.sources)))
        asks, ask_all = {number: statement for number, (statement, _) in plans.items()}, "SELECT * FROM spread"
        if self.engine == "postgres":
            asks = {number: json_of_postgres(selected(it), self.columns, f"({it})") for number, it in asks.items()}
            ask_all = json_of_postgres(list(self.columns), self.columns, '"spread"')
        script = "".join(f"SELECT 'plan {number}';\n{it};\n" for number, it in asks.items())
        (self.path / "asks").write_text(script, encoding="utf-8")
        (self.path / "ask_all").write_text(f"{ask_all};\n", encoding="utf-8")
        (self.path / "plans").write_text(json.dumps(plans), encoding="utf-8")

    def judge(self, number, said, every):
        """How many records came back of the plan, how many of them are kept, and what is wrong with these or nothing."""
        statement, left = self.plans[number]
        names = selected(statement)
        try:
            came = json_lines(self.engine, said, names, self.columns)
            kept = records(self.program, left or "true", self.columns, names, came)
            wanted = records(self.program, self.sources[number], self.columns, list(self.columns), every)
        except (RuntimeError, ValueError) as error:
            return 0, 0, str(error)
        if {it["row"] for it in wanted} != self.answers.get(number, set()):
            return len(came), len(kept), "vx filter keeps other rows of the source than vx_eval"
        if kept != [{name: it[name] for name in names} for it in wanted]:
            return len(came), len(kept), f"of {len(came)} records {len(kept)} are kept, and not the source's {len(wanted)}"
        return len(came), len(kept), ""

    def compare(self):
        self.plans = {int(number): plan for number, plan in json.loads(self.read("plans")).items()}
        self.answers = {}
        for line in self.read("answers").splitlines():
            self.answers.setdefault(int(line.split()[0]), set()).add(int(line.split()[1]))
        every = json_lines(self.engine, self.read("all"), list(self.columns), self.columns)
        said = sections(self.read("said"))
        ran = [number for number in self.plans if number in said]
        judged = self.each(lambda number: self.judge(number, said[number], every), ran)
        wrong = [f"plan {number}: {why}" for number, (_, _, why) in zip(ran, judged) if why]
        wrong += [f"plan {number} wasn't run" for number in self.plans if number not in said]
        came, kept = (sum(it[at] for it in judged) for at in (0, 1))
        counts = f"{len(ran)} expressions over two servers, {came} records came back, {kept} kept"
        print(f"{counts}, {len(wrong)} expressions differ", *wrong[:10], sep="\n")
        return bool(wrong)


def main():
    if len(sys.argv) != 5 or sys.argv[1] not in ("plan", "compare") or sys.argv[2] not in ("clickhouse", "postgres"):
        sys.exit(__doc__.split("\n\n")[1])
    sys.exit(getattr(Folder(*sys.argv[2:]), sys.argv[1])())


if __name__ == "__main__":
    main()
