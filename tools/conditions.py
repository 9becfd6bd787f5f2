#!/usr/bin/env python3
"""Compares the conditions that servers were handed with those of the statements, for tools/cluster.sh.

usage: tools/conditions.py clickhouse WANTED CAME
       tools/conditions.py postgres WANTED SAID

CAME has the statements that a shard of ClickHouse logged, a line each. WANTED has the statements of the plans as
a server of ClickHouse writes them itself, each as a view over the shard's table. They have to be the same, in any order,
but for white space.

WANTED and SAID have the plans that EXPLAIN VERBOSE told of the statements, each behind a line `plan N`: WANTED of a server that
has the table itself, SAID of one that hands on to two others. What a plan of WANTED filters by has to be, conjunct by conjunct,
what that of SAID hands on to each server or keeps as its filter. Brackets, white space, names of tables, casts and quotes are passed over.

Prints how many statements came with their whole condition, and with a part of it, how many came not at all, since no row
can meet them, and a line for each that came otherwise.
Ends with status 1 if any did."""
import collections
import re
import sys

# A name, a text, a number, a word, or another character.
TOKEN = re.compile(r"\"(?:[^\"]|\"\")*\"|E?'(?:[^']|'')*'|\d+(?:\.\d+)?(?:e[+-]\d+)?|\w+|\s+|.", re.DOTALL)
# What PostgreSQL puts before a column, and behind a value.
TABLE = re.compile(r"\b(?:spread_\d|spread|t)\.")
CAST = re.compile(r"::(?:\w+\.)?(?:timestamp(?:\(\d\))? with(?:out)? time zone|double precision|\w+(?:\(\d+,\d+\))?)")


def clickhouse(wanted, came):
    """How many of the statements came, and those that came and aren't wanted, or that are and didn't."""
    statement = re.compile(r"SELECT .*? FROM default\.t\b.*")
    wanted, came = (
        collections.Counter(" ".join(statement.search(line).group().split()) for line in open(file))
        for file in (wanted, came)
    )
    others = [f"wanted: {text}" for text in wanted - came] + [f"came: {text}" for text in came - wanted]
    return (wanted & came).total(), 0, 0, others


def plans(file):
    """The plan of each number, which goes up to the first row."""
    parts = re.split(r"^plan (\d+)\n", open(file).read(), flags=re.MULTILINE)[1:]
    return {int(number): re.split(r"^\d+(?:\t|$)", plan, maxsplit=1, flags=re.MULTILINE)[0] for number, plan in zip(parts[::2], parts[1::2])}


def conjuncts(condition):
    """The conjuncts of a condition, counted, without what is passed over."""
    depths, depth, tokens = [], 0, TOKEN.findall(TABLE.sub("", condition))
    for token in tokens:
        depth -= token == ")"
        depths.append(depth)
        depth += token == "("
    while tokens and tokens[0] == "(" and depths.index(0, 1) == len(tokens) - 1:
        tokens, depths = tokens[1:-1], [depth - 1 for depth in depths[1:-1]]
    parts = [[]]
    for token, depth in zip(tokens, depths):
        if token == "AND" and depth == 0:
            parts.append([])
        else:
            parts[-1].append(token)
    if len(parts) > 1:
        return sum((conjuncts("".join(part).strip()) for part in parts), collections.Counter())
    return collections.Counter([plain("".join(tokens))] if tokens else [])


def plain(condition):
    """The condition without brackets, white space, casts, and quotes of numbers, and with backslashes undoubled."""
    tokens = [token for token in TOKEN.findall(CAST.sub("", condition)) if token not in "()" and not token.isspace()]
    tokens = [token[1:].replace("\\\\", "\\") if token.startswith("E'") else token for token in tokens]
    return re.sub(r"'(-?\d+(?:\.\d+)?(?:e[+-]\d+)?)'", r"\1", " ".join(tokens)).replace("- ", "-")


def postgres(wanted, said):
    """How many statements came whole to both servers and how many in part, how many ask for no row, and those of which
    a conjunct is lost."""
    whole, part, unasked, others = 0, 0, 0, []
    wanted, said = plans(wanted), plans(said)
    for number, plan in wanted.items():
        filters = conjuncts("".join(re.findall(r"Filter: (.*)", plan, re.DOTALL)).strip())
        scans = said[number].split("Foreign Scan on ")[1:]
        for scan in scans:
            kept = conjuncts("".join(re.findall(r"Filter: (.*?)\n\s*Remote SQL: ", scan, re.DOTALL)))
            came = conjuncts("".join(re.findall(r" FROM public\.t WHERE (.*?)(?:\n  ->  |\Z)", scan, re.DOTALL)).strip())
            if kept + came != filters:
                others.append(f"plan {number}: wanted {dict(filters - kept - came)}, came {dict(kept + came - filters)}")
        whole += bool(scans) and not kept
        part += bool(scans) and bool(kept) and len(came) > 1
        unasked += not scans
    return whole, part, unasked, others


def main():
    if len(sys.argv) != 4 or sys.argv[1] not in ("clickhouse", "postgres"):
        sys.exit(__doc__)
    compare = {"clickhouse": clickhouse, "postgres": postgres}[sys.argv[1]]
    whole, part, unasked, others = compare(*sys.argv[2:])
    print(f"{whole} statements with the whole condition, {part} with a part of it, {unasked} not at all, {len(others)} otherwise")
    for text in others[:10]:
        print(text)
    return bool(others)


if __name__ == "__main__":
    sys.exit(main())
