#!/usr/bin/env python3
"""Draws a tree, and the root and the partitions that its plan splits it into, as SVG: each of them as
`vx dot` prints it, and all in one picture of Graphviz, with dashed arrows from the root's scope to the
partitions that it is made of. docs/partitions.svg was made by it.

usage: tools/picture.py [PROGRAM] >docs/partitions.svg
"""
import json
import os
import re
import subprocess
import sys

BUILT = os.path.join(os.path.dirname(__file__), "..", "crates/vx/out/vx")
PROGRAM = sys.argv[1] if len(sys.argv) > 1 else BUILT
EXPRESSION = 'quantity >= 2 and ship.country = "GB"'
SCHEMA = "{quantity=i32, ship={country=utf8}?}"
STYLE = """
  graph [fontname="Helvetica", fontsize=13, style="rounded,filled", color="#c8c8c8", newrank=true, ordering=out]
  node [fontname="Helvetica", fontsize=11, shape=box, style="rounded,filled", fillcolor=white, color="#606060"]
  edge [fontname="Helvetica", fontsize=10, color="#606060", arrowsize=0.6]
"""
FRAME = """
  subgraph cluster_{graph} {{
  label="{label}"
  labelloc={side}
  fillcolor="{colour}"
{lines}
  }}
"""
COLOURS = ["#f4f4f4", "#e8f0fb", "#fdf0dc", "#e6f4e6"]
TREE, ROOT, FIRST_PARTITION = range(3)


def said(*words):
    """What the program prints."""
    return subprocess.run([PROGRAM, *words], check=True, capture_output=True, text=True).stdout


def nodes_and_edges(graph, expression, schema):
    """The lines of the expression's graph, its nodes numbered within that graph."""
    lines = said("dot", expression, "--schema", schema).splitlines()[2:-1]
    return "\n".join(re.sub(r"\bn(\d+)(?= (?:->|\[))", rf"g{graph}_\1", line) for line in lines)


def frame(graph, label, lines):
    """The graph in a frame with its label, which stands below a partition, since arrows come from above."""
    label = label.replace('"', '\\"')
    side = "b" if graph >= FIRST_PARTITION else "t"
    return FRAME.format(graph=graph, label=label, side=side, colour=COLOURS[graph], lines=lines)


def scope_below(field, lines):
    """The node of the scope that the field is an item of."""
    item = re.search(rf'(\w+) \[label="vortex\.get_item\({field}\)\\n', lines)[1]
    return re.search(rf"{item} -> (\w+) ", lines)[1]


def main():
    plan = json.loads(said("plan", EXPRESSION, "--schema", SCHEMA, "--json"))
    partitions = plan["partitions"]
    joined = "{" + ", ".join(f"{it['name']}={it['type']}" for it in partitions) + "}"
    tree = nodes_and_edges(TREE, plan["tree"], SCHEMA)
    root = nodes_and_edges(ROOT, plan["root"], joined)
    parts = [frame(TREE, f"tree: {plan['tree']}", tree), frame(ROOT, f"root: {plan['root']}", root)]
    lowest = re.findall(r"^  (\w+) \[", tree, re.MULTILINE)[-2]
    for graph, it in enumerate(partitions, FIRST_PARTITION):
        lines = nodes_and_edges(graph, it["tree"], SCHEMA)
        parts.append(frame(graph, f"partition {it['name']}: {it['tree']}", lines))
        parts.append(f"  {scope_below(it['name'], root)} -> g{graph}_0 [style=dashed]")
        parts.append(f"  {lowest} -> g{graph}_0 [style=invis]")
    graph = "\n".join(["digraph plan {", STYLE, *parts, "}"])
    drawn = subprocess.run(["dot", "-Tsvg"], input=graph, check=True, capture_output=True, text=True)
    sys.stdout.write(drawn.stdout)


if __name__ == "__main__":
    main()
