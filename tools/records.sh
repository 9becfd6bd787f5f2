#!/bin/sh
# Writes so many orders like the 20 of runs/data, as a CSV file, or as JSON lines where the second
# word is `jsonl`. They look scattered, and are the same each time.
#
# usage: tools/records.sh RECORDS [csv|jsonl]
set -eu
exec env PYTHONUTF8=1 python3 - "$@" <<'PYTHON'
import csv, json, random, sys

CUSTOMERS = ["Okafor, Ada", "Brandt, Jonas", "Silva, Marta", "Ng, Wei", "O'Neill, Sam", "Keller, Anna", "Haddad, Rami", "Rossi, Lia", "Larsen, Ida", "Dubois, Élodie", "Sato, Yui"]
ITEMS = [('Toaster "Model 7"', 4900), ('Toaster "Model 9"', 6900), ("Kettle, 1.7 l", 3450), ("Bread knife", 1290), ("Bread box", 2790), ("Marmalade, bitter orange", 420), ("Egg timer", 850)]
NOTES = ["Smells of smoke", "A gift: no invoice in the box, please", 'Twice promised, "by Friday"', "Please ring twice; the dog answers first"]
TOWNS = [("Leeds", "GB"), ("Hamburg", "DE"), ("Porto", "PT"), ("Cork", "IE"), ("Bern", "CH"), ("Torino", "IT"), ("Aarhus", "DK"), ("Lyon", "FR"), ("Osaka", "JP")]

# Of all that it gives only these fractions are the same for each version of Python.
fraction = random.Random(1).random


def below(limit):
    """A whole number from 0 on, below the limit."""
    return int(fraction() * limit)


def one_of(items):
    return items[below(len(items))]


def order(number):
    """An order of that number; a third has no rating, three of four have no note, and a sixth no ship."""
    item, cents = one_of(ITEMS)
    city, country = one_of(TOWNS)
    return {
        "id": number,
        "placed": f"2026-{1 + below(12):02}-{1 + below(28):02}",
        "customer": one_of(CUSTOMERS),
        "item": item,
        "quantity": 1 + below(12),
        "cents": cents,
        "rating": 1 + below(5) if below(3) else None,
        "note": None if below(4) else one_of(NOTES),
        "paid": below(5) > 0,
        "ship": {"city": city, "country": country, "express": below(4) == 0} if below(6) else None,
    }


def cell(value):
    """A cell of a CSV file: an empty one for null."""
    return str(value).lower() if isinstance(value, bool) else value


records, form = int(sys.argv[1]), sys.argv[2] if len(sys.argv) > 2 else "csv"
orders = map(order, range(1, records + 1))
if form == "jsonl":
    sys.stdout.writelines(json.dumps(it, ensure_ascii=False) + "\n" for it in orders)
else:
    ship = ["city", "country", "express"]
    plain = ["id", "placed", "customer", "item", "quantity", "cents", "rating", "note", "paid"]
    file = csv.writer(sys.stdout, lineterminator="\n")
    file.writerow(plain + [f"ship.{name}" for name in ship])
    for it in orders:
        cells = [it[name] for name in plain] + [(it["ship"] or {}).get(name) for name in ship]
        file.writerow(map(cell, cells))
PYTHON
