#!/usr/bin/env python3
"""An independent model of expressions: reads their source text, types them and evaluates them in plain Python, by
docs/use/SOURCE.md and docs/audit/DEFINITIONS.md, and shares no code with the repository.

usage: tools/model.py table SEED COUNT     writes a table of COUNT random expressions with the model's answers
       tools/model.py answer TYPE EXPRESSION ROW ..     answers one expression over rows written as JSON

The table is one of the program `vx_table_tests` (docs/audit/TABLES.md): scopes of all types with random rows, and for
each expression its type and its rows or fault; where it doesn't fault also the rows of what folding, optimizing and
the branch rules leave of it. tools/model.sh runs the program over it. A line `# N expressions, M answers, K faults`
comes last.
"""
import datetime
import json
import random
import re
import struct
import sys
from fractions import Fraction

# ---- types

WHOLE = {"u8": (0, 255), "u16": (0, 2**16 - 1), "u32": (0, 2**32 - 1), "u64": (0, 2**64 - 1),
         "i8": (-128, 127), "i16": (-(2**15), 2**15 - 1), "i32": (-(2**31), 2**31 - 1), "i64": (-(2**63), 2**63 - 1)}
UNITS = {"s": 0, "ms": 3, "us": 6, "ns": 9}


class Type:
    """A type: its kind (`i32`, `f64`, `decimal`, `list`, ..), what the kind needs (precision and scale, unit and zone,
    the element's type, the fields), and whether it is nullable."""

    def __init__(self, kind, parts=(), nullable=False):
        self.kind, self.parts, self.nullable = kind, parts, nullable

    def given(self, nullable):
        return Type(self.kind, self.parts, nullable)

    def text(self, blank=" "):
        kind, parts = self.kind, self.parts
        if kind == "decimal":
            said = f"decimal({parts[0]},{blank}{parts[1]})"
        elif kind == "timestamp":
            zone = f',{blank}"{parts[1]}"' if parts[1] is not None else ""
            said = f"timestamp({parts[0]}{zone})"
        elif kind == "list":
            said = f"list({parts[0].text(blank)})"
        elif kind == "struct":
            said = "{" + f",{blank}".join(f"{name}={t.text(blank)}" for name, t in parts) + "}"
        else:
            said = kind
        return said + ("?" if self.nullable else "")

    def base(self):
        """The type without nullability, at any depth, as what can be compared."""
        if self.kind == "list":
            return ("list", self.parts[0].base())
        if self.kind == "struct":
            return ("struct", tuple((name, t.base()) for name, t in self.parts))
        return (self.kind, tuple(self.parts))

    def is_atomic(self):
        return self.kind not in ("list", "struct")


TRUTH = Type("bool")


def joined(t, u):
    """The union of two types of one base."""
    assert t.base() == u.base(), (t.text(), u.text())
    parts = t.parts
    if t.kind == "list":
        parts = (joined(t.parts[0], u.parts[0]),)
    elif t.kind == "struct":
        parts = tuple((name, joined(x, y)) for (name, x), (_, y) in zip(t.parts, u.parts))
    return Type(t.kind, parts, t.nullable or u.nullable)


# ---- values: None, bool, int, Real, str, bytes, list, Record


class Real:
    """A float by its width and bits, of which each NaN is the quiet one."""

    def __init__(self, width, bits):
        self.width = width
        ones, rest = (0x7F800000, 0x7FFFFF) if width == 32 else (0x7FF0000000000000, 0xFFFFFFFFFFFFF)
        if bits & ones == ones and bits & rest:
            bits = ones | (rest + 1) // 2
        self.bits = bits

    def __eq__(self, other):
        return isinstance(other, Real) and (self.width, self.bits) == (other.width, other.bits)

    def __hash__(self):
        return hash((self.width, self.bits))

    def number(self):
        return struct.unpack("<f" if self.width == 32 else "<d", self.bits.to_bytes(self.width // 8, "little"))[0]

    def key(self):
        """The place in the total order."""
        top = 1 << (self.width - 1)
        return -(self.bits - top) - 1 if self.bits & top else self.bits


def real(width, number):
    """The float nearest to a double, ties to even."""
    if width == 64:
        return Real(64, int.from_bytes(struct.pack("<d", number), "little"))
    try:
        return Real(32, int.from_bytes(struct.pack("<f", number), "little"))
    except OverflowError:
        return Real(32, 0x7F800000 if number > 0 else 0xFF800000)


class Record(tuple):
    """The values of a struct's fields."""


def fits(value, t):
    if value is None:
        return t.nullable
    if t.kind in WHOLE:
        return WHOLE[t.kind][0] <= value <= WHOLE[t.kind][1]
    if t.kind == "decimal":
        return abs(value) < 10 ** t.parts[0]
    if t.kind == "list":
        return all(fits(v, t.parts[0]) for v in value)
    if t.kind == "struct":
        return all(fits(v, u) for v, (_, u) in zip(value, t.parts))
    return True


def order_key(value):
    if isinstance(value, Real):
        return value.key()
    return value.encode() if isinstance(value, str) else value


# ---- texts of values


def float_text(x):
    number = x.number()
    if number != number:
        return "nan"
    if number in (float("inf"), float("-inf")):
        return "inf" if number > 0 else "-inf"
    for digits in range(1, 23):
        said = f"{number:.{digits}f}"
        if abs(int(said.replace(".", ""))) >= 10**38:
            break
        if read_float(said, x.width) == x:
            return said
    return f"0x{x.bits:0{x.width // 4}x}"


def read_float(said, width):
    """The float nearest to a decimal: exactly, since a double between would round twice."""
    if width == 64:
        return real(64, float(said))
    sign = 1 << 31 if said.startswith("-") else 0
    exact = abs(Fraction(said))
    # the greatest bits whose number is not above it, and the next; between them the nearer one, or the even one
    low, high = 0, 0x7F7FFFFF
    number = lambda bits: Fraction(struct.unpack("<f", bits.to_bytes(4, "little"))[0])
    while low < high:
        middle = (low + high + 1) // 2
        low, high = (middle, high) if number(middle) <= exact else (low, middle - 1)
    if low < 0x7F7FFFFF:
        below, above = exact - number(low), number(low + 1) - exact
        low += above < below or (above == below and low % 2)
    return Real(32, sign | low)


def day_text(days):
    if not -719162 <= days <= 2932896:
        return str(days)
    return str(datetime.date(1970, 1, 1) + datetime.timedelta(days)) if days >= -719162 else ""


def instant_text(count, t):
    unit, zone = t.parts
    digits = UNITS[unit]
    seconds, part = divmod(count, 10**digits)
    days, second = divmod(seconds, 86400)
    if not -719162 <= days <= 2932896:
        return str(count)
    behind = f".{part:0{digits}d}" if part else ""
    hour, minute = divmod(second // 60, 60)
    return f"{day_text(days)}T{hour:02}:{minute:02}:{second % 60:02}{behind}" + ("Z" if zone is not None else "")


def decimal_text(units, scale):
    digits = f"{abs(units):0{scale + 1}d}"
    said = digits[: len(digits) - scale] + ("." + digits[len(digits) - scale :] if scale else "")
    return ("-" if units < 0 else "") + said


def value_text(value, t):
    """A value as the program shows it."""
    if value is None:
        return "null"
    if t.kind == "bool":
        return "true" if value else "false"
    if t.kind in WHOLE:
        return f"{value}{t.kind}"
    if t.kind in ("f32", "f64"):
        return float_text(value) + t.kind
    if t.kind == "decimal":
        return decimal_text(value, t.parts[1])
    if t.kind == "date":
        return day_text(value)
    if t.kind == "timestamp":
        return instant_text(value, t)
    if t.kind == "utf8":
        return f'"{value}"'
    if t.kind == "binary":
        return "0x" + value.hex()
    if t.kind == "list":
        return "[" + ", ".join(value_text(v, t.parts[0]) for v in value) + "]"
    return "{" + ", ".join(f"{name}: {value_text(v, u)}" for v, (name, u) in zip(value, t.parts)) + "}"


def row_text(value):
    """A value as a table's line `batch` has it."""
    if value is None:
        return "null"
    if isinstance(value, bool):
        return "true" if value else "false"
    if isinstance(value, int):
        return str(value)
    if isinstance(value, Real):
        return f"bits({value.bits:0{value.width // 4}x})"
    if isinstance(value, str):
        return f"'{value}" if re.fullmatch(r"[a-zA-Z0-9%_]+", value) else f"text({value.encode().hex()})"
    if isinstance(value, bytes):
        return f"bytes({value.hex()})"
    inner = ",".join(map(row_text, value))
    return "{" + inner + "}" if isinstance(value, Record) else f"[{inner}]"


def inner_text(value, t):
    """A value as it stands before `::` in source text."""
    if value is None:
        return "null"
    if t.kind == "bool":
        return "true" if value else "false"
    if t.kind in WHOLE:
        return str(value)
    if t.kind == "utf8":
        return '"' + value.replace('"', '""') + '"'
    if t.kind == "binary":
        return "0x" + value.hex()
    if t.kind == "list":
        return "[" + ", ".join(inner_text(v, t.parts[0]) for v in value) + "]"
    if t.kind == "struct":
        return "{" + ", ".join(f"{name}: {inner_text(v, u)}" for v, (name, u) in zip(value, t.parts)) + "}"
    if t.kind in ("f32", "f64"):
        return f'"{float_text(value)}"'
    said = value_text(value, t)
    return said if re.fullmatch(r"-?\d+", said) and t.kind != "decimal" else f'"{said}"'


def scalar_text(value, t):
    """A literal in source text."""
    if value is not None and not t.nullable and t.kind in (*WHOLE, "bool", "utf8", "binary"):
        return inner_text(value, t) + (t.kind if t.kind in WHOLE else "")
    return f"{inner_text(value, t)}::{t.text()}"


# ---- source text

TOKEN = re.compile(
    r"""\s*(?:(?P<text>"(?:[^"]|"")*"|'(?:[^']|'')*')|(?P<bytes>0x[0-9a-fA-F]*)"""
    r"""|(?P<number>\d[\d_]*(?:\.\d+)?(?:[eE][+-]?\d+)?[a-zA-Z0-9]*)|(?P<word>[A-Za-z_]\w*)"""
    r"""|(?P<sign>::|<=|>=|<>|!=|==|[-+*/%<>=(){}\[\],.:$~?]))""")


class Parser:
    """Parses expressions into tuples: the function's name, its options, its children."""

    def __init__(self, text):
        self.tokens, at = [], 0
        text = text.rstrip()
        while at < len(text):
            m = TOKEN.match(text, at)
            assert m, text[at:]
            self.tokens.append((m.lastgroup, m[m.lastgroup]))
            at = m.end()
        self.at = 0

    def peek(self, ahead=0):
        return self.tokens[self.at + ahead] if self.at + ahead < len(self.tokens) else ("end", "")

    def is_next(self, *words):
        """Whether these signs or keywords come next."""
        for k, word in enumerate(words):
            kind, text = self.peek(k)
            if kind not in ("word", "sign") or text.lower() != word:
                return False
        return True

    def take(self, *words):
        if self.is_next(*words):
            self.at += len(words)
            return True
        return False

    def need(self, word):
        assert self.take(word), (word, self.tokens[self.at :])

    def name(self):
        kind, text = self.peek()
        assert kind == "word", (kind, text)
        self.at += 1
        return text

    # types

    def type(self):
        if self.take("{"):
            fields = []
            while not self.take("}"):
                name = self.name()
                self.need("=")
                fields.append((name, self.type()))
                if not self.is_next("}"):
                    self.need(",")
            t = Type("struct", tuple(fields))
        else:
            kind = self.name().lower()
            parts = ()
            if kind == "list":
                self.need("(")
                parts = (self.type(),)
                self.need(")")
            elif kind == "decimal":
                self.need("(")
                precision = self.number()
                self.need(",")
                parts = (precision, self.number())
                self.need(")")
            elif kind == "timestamp":
                self.need("(")
                unit, zone = self.name(), None
                if self.take(","):
                    zone = self.tokens[self.at][1][1:-1]
                    self.at += 1
                self.need(")")
                parts = (unit, zone)
            t = Type(kind, parts)
        return t.given(self.take("?"))

    def number(self):
        kind, text = self.peek()
        assert kind == "number"
        self.at += 1
        return int(text)

    # literals

    def raw(self):
        """A value before its type is known."""
        kind, text = self.peek()
        self.at += 1
        if kind == "text":
            return text[1:-1].replace(text[0] * 2, text[0])
        if kind == "bytes":
            return bytes.fromhex(text[2:])
        if kind == "number":
            return int(text.replace("_", "")) if text.isdigit() else ("number", text)
        if text == "-":
            return -self.raw()
        if text == "[":
            return ("list", self.items("]", self.raw))
        if text == "{":
            return ("struct", self.items("}", self.field))
        assert text in ("null", "true", "false"), text
        return {"null": None, "true": True, "false": False}[text]

    def field(self):
        self.name()
        self.need(":")
        return self.raw()

    def items(self, close, read):
        found = []
        while not self.take(close):
            found.append(read())
            if not self.is_next(close):
                self.need(",")
        return found

    def literal(self):
        """A literal at this place, or None."""
        kind, text = self.peek()
        start = self.at
        signed = text == "-" and self.peek(1)[0] == "number"
        if kind in ("text", "bytes", "number") or signed or text in ("[", "null", "true", "false") or (text == "{"):
            value = self.raw() if kind != "number" and not signed else None
            if kind == "number" or signed:
                self.at += 1 + signed
                digits, suffix = re.fullmatch(r"(\d[\d_]*(?:\.\d+)?(?:[eE][+-]?\d+)?)([a-zA-Z]\w*)?", self.tokens[self.at - 1][1]).groups()
                sign = "-" if signed else ""
                if suffix:
                    return ("literal", (Type(suffix), int(sign + digits)), [])
                if self.is_next("::"):
                    value = int(sign + digits) if digits.isdigit() else sign + digits
                elif digits.isdigit():
                    return ("literal", (Type("i32"), int(sign + digits)), [])
                else:
                    return ("literal", (Type("f64"), read_float(sign + digits, 64)), [])
            if self.take("::"):
                t = self.type()
                return ("literal", (t, typed_value(value, t)), [])
            plain = {bool: "bool", str: "utf8", bytes: "binary"}
            assert type(value) in plain, value
            return ("literal", (Type(plain[type(value)]), value), [])
        self.at = start
        return None

    # expressions, from the loosest operator on

    def whole(self):
        e = self.disjunction()
        assert self.at == len(self.tokens), self.tokens[self.at :]
        return e

    def disjunction(self):
        return self.chain("or", self.conjunction)

    def conjunction(self):
        return self.chain("and", self.negation)

    def chain(self, word, operand):
        es = [operand()]
        while self.take(word):
            es.append(operand())
        while len(es) > 1:
            es = [("binary", word, es[k : k + 2]) if k + 1 < len(es) else es[k] for k in range(0, len(es), 2)]
        return es[0]

    def negation(self):
        if self.take("not"):
            return ("not", None, [self.negation()])
        return self.comparison()

    def comparison(self):
        e = self.sum()
        for sign in ("<=", ">=", "<>", "!=", "==", "<", ">", "="):
            if self.take(sign):
                f = self.sum()
                for again in ("<=", "<"):
                    if sign in ("<", "<=") and self.take(again):
                        return ("between", (sign == "<", again == "<"), [f, e, self.sum()])
                return ("binary", {"<>": "!=", "==": "="}.get(sign, sign), [e, f])
        if self.take("is"):
            denied = self.take("not")
            if self.take("null"):
                return ("is_not_null" if denied else "is_null", None, [e])
            wanted = self.take("true")
            if not wanted:
                self.need("false")
            if wanted != denied:
                return ("fill_null", None, [e, ("literal", (TRUTH, denied), [])]) if wanted else \
                    ("fill_null", None, [e, ("literal", (TRUTH, True), [])])
            return ("not", None, [("fill_null", None, [e, ("literal", (TRUTH, not denied), [])])])
        denied = self.take("not")
        if self.take("between"):
            low = self.sum()
            self.need("and")
            f = ("between", (False, False), [e, low, self.sum()])
            return ("not", None, [f]) if denied else f
        if self.take("in"):
            self.need("(")
            es = [("binary", "=", [e, f]) for f in self.items(")", self.disjunction)]
            while len(es) > 1:
                es = [("binary", "or", es[k : k + 2]) if k + 1 < len(es) else es[k] for k in range(0, len(es), 2)]
            return ("not", None, es) if denied else es[0]
        for word in ("like", "ilike"):
            if self.take(word):
                return ("like", (denied, word == "ilike"), [e, self.sum()])
        assert not denied
        return e

    def sum(self):
        return self.left(("+", "-"), lambda: self.left(("*", "/", "%"), self.postfix))

    def left(self, signs, operand):
        e = operand()
        while self.peek()[0] == "sign" and self.peek()[1] in signs:
            sign = self.peek()[1]
            self.at += 1
            e = ("binary", sign, [e, operand()])
        return e

    def postfix(self):
        e = self.operand()
        while True:
            if self.take("."):
                e = ("get_item", self.name(), [e])
            elif self.take("{"):
                left_out = self.take("~")
                e = ("select", (left_out, self.items("}", self.name)), [e])
            elif self.take("::"):
                e = ("cast", self.type(), [e])
            else:
                return e

    def operand(self):
        if self.take("("):
            e = self.disjunction()
            self.need(")")
            return e
        e = self.literal()
        if e:
            return e
        if self.take("-"):
            return ("binary", "-", [("literal", (Type("i32"), 0), []), self.postfix()])
        if self.take("$"):
            return ("root", None, [])
        if self.take("case"):
            es = []
            while self.take("when"):
                es.append(self.disjunction())
                self.need("then")
                es.append(self.disjunction())
            has_else = self.take("else")
            if has_else:
                es.append(self.disjunction())
            self.need("end")
            return ("case", has_else, es)
        name = self.name()
        if not self.take("("):
            return ("get_item", name, [("root", None, [])])
        word = name.lower()
        if word == "pack":
            names = []

            def item():
                names.append(self.name())
                self.need(":")
                return self.disjunction()

            es = self.items(")", item)
            return ("pack", (names, self.take("?")), es)
        if word == "cast":
            e = self.disjunction()
            self.need("as")
            t = self.type()
            self.need(")")
            return ("cast", t, [e])
        es = self.items(")", self.disjunction)
        if word == "if":
            return ("case", True, es)
        return ({"coalesce": "fill_null"}.get(word, word), None, es)


def typed_value(value, t):
    """A raw value as one of the type."""
    if value is None:
        return None
    if t.kind == "list":
        return [typed_value(v, t.parts[0]) for v in value[1]]
    if t.kind == "struct":
        return Record(typed_value(v, u) for v, (_, u) in zip(value[1], t.parts))
    if t.kind in ("f32", "f64"):
        width, said = int(t.kind[1:]), str(value)
        if said.startswith("0x"):
            return Real(width, int(said, 16))
        if said in ("nan", "inf", "-inf"):
            return real(width, float(said))
        return read_float(said, width)
    if t.kind == "decimal":
        return int(Fraction(str(value)) * 10 ** t.parts[1])
    if t.kind == "date" and isinstance(value, str):
        return (datetime.date.fromisoformat(value) - datetime.date(1970, 1, 1)).days
    if t.kind == "timestamp" and isinstance(value, str):
        day, time = value.rstrip("Z").split("T")
        days = (datetime.date.fromisoformat(day) - datetime.date(1970, 1, 1)).days
        hour, minute, second = time.split(":")
        seconds = (days * 24 + int(hour)) * 3600 + int(minute) * 60
        return int((seconds + Fraction(second)) * 10 ** UNITS[t.parts[0]])
    return value


# ---- typing


def type_of(e, scope):
    what, option, children = e
    if what == "root":
        return scope
    if what == "literal":
        return option[0]
    ts = [type_of(c, scope) for c in children]
    some = any(t.nullable for t in ts)
    if what in ("not", "like", "starts_with") or (what == "binary" and option in ("and", "or")):
        return Type("bool", (), some)
    if what in ("binary", "between"):
        assert all(t.is_atomic() and t.base() == ts[0].base() for t in ts), e
        return ts[0].given(some) if what == "binary" and option in "+-*/%" else Type("bool", (), some)
    if what in ("is_null", "is_not_null"):
        return TRUTH
    if what == "byte_length":
        return Type("i64", (), some)
    if what == "list_contains":
        assert ts[0].parts[0].base() == ts[1].base()
        return Type("bool", (), some or ts[0].parts[0].nullable)
    if what == "fill_null":
        assert ts[0].base() == ts[1].base()
        return ts[0].given(ts[1].nullable)
    if what == "mask":
        assert ts[1].kind == "bool" and not ts[1].nullable
        return ts[0].given(True)
    if what == "zip":
        return joined(ts[0], ts[1])
    if what == "cast":
        assert ts[0].base() == option.base()
        return option
    if what == "case":
        values = ts[1 : len(ts) // 2 * 2 : 2] + (ts[-1:] if option else [])
        t = values[0]
        for u in values[1:]:
            t = joined(t, u)
        return t if option else t.given(True)
    if what == "get_item":
        t = dict(reversed(ts[0].parts))[option]
        return t.given(t.nullable or ts[0].nullable)
    if what == "select":
        return Type("struct", tuple((n, dict(reversed(ts[0].parts))[n]) for n in included(option, ts[0])), ts[0].nullable)
    assert what == "pack", what
    return Type("struct", tuple(zip(option[0], ts)), option[1])


def included(option, t):
    left_out, names = option
    return [n for n, _ in t.parts if n not in names] if left_out else names


# ---- evaluation


class Fault(Exception):
    """The first fault: its name with its row."""


def evaluate(e, scope, rows):
    """The values of all rows. Every node is computed in all rows, children first from left to right."""
    what, option, children = e
    if what == "root":
        return rows
    if what == "literal":
        return [option[1]] * len(rows)
    columns = [evaluate(c, scope, rows) for c in children]
    ts = [type_of(c, scope) for c in children]
    if what == "fill_null":
        fills = columns[1]
        if not ts[0].is_atomic() or None in fills or any(f != fills[0] for f in fills):
            raise Fault("! BadFill")
    if what == "binary" and option in ARITHMETIC:
        return [arithmetic(option, ts[0], x, y, k) for k, (x, y) in enumerate(zip(*columns))]
    if what == "cast":
        for k, v in enumerate(columns[0]):
            if not fits(v, option):
                raise Fault(f"! CastNull({k})")
    row_of = lambda k: [column[k] for column in columns]
    return [at_row(what, option, ts, row_of(k)) for k in range(len(rows))]


def at_row(what, option, ts, vs):
    """The value of a node that doesn't fault, from its children's values."""
    if what == "binary":
        return binary(option, *vs)
    if what == "not":
        return None if vs[0] is None else not vs[0]
    if what == "between":
        (low_strict, high_strict), (x, low, high) = option, vs
        return binary("and", binary("<" if low_strict else "<=", low, x), binary("<" if high_strict else "<=", x, high))
    if what in ("is_null", "is_not_null"):
        return (vs[0] is None) == (what == "is_null")
    if what == "fill_null":
        return vs[1] if vs[0] is None else vs[0]
    if what == "zip":
        return vs[0] if vs[2] is True else vs[1]
    if what == "mask":
        return vs[0] if vs[1] is True else None
    if what == "cast":
        return vs[0]
    if what == "case":
        for k in range(0, len(vs) - 1, 2):
            if vs[k] is True:
                return vs[k + 1]
        return vs[-1] if option else None
    if what == "pack":
        return Record(vs)
    if what in ("get_item", "select"):
        if vs[0] is None:
            return None
        names = [n for n, _ in ts[0].parts]
        if what == "get_item":
            return vs[0][names.index(option)]
        return Record(vs[0][names.index(n)] for n in included(option, ts[0]))
    if None in vs[:2]:
        return None
    if what == "like":
        return like(*vs, option[1]) != option[0]
    if what == "starts_with":
        return vs[0].startswith(vs[1])
    if what == "byte_length":
        return len(vs[0].encode())
    assert what == "list_contains", what
    return True if any(v == vs[1] and type(v) is type(vs[1]) for v in vs[0]) else None if None in vs[0] else False


def binary(sign, x, y):
    if sign == "and":
        return False if x is False or y is False else None if x is None or y is None else True
    if sign == "or":
        return True if x is True or y is True else None if x is None or y is None else False
    if x is None or y is None:
        return None
    x, y = order_key(x), order_key(y)
    return {"=": x == y, "!=": x != y, "<": x < y, "<=": x <= y, ">": x > y, ">=": x >= y}[sign]


ARITHMETIC = ("+", "-", "*", "/", "%")


def arithmetic(sign, t, x, y, row):
    if x is None or y is None:
        return None
    if isinstance(x, Real):
        return float_arithmetic(sign, x, y)
    if sign in "/%" and y == 0:
        raise Fault(f"! DivisionByZero({row})")
    if sign in "/%":
        quotient = abs(x) // abs(y) * (1 if (x < 0) == (y < 0) else -1)
        z = quotient if sign == "/" else x - y * quotient
    else:
        z = {"+": x + y, "-": x - y, "*": x * y}[sign]
    if not fits(z, t):
        raise Fault(f"! AddOverflow({row})")
    return z


def float_arithmetic(sign, x, y):
    a, b = x.number(), y.number()
    if sign == "/" and b == 0:
        if a == 0 or a != a:
            z = float("nan")
        else:
            z = float("-inf") if (x.bits ^ y.bits) >> (x.width - 1) else float("inf")
    else:
        z = {"+": lambda: a + b, "-": lambda: a - b, "*": lambda: a * b, "/": lambda: a / b}[sign]()
    # the double is exact enough: it has more than twice the digits, and two more
    return real(x.width, z)


def like(text, pattern, ignore_case):
    """Whether the text is one of the pattern's, by a table of places that are reached."""
    if ignore_case:
        small = lambda s: "".join(chr(ord(c) + 32) if "A" <= c <= "Z" else c for c in s)
        text, pattern = small(text), small(pattern)
    reached, k = {0}, 0
    while k < len(pattern):
        c = pattern[k]
        if c == "%":
            reached = set(range(min(reached), len(text) + 1)) if reached else set()
        elif c == "_":
            reached = {p + 1 for p in reached if p < len(text)}
        else:
            if c == "\\" and k + 1 < len(pattern):
                k += 1
                c = pattern[k]
            reached = {p + 1 for p in reached if p < len(text) and text[p] == c}
        k += 1
    return len(text) in reached


def answer(e, scope, rows):
    """The rows of an expression as the program shows them, or its first fault."""
    try:
        t = type_of(e, scope)
        return "[" + ", ".join(value_text(v, t) for v in evaluate(e, scope, rows)) + "]"
    except Fault as fault:
        return str(fault)


# ---- random expressions

KINDS = [("bool", ()), ("i8", ()), ("u8", ()), ("i32", ()), ("i64", ()), ("u64", ()), ("f64", ()), ("f32", ()),
         ("decimal", (6, 2)), ("decimal", (4, 0)), ("date", ()), ("timestamp", ("ms", "UTC")), ("timestamp", ("s", None)),
         ("utf8", ()), ("binary", ())]
TEXTS = ["", "a", "ab", "abc", "b", "Ab", "a%", "a_c", "é", "x\\y", "aba", "ABC", "%", "zz top"]
PATTERNS = ["%", "a%", "%b", "_b%", "a", "", "A%", "%b_", "a\\%", "é%", "%a%b%", "__", "x\\\\y", "%\\", "ab%"]
FLOATS = ["0.0", "-0.0", "1.0", "1.5", "-2.25", "0.1", "1e16", "3.5", "100.0", "-0.5"]
ENDS = [float("inf"), float("-inf"), float("nan"), 1e300, 5e-324, 1e-30]
# how tightly the text of an expression binds
OR, AND, NOT, COMPARE, ADD, TIMES, TIGHT = range(7)


class Maker:
    """Random scopes, rows and expressions."""

    def __init__(self, seed):
        self.random = random.Random(seed)

    def chance(self, percent):
        return self.random.random() * 100 < percent

    def pick(self, xs):
        return self.random.choice(xs)

    def atomic(self):
        kind, parts = self.pick(KINDS)
        return Type(kind, parts, self.chance(45))

    def scope(self):
        names = "abcdefghijkm"
        fields = [(n, self.atomic()) for n in names[: self.random.randint(5, 9)]]
        fields += [("n", Type("i32")), ("p", Type("bool", (), True)), ("s", Type("utf8", (), self.chance(50)))]
        fields += [("l", Type("list", (self.atomic(),), self.chance(40)))]
        inner = tuple((n, self.atomic()) for n in "uvw")
        fields += [("r", Type("struct", inner, self.chance(40)))]
        return Type("struct", tuple(fields))

    def value(self, t):
        if t.nullable and self.chance(25):
            return None
        kind = t.kind
        if kind == "bool":
            return self.chance(50)
        if kind in WHOLE:
            low, high = WHOLE[kind]
            if self.chance(12):
                return self.pick([low, high, high - 1, low + 1])
            return self.random.randint(max(low, -6), 12)
        if kind in ("f32", "f64"):
            width = int(kind[1:])
            return real(width, self.pick(ENDS)) if self.chance(15) else read_float(self.pick(FLOATS), width)
        if kind == "decimal":
            top = 10 ** t.parts[0] - 1
            return self.pick([top, -top]) if self.chance(10) else self.random.randint(-300, 900)
        if kind == "date":
            return self.pick([19753, 0, -1, 19782, 2932896, -719162, 2932897, 11016]) + self.random.randint(0, 1)
        if kind == "timestamp":
            return self.pick([0, -1, 1706696130250, 1706696130, 86400000, -62135596800, 253402300799])
        if kind == "utf8":
            return self.pick(TEXTS)
        if kind == "binary":
            return self.pick([b"", b"\x00", b"\x0a", b"\x0a\xff", b"ab"])
        if kind == "list":
            return [self.value(t.parts[0]) for _ in range(self.random.randint(0, 3))]
        return Record(self.value(u) for _, u in t.parts)

    # texts, with how tightly they bind

    def within(self, made, level):
        """The text where at least that binding is needed, with parentheses if it isn't or now and then."""
        text, own = made
        return f"({text})" if own < level or self.chance(6) else text

    def operand(self, scope, base, depth, level):
        return self.within(self.made(scope, base, depth), level)

    def literal(self, base):
        t = Type(base.kind, base.parts, self.chance(25))
        if t.kind == "list" and self.chance(20):
            t = Type("list", (t.parts[0].given(self.chance(50)),), t.nullable)
        return scalar_text(self.value(t), t), TIGHT

    def fields(self, scope, base):
        """The paths of fields of the type, but for null."""
        found = [n for n, t in scope.parts if t.base() == base.base()]
        r = dict(scope.parts)["r"]
        return found + [f"r.{n}" for n, t in r.parts if t.base() == base.base()]

    def leaf(self, scope, base):
        fields = self.fields(scope, base)
        if fields and self.chance(75):
            return self.pick(fields), TIGHT
        return self.literal(base)

    def made(self, scope, base, depth):
        """An expression of the type, but for null."""
        if depth <= 0:
            return self.leaf(scope, base)
        roll = self.random.random() * 100
        if roll < 18:
            return self.leaf(scope, base)
        if roll < 45:
            return self.chosen(scope, base, depth - 1)
        if base.kind == "bool":
            return self.truth(scope, depth - 1)
        if base.kind in WHOLE or base.kind in ("f32", "f64", "decimal"):
            if base.kind == "i64" and self.chance(20):
                return f"byte_length({self.operand(scope, Type('utf8'), depth - 1, OR)})", TIGHT
            return self.calculated(scope, base, depth - 1)
        return self.leaf(scope, base)

    def calculated(self, scope, base, depth):
        signs = "+-" if base.kind == "decimal" else "+-*/" if base.kind[0] == "f" else "+-*/%"
        sign = self.pick(signs)
        level = ADD if sign in "+-" else TIMES
        if self.chance(12) and base.kind != "decimal":
            # beside a number that leaves the other as it is
            one = read_float if base.kind[0] == "f" else None
            number = "1" if level == TIMES else "0"
            value = one(number, int(base.kind[1:])) if one else int(number)
            said = scalar_text(value, base.given(self.chance(30)))
            return f"{self.operand(scope, base, depth, level)} {sign} {said}", level
        return f"{self.operand(scope, base, depth, level)} {sign} {self.operand(scope, base, depth, level + 1)}", level

    def chosen(self, scope, base, depth):
        """What there is for every type."""
        how = self.random.randint(0, 8)
        one = lambda: self.operand(scope, base, depth, OR)
        truth = lambda: self.operand(scope, Type("bool"), depth, OR)
        if how == 0:
            pairs = " ".join(f"when {truth()} then {one()}" for _ in range(self.random.randint(1, 3)))
            return f"case {pairs} {'else ' + one() + ' ' if self.chance(70) else ''}end", TIGHT
        if how == 1:
            return f"if({truth()}, {one()}, {one()})", TIGHT
        if how == 2:
            return f"zip({one()}, {one()}, {truth()})", TIGHT
        if how in (3, 4):
            if not base.is_atomic() and self.chance(90):
                return self.leaf(scope, base)
            fill = self.literal(base)[0] if self.chance(85) else one()
            return f"{self.pick(['coalesce', 'fill_null'])}({one()}, {fill})", TIGHT
        if how == 5:
            mask = f"{self.operand(scope, self.any_base(scope), depth, ADD)} is {self.pick(['', 'not '])}null"
            return f"mask({one()}, {mask if self.chance(85) else self.pick(['true', 'false'])})", TIGHT
        if how == 6:
            t = base.given(self.chance(70))
            inner = self.made(scope, base, depth)
            if self.chance(50) and re.fullmatch(r"[a-z]+(\.[a-z]+)?|.*\)", inner[0]):
                return f"{self.within(inner, TIGHT)}::{t.text()}", TIGHT
            return f"cast({self.within(inner, OR)} as {t.text()})", TIGHT
        if how == 7:
            names = self.pick(["one", "one, two"]).split(", ")
            items = [f"one: {one()}"] + [f"{n}: {truth()}" for n in names[1:]]
            return f"pack({', '.join(items)}){self.pick(['', '?'])}.one", TIGHT
        fields = self.fields(scope, base)
        if fields and "." not in fields[0]:
            kept = self.pick(["{" + fields[0] + "}", "{~ l}" if fields[0] != "l" else "{" + fields[0] + "}"])
            return f"${kept}.{fields[0]}", TIGHT
        return self.leaf(scope, base)

    def any_base(self, scope):
        return self.pick(scope.parts)[1]

    def atomic_base(self, scope):
        return self.pick([t for _, t in scope.parts if t.is_atomic()])

    def truth(self, scope, depth):
        how = self.random.randint(0, 13)
        truth = lambda level: self.operand(scope, Type("bool"), depth, level)
        if how in (0, 1):
            word, level = self.pick([("and", AND), ("or", OR)])
            return f" {word} ".join(truth(level + 1) for _ in range(self.random.randint(2, 4))), level
        if how == 2:
            return f"not {truth(NOT)}", NOT
        base = self.atomic_base(scope)
        one = lambda: self.operand(scope, base, depth, ADD)
        if how in (3, 4, 5):
            return f"{one()} {self.pick(['=', '==', '!=', '<>', '<', '<=', '>', '>='])} {one()}", COMPARE
        if how == 6:
            return f"{one()} {self.pick(['', 'not '])}between {one()} and {one()}", COMPARE
        if how == 7:
            return f"{one()} {self.pick(['<', '<='])} {one()} {self.pick(['<', '<='])} {one()}", COMPARE
        if how == 8:
            items = ", ".join(self.literal(base)[0] for _ in range(self.random.randint(1, 3)))
            return f"{one()} {self.pick(['', 'not '])}in ({items})", COMPARE
        if how == 9:
            any_one = self.operand(scope, self.any_base(scope), depth, ADD)
            return f"{any_one} is {self.pick(['', 'not '])}null", COMPARE
        if how == 10:
            return f"{truth(ADD)} is {self.pick(['', 'not '])}{self.pick(['true', 'false'])}", COMPARE
        text = Type("utf8")
        if how == 11:
            pattern = scalar_text(self.pick(PATTERNS), text) if self.chance(80) else self.operand(scope, text, depth, ADD)
            return f"{self.operand(scope, text, depth, ADD)} {self.pick(['', 'not '])}{self.pick(['like', 'ilike'])} {pattern}", COMPARE
        if how == 12:
            return f"starts_with({self.operand(scope, text, depth, OR)}, {self.operand(scope, text, 0, OR)})", TIGHT
        if self.chance(50):
            base = dict(scope.parts)["l"].parts[0]
        items = Type("list", (base.given(base.nullable or self.chance(30)),))
        if self.chance(60) and dict(scope.parts)["l"].parts[0].base() == base.base():
            items = dict(scope.parts)["l"]
            return f"list_contains({self.operand(scope, items, min(depth, 1), OR)}, {self.operand(scope, base, depth, OR)})", TIGHT
        return f"list_contains({self.literal(items)[0]}, {self.operand(scope, base, depth, OR)})", TIGHT


def table(seed, count):
    """Prints the table of so many expressions, with the numbers of answers and faults."""
    maker = Maker(seed)
    print(f"# {count} random expressions, with what an independent model says of them: `tools/model.py table {seed} {count}`.")
    answers = faults = 0
    for k in range(count):
        if k % 20 == 0:
            scope = maker.scope()
            batches = [[maker.value(scope) for _ in range(maker.random.randint(*few))] for few in ((1, 4), (0, 3))]
            print(f"\nscope | {scope.text('')}")
            for rows in batches:
                print("batch | " + " ".join(map(row_text, rows)))
        base = maker.pick([Type("bool"), maker.any_base(scope)])
        text = maker.made(scope, base, maker.random.randint(1, 4))[0]
        e = Parser(text).whole()
        said = [answer(e, scope, rows) for rows in batches]
        print(f"tree | {text}\ntype | \" | {type_of(e, scope).text()}\nrows | \" | {' / '.join(said)}")
        is_quiet = not any(s.startswith("!") for s in said)
        if is_quiet:
            for kind in ("folded rows", "optimized rows", "by branches rows"):
                print(f"{kind} | \" | {' / '.join(said)}")
        answers += sum(len(rows) for rows, s in zip(batches, said) if not s.startswith("!"))
        faults += sum(s.startswith("!") for s in said)
    print(f"\n# {count} expressions, {answers} answers, {faults} faults")


def typed_row(value, t):
    """A row of JSON as one of the type; bytes are hexadecimal digits."""
    if value is None:
        return None
    if t.kind == "struct":
        return Record(typed_row(value[n] if isinstance(value, dict) else value[k], u) for k, (n, u) in enumerate(t.parts))
    if t.kind == "list":
        return [typed_row(v, t.parts[0]) for v in value]
    if t.kind == "binary":
        return bytes.fromhex(value)
    return typed_value(value, t)


def main():
    if len(sys.argv) == 4 and sys.argv[1] == "table":
        table(int(sys.argv[2]), int(sys.argv[3]))
    elif len(sys.argv) > 3 and sys.argv[1] == "answer":
        scope = Parser(sys.argv[2]).type()
        rows = [typed_row(json.loads(row), scope) for row in sys.argv[4:]]
        e = Parser(sys.argv[3]).whole()
        print(f"{answer(e, scope, rows)} : {type_of(e, scope).text()}")
    else:
        sys.exit(__doc__.split("\n\n")[1])


if __name__ == "__main__":
    main()
