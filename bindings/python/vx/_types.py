"""Types as texts, and values of them as JSON has them."""

from __future__ import annotations

import dataclasses
import datetime
import decimal
import json
import re
from typing import Any, List, Optional, Tuple

from . import _floats, _numpy

_ATOM = re.compile(r"bool|[ui](?:8|16|32|64)|f32|f64|utf8|binary|date")
_DECIMAL = re.compile(r"decimal\(([0-9]+), ([0-9]+)\)")
_TIMESTAMP = re.compile(r"timestamp\((s|ms|us|ns)(?:, \"((?:[^\"]|\"\")*)\")?\)")
_NAME = re.compile(r"`((?:[^`]|``)*)`|([A-Za-z_][A-Za-z_0-9]*)")
_WORD = re.compile(r"[A-Za-z_][A-Za-z_0-9]*")


@dataclasses.dataclass(frozen=True)
class Type:
    """A type. Its ``kind`` is a word such as ``i32``, ``f64``, ``decimal``, ``date`` or ``timestamp``, or ``list``, ``fixed_size_list`` or ``struct``."""

    kind: str
    is_nullable: bool = False
    item: Optional[Type] = None
    length: int = 0
    fields: Tuple[Tuple[str, Type], ...] = ()
    precision: int = 0
    scale: int = 0
    unit: str = ""
    zone: Optional[str] = None

    def __str__(self) -> str:
        mark = "?" if self.is_nullable else ""
        if self.kind == "list":
            return f"list({self.item}){mark}"
        if self.kind == "fixed_size_list":
            return f"fixed_size_list({self.item})[{self.length}]{mark}"
        if self.kind == "struct":
            fields = ", ".join(f"{_quoted(name)}={dtype}" for name, dtype in self.fields)
            return f"{{{fields}}}{mark}"
        if self.kind == "decimal":
            return f"decimal({self.precision}, {self.scale}){mark}"
        if self.kind == "timestamp":
            zone = "" if self.zone is None else ', "' + self.zone.replace('"', '""') + '"'
            return f"timestamp({self.unit}{zone}){mark}"
        return self.kind + mark


def _quoted(name: str) -> str:
    if _WORD.fullmatch(name):
        return name
    return "`" + name.replace("`", "``") + "`"


class _Reader:
    """Reads a type's text, as the library writes it."""

    def __init__(self, text: str) -> None:
        self.text = text
        self.at = 0

    def has(self, sign: str) -> bool:
        if not self.text.startswith(sign, self.at):
            return False
        self.at += len(sign)
        return True

    def matched(self, pattern: re.Pattern[str]) -> re.Match[str]:
        found = pattern.match(self.text, self.at)
        if not found:
            raise ValueError(f"no type at {self.at} of {self.text}")
        self.at = found.end()
        return found

    def type(self) -> Type:
        dtype = self.base()
        return dataclasses.replace(dtype, is_nullable=True) if self.has("?") else dtype

    def base(self) -> Type:
        if self.has("list("):
            item = self.type()
            self.has(")")
            return Type("list", item=item)
        if self.has("fixed_size_list("):
            item = self.type()
            self.has(")[")
            length = int(self.matched(re.compile(r"[0-9]+")).group())
            self.has("]")
            return Type("fixed_size_list", item=item, length=length)
        if self.has("{"):
            return Type("struct", fields=tuple(self.fields()))
        if self.text.startswith("decimal", self.at):
            precision, scale = self.matched(_DECIMAL).groups()
            return Type("decimal", precision=int(precision), scale=int(scale))
        if self.text.startswith("timestamp", self.at):
            unit, zone = self.matched(_TIMESTAMP).groups()
            return Type("timestamp", unit=unit, zone=None if zone is None else zone.replace('""', '"'))
        return Type(self.matched(_ATOM).group())

    def fields(self) -> List[Tuple[str, Type]]:
        fields: List[Tuple[str, Type]] = []
        while not self.has("}"):
            name = self.matched(_NAME)
            quoted = name.group(1)
            self.has("=")
            word = name.group(2) if quoted is None else quoted.replace("``", "`")
            fields.append((word, self.type()))
            self.has(", ")
        return fields


def type_of(text: str) -> Type:
    """The type that the library wrote so.

    >>> str(type_of("{a=list(i32?)?, `b c`=utf8}"))
    '{a=list(i32?)?, `b c`=utf8}'
    """
    return _Reader(text).type()


def to_json(value: Any) -> Any:
    """The value as a record has it: bytes as a text of hexadecimal digits, and decimals, days, instants, NaN and the
    infinities as their texts.

    >>> to_json({"a": b"\\x01\\xff", "b": datetime.date(2024, 1, 31), "c": decimal.Decimal("9.50")})
    {'a': '0x01ff', 'b': '2024-01-31', 'c': '9.50'}
    """
    value = _numpy.plain(value)
    if isinstance(value, float):
        return _floats.to_json(value)
    if _numpy.is_instant(value):
        return str(value)
    if isinstance(value, datetime.date):
        return value.isoformat()
    if isinstance(value, decimal.Decimal):
        return format(value, "f")
    if isinstance(value, (bytes, bytearray, memoryview)):
        return "0x" + bytes(value).hex()
    if isinstance(value, dict):
        return {name: to_json(inner) for name, inner in value.items()}
    if isinstance(value, (list, tuple)):
        return [to_json(inner) for inner in value]
    return value


def from_json(value: Any, dtype: Type) -> Any:
    """The value of that type which a record has so.

    >>> from_json(["0x01"], type_of("list(binary)"))
    [b'\\x01']
    >>> from_json("2024-01-31", type_of("date"))
    datetime.date(2024, 1, 31)

    A number stands for a day or an instant outside the years 1 to 9999. An instant with parts of a microsecond stays a text.
    """
    if value is None:
        return None
    if dtype.kind in _floats.LETTERS:
        return _floats.from_json(value, dtype.kind)
    if dtype.kind == "decimal":
        return decimal.Decimal(value)
    if dtype.kind in ("date", "timestamp") and isinstance(value, str):
        return _day_or_instant(value, dtype)
    if dtype.kind == "binary":
        return bytes.fromhex(value[2:])
    if dtype.item is not None:
        return [from_json(inner, dtype.item) for inner in value]
    if dtype.kind == "struct":
        return {name: from_json(value[name], inner) for name, inner in dtype.fields}
    return value


def _day_or_instant(text: str, dtype: Type) -> Any:
    if dtype.kind == "date":
        return datetime.date.fromisoformat(text)
    clock, _, part = text.rstrip("Z").partition(".")
    if part[6:].strip("0"):
        return text
    instant = datetime.datetime.fromisoformat(clock) + datetime.timedelta(microseconds=int(part[:6].ljust(6, "0")))
    return instant if dtype.zone is None else instant.replace(tzinfo=datetime.timezone.utc)


def values_of(page: str, dtype: Type) -> List[Any]:
    """The values of that type which the lines of JSON have.

    >>> values_of("1\\nnull\\n", type_of("i32?"))
    [1, None]
    >>> values_of("9.50\\n", type_of("decimal(4, 2)")), values_of("9.5\\n", type_of("f64"))
    ([Decimal('9.50')], [9.5])
    """
    lines = page.split("\n")[:-1]
    return [from_json(json.loads(line, parse_float=decimal.Decimal), dtype) for line in lines]
