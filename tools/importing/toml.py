"""Texts of TOML."""
from __future__ import annotations

import re
from typing import Union

Value = Union[str, int, bool, list, dict]

_BARE_KEY = re.compile(r"[A-Za-z0-9_-]+")
_ESCAPES = {'"': '\\"', "\\": "\\\\", "\n": "\\n", "\r": "\\r", "\t": "\\t"}
_ESCAPED = re.compile(r'["\\\x00-\x1f\x7f]')


def quoted(text: str) -> str:
    """A text in quotes."""
    return '"' + _ESCAPED.sub(_escape, text) + '"'


def _escape(found: re.Match[str]) -> str:
    return _ESCAPES.get(found[0], f"\\u{ord(found[0]):04X}")


def _key(text: str) -> str:
    return text if _BARE_KEY.fullmatch(text) else quoted(text)


def _value(value: Value) -> str:
    if isinstance(value, bool):
        return "true" if value else "false"
    if isinstance(value, int):
        return str(value)
    if isinstance(value, str):
        return quoted(value)
    if isinstance(value, list):
        return "[" + ", ".join(_value(item) for item in value) + "]"
    pairs = ", ".join(f"{_key(key)} = {_value(item)}" for key, item in value.items())
    return f"{{ {pairs} }}" if pairs else "{}"


def pair(key: str, value: Value) -> str:
    """A key and its value, a line. A list of tables has a line for each."""
    if isinstance(value, list) and len(value) > 1 and isinstance(value[0], dict):
        items = "".join(f"    {_value(item)},\n" for item in value)
        return f"{_key(key)} = [\n{items}]\n"
    return f"{_key(key)} = {_value(value)}\n"


def table(header: str, values: dict[str, Value]) -> str:
    """A table below its header."""
    return f"{header}\n" + "".join(pair(key, value) for key, value in values.items())
