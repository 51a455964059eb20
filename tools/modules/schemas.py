"""A small checker of JSON Schema: the words that the schemas in docs/ use, and no others.

Begin with `faults`. A word that it doesn't know is a fault too, so no schema says more than is
checked.
"""

from __future__ import annotations

import json
import re
from typing import Any, Callable, Dict, Iterator

KINDS: Dict[str, Callable[[Any], bool]] = {
    "object": lambda it: isinstance(it, dict), "array": lambda it: isinstance(it, list),
    "string": lambda it: isinstance(it, str), "boolean": lambda it: isinstance(it, bool),
    "null": lambda it: it is None,
    "integer": lambda it: isinstance(it, int) and not isinstance(it, bool),
    "number": lambda it: isinstance(it, (int, float)) and not isinstance(it, bool)}
NOTES = {"$schema", "$defs", "title", "description"}


def read(path: str) -> Any:
    """Returns a schema."""
    with open(path, encoding="utf-8") as file:
        return json.load(file)


def faults(schema: Any, value: Any, root: Any = None, place: str = "it") -> Iterator[str]:
    """Yields what of a value isn't as the schema says."""
    root = schema if root is None else root
    if isinstance(schema, bool):
        if not schema:
            yield f"{place}: it may not be there"
        return
    for word, given in schema.items():
        if word in NOTES:
            continue
        if word == "$ref":
            yield from faults(root["$defs"][given.rpartition("/")[2]], value, root, place)
        elif word in WORDS:
            yield from WORDS[word](schema, value, root, place)
        else:
            yield f"{place}: the checker doesn't know `{word}`"


def of_kind(schema: Any, value: Any, _root: Any, place: str) -> Iterator[str]:
    kinds = schema["type"] if isinstance(schema["type"], list) else [schema["type"]]
    if not any(KINDS[it](value) for it in kinds):
        yield f"{place}: {value!r:.60} is none of {kinds}"


def of_choice(schema: Any, value: Any, _root: Any, place: str) -> Iterator[str]:
    choice = schema.get("enum", [schema.get("const")])
    if not any(value == it and type(value) is type(it) for it in choice):
        yield f"{place}: {value!r:.60} is none of {choice}"


def of_size(schema: Any, value: Any, _root: Any, place: str) -> Iterator[str]:
    if KINDS["number"](value) and not (schema.get("minimum", value) <= value
                                       <= schema.get("maximum", value)):
        yield f"{place}: {value} is out of range"
    if isinstance(value, list) and not (schema.get("minItems", 0) <= len(value)
                                        <= schema.get("maxItems", len(value))):
        yield f"{place}: it has {len(value)} elements"


def of_pattern(schema: Any, value: Any, _root: Any, place: str) -> Iterator[str]:
    if isinstance(value, str) and not re.search(schema["pattern"], value):
        yield f"{place}: {value!r:.60} doesn't fit {schema['pattern']}"


def of_keys(schema: Any, value: Any, root: Any, place: str) -> Iterator[str]:
    if not isinstance(value, dict):
        return
    known = schema.get("properties", {})
    yield from (f"{place}: `{it}` is missing" for it in schema.get("required", ())
                if it not in value)
    for name, it in value.items():
        more = known.get(name, schema.get("additionalProperties", True))
        yield from faults(more, it, root, f"{place}.{name}")


def of_elements(schema: Any, value: Any, root: Any, place: str) -> Iterator[str]:
    if not isinstance(value, list):
        return
    first = schema.get("prefixItems", [])
    for k, it in enumerate(value):
        kind = first[k] if k < len(first) else schema.get("items", True)
        yield from faults(kind, it, root, f"{place}[{k}]")


# `properties` and `prefixItems` are checked with the words beside which they stand.
def beside(*_: Any) -> Iterator[str]:
    return iter(())


WORDS: Dict[str, Callable[..., Iterator[str]]] = {
    "type": of_kind, "enum": of_choice, "const": of_choice, "minimum": of_size,
    "maximum": beside, "minItems": of_size, "maxItems": beside, "pattern": of_pattern,
    "required": of_keys, "properties": beside, "additionalProperties": beside,
    "items": of_elements, "prefixItems": beside}
