"""Values of Python from bytes that the library has accepted. Nothing is checked again.

A reader is passed the bytes and the offset of a constructor's last code. It returns the value and the offset after it. It never looks at
that code, because the items of an array share one.
"""

from __future__ import annotations

import dataclasses
import functools
import struct
import uuid
from collections.abc import Iterable
from typing import Any, Callable, Dict, List, Tuple, Union, get_args, get_origin

from . import types
from ._generated import function
from ._library import Type
from ._tables import MESSAGES, Field
from ._values import (
    Array,
    Byte,
    Char,
    Decimal32,
    Decimal64,
    Decimal128,
    Described,
    Int,
    Long,
    Pairs,
    Short,
    Symbol,
    Timestamp,
    Ubyte,
    Uint,
    Ulong,
    Ushort,
)

Reader = Callable[[bytes, int], Tuple[Any, int]]

_size = struct.Struct(">I").unpack_from
_new: Any = object.__new__

# The numbers that the bytes from 0 to 255 are.
_UNSIGNED, _SIGNED = range(256), (*range(128), *range(-128, 0))


# Primitives.


def _constant(value: Any) -> Reader:
    return lambda data, at: (value, at + 1)


def _byte(of: Any, numbers: Iterable[int]) -> Reader:
    """Returns the reader of a number of one byte, as an instance of the class. The instance for each byte is made once."""
    made = [of(number) for number in numbers]
    return lambda data, at: (made[data[at + 1]], at + 2)


def _number(of: Any, layout: str) -> Reader:
    """Returns the reader of a number, as an instance of the class."""
    unpack, width = struct.Struct(">" + layout).unpack_from, 1 + struct.calcsize(layout)
    return lambda data, at: (of(unpack(data, at + 1)[0]), at + width)


def _plain_number(layout: str) -> Reader:
    """Returns the reader of a number, as an int."""
    unpack, width = struct.Struct(">" + layout).unpack_from, 1 + struct.calcsize(layout)
    return lambda data, at: (unpack(data, at + 1)[0], at + width)


def _fixed(width: int, of: Callable[[bytes], Any]) -> Reader:
    """Returns the reader of so many bytes, of which the call makes the value."""
    return lambda data, at: (of(data[at + 1 : at + 1 + width]), at + 1 + width)


def _sized(width: int, of: Callable[[bytes], Any]) -> Reader:
    """Returns the reader of bytes after their number, which itself takes one byte or four."""

    def read_short(data: bytes, at: int) -> Tuple[Any, int]:
        end = at + 2 + data[at + 1]
        return of(data[at + 2 : end]), end

    def read_long(data: bytes, at: int) -> Tuple[Any, int]:
        end = at + 5 + _size(data, at + 1)[0]
        return of(data[at + 5 : end]), end

    return read_short if width == 1 else read_long


def _symbol(raw: bytes) -> Symbol:
    return Symbol(raw, "ascii")


# The same, of which the last results are kept: the same few symbols are read again and again. It is passed at most 255 bytes.
_short_symbol = functools.lru_cache(maxsize=1024)(_symbol)


# Containers.


def _items(data: bytes, at: int, count: int) -> Tuple[List[Any], int]:
    """Reads so many values, one after another."""
    items: List[Any] = []
    for _ in range(count):
        code = data[at]
        if code == 0xA1:
            end = at + 2 + data[at + 1]
            items.append(data[at + 2 : end].decode())
            at = end
        else:
            item, at = _READERS[code](data, at)
            items.append(item)
    return items, at


def _list_short(data: bytes, at: int) -> Tuple[List[Any], int]:
    return _items(data, at + 3, data[at + 2])


def _list_long(data: bytes, at: int) -> Tuple[List[Any], int]:
    return _items(data, at + 9, _size(data, at + 5)[0])


def _mapping(items: List[Any]) -> Union[Dict[Any, Any], Pairs]:
    """Returns a dict of the keys and values in turn, or their pairs if it can't be a dict."""
    keys, values = items[::2], items[1::2]
    try:
        made = dict(zip(keys, values))
    except TypeError:
        return Pairs(zip(keys, values))
    return made if len(made) == len(keys) else Pairs(zip(keys, values))


def _map_short(data: bytes, at: int) -> Tuple[Any, int]:
    items, end = _items(data, at + 3, data[at + 2])
    return _mapping(items), end


def _map_long(data: bytes, at: int) -> Tuple[Any, int]:
    items, end = _items(data, at + 9, _size(data, at + 5)[0])
    return _mapping(items), end


def _array(data: bytes, at: int, count: int, end: int) -> Tuple[Array[Any], int]:
    """Reads so many items of an array, whose constructor is at the offset."""
    if not count:
        return Array((), data[at:end]), end
    start, descriptors = at, []
    while data[at] == 0:
        descriptor, at = _descriptor(data, at + 1)
        descriptors.append(descriptor)
    constructor, reader = data[start : at + 1], _READERS[data[at]]
    items = []
    for _ in range(count):
        item, at = reader(data, at)
        for descriptor in reversed(descriptors):
            item = Described(descriptor, item)
        items.append(item)
        at -= 1
    return Array(items, constructor), end


def _array_short(data: bytes, at: int) -> Tuple[Array[Any], int]:
    return _array(data, at + 3, data[at + 2], at + 2 + data[at + 1])


def _array_long(data: bytes, at: int) -> Tuple[Array[Any], int]:
    return _array(data, at + 9, _size(data, at + 5)[0], at + 5 + _size(data, at + 1)[0])


def _descriptor(data: bytes, at: int) -> Tuple[Union[int, Symbol], int]:
    descriptor, at = _READERS[data[at]](data, at)
    return (descriptor if type(descriptor) is Symbol else int(descriptor)), at


def _described(data: bytes, at: int) -> Tuple[Described, int]:
    descriptor, at = _descriptor(data, at + 1)
    value, at = _READERS[data[at]](data, at)
    return Described(descriptor, value), at


_BY_CODE: Dict[int, Reader] = {
    0x40: _constant(None),
    0x41: _constant(True),
    0x42: _constant(False),
    0x43: _constant(Uint(0)),
    0x44: _constant(Ulong(0)),
    0x50: _byte(Ubyte, _UNSIGNED),
    0x51: _byte(Byte, _SIGNED),
    0x52: _byte(Uint, _UNSIGNED),
    0x53: _byte(Ulong, _UNSIGNED),
    0x54: _byte(Int, _SIGNED),
    0x55: _byte(Long, _SIGNED),
    0x56: _byte(bool, _UNSIGNED),
    0x60: _number(Ushort, "H"),
    0x61: _number(Short, "h"),
    0x70: _number(Uint, "I"),
    0x71: _number(Int, "i"),
    0x73: _number(lambda number: Char(chr(number)), "I"),
    0x74: _fixed(4, Decimal32),
    0x80: _number(Ulong, "Q"),
    0x81: _number(Long, "q"),
    0x83: _number(Timestamp, "q"),
    0x84: _fixed(8, Decimal64),
    0x94: _fixed(16, Decimal128),
    0x98: _fixed(16, lambda raw: uuid.UUID(bytes=raw)),
    0xA0: _sized(1, bytes),
    0xA1: _sized(1, bytes.decode),
    0xA3: _sized(1, _short_symbol),
    0xB0: _sized(4, bytes),
    0xB1: _sized(4, bytes.decode),
    0xB3: _sized(4, _symbol),
    0x45: lambda data, at: ([], at + 1),
    0xC0: _list_short,
    0xD0: _list_long,
    0xC1: _map_short,
    0xD1: _map_long,
    0xE0: _array_short,
    0xF0: _array_long,
    0x00: _described,
}

# The readers by their codes; a code that the library doesn't accept has none.
_READERS: List[Any] = [_BY_CODE.get(code) for code in range(256)]

# The same for a field: its type is known, so that a number of it is a plain one.
_PLAIN: List[Any] = list(_READERS)
_PLAIN[0x43] = _PLAIN[0x44] = _constant(0)
_PLAIN[0x50] = _PLAIN[0x52] = _PLAIN[0x53] = lambda data, at: (data[at + 1], at + 2)
_PLAIN[0x60], _PLAIN[0x70], _PLAIN[0x80] = _plain_number("H"), _plain_number("I"), _plain_number("Q")


def term(data: bytes, at: int = 0) -> Tuple[Any, int]:
    """Reads a term of any kind."""
    return _READERS[data[at]](data, at)  # type: ignore[no-any-return]


# Fields.


def _choice(of: Any) -> Reader:
    """Returns the reader of a restricted type."""
    members = {member.value: member for member in of}

    def read(data: bytes, at: int) -> Tuple[Any, int]:
        value, at = _PLAIN[data[at]](data, at)
        return members[value], at

    return read


_CONDITIONS: Dict[str, Any] = {
    member.value: member for of in get_args(types.ErrorCondition) if of is not str for member in of
}


def _condition(data: bytes, at: int) -> Tuple[Any, int]:
    text, at = term(data, at)
    return _CONDITIONS.get(text, text), at


def _several(of: Any) -> Reader:
    """Returns the reader of a field of several values."""
    members = {member.value: member for member in of} if of in types.RESTRICTED else {}

    def read(data: bytes, at: int) -> Tuple[List[Any], int]:
        items, at = term(data, at)
        return [members.get(item, item) for item in items], at

    return read


def _unsettled(data: bytes, at: int) -> Tuple[Dict[bytes, Any], int]:
    """Reads states by their tags."""
    count, at = (data[at + 2], at + 3) if data[at] == 0xC1 else (_size(data, at + 5)[0], at + 9)
    found = {}
    for _ in range(count // 2):
        tag, at = term(data, at)
        found[tag], at = (None, at + 1) if data[at] == 0x40 else described(data, at)
    return found, at


_FIELDS: Dict[Any, Reader] = {
    types.MessageId: term,
    types.ErrorCondition: _condition,
    types.Unsettled: _unsettled,
    **{of: _choice(of) for of in types.RESTRICTED},
}


def _field_reader(field: Field) -> Any:
    """Returns the reader of a field that isn't null, or None if its code alone says how it is read."""
    if field.is_several:
        return _several(field.type)
    if field.type in _FIELDS:
        return _FIELDS[field.type]
    is_sum = get_origin(field.type) is Union
    return described if is_sum or field.type in types.COMPOSITES else None


# Composites. The reader of a class is generated when the first composite of the class is read.

_SIZED = ("start = at + 2", "at = start + data[at + 1]")
_TEXT: Dict[int, Tuple[str, ...]] = {0xA1: (*_SIZED, "{it} = data[start:at].decode()")}

# The lines that read a field of a type in its likeliest encodings, by their codes. They set `at` to the offset after the field.
_LINES: Dict[Any, Dict[int, Tuple[str, ...]]] = {
    str: _TEXT,
    types.MessageId: _TEXT,
    Symbol: {0xA3: (*_SIZED, "{it} = short_symbol(data[start:at])")},
    bytes: {0xA0: (*_SIZED, "{it} = data[start:at]")},
    Ubyte: {0x50: ("{it} = data[at + 1]", "at += 2")},
    Uint: {0x52: ("{it} = data[at + 1]", "at += 2")},
    Timestamp: {0x83: ("{it} = Timestamp(milliseconds(data, at + 1)[0])", "at += 9")},
    bool: {0x41: ("{it} = True", "at += 1"), 0x42: ("{it} = False", "at += 1")},
}

# The lines that set `at` to the offset of the first field, and `end` to that after the last.
_FIRST_LINES = (
    "code = data[at]",
    "if code == 0xC0:",
    "    end = at + 2 + data[at + 1]",
    "    at += 3",
    "elif code == 0x45:",
    "    return made, at + 1",
    "else:",
    "    end = at + 5 + size(data, at + 1)[0]",
    "    at += 9",
)

# What the lines know, besides the class, its default values and the readers of its fields.
_KNOWN: Dict[str, Any] = {
    "new": _new,
    "size": _size,
    "milliseconds": struct.Struct(">q").unpack_from,
    "Timestamp": Timestamp,
    "short_symbol": _short_symbol,
    "plain": _PLAIN,
}


def _field_lines(field: Field, otherwise: str) -> List[str]:
    """Returns the lines that read a field. If it isn't in one of its likeliest encodings, this call reads it."""
    cases = {} if field.is_several else dict(_LINES.get(field.type, {}))
    lines = ["code = data[at]"]
    if not field.is_mandatory:
        lines = ["if at == end:", "    return made, at", *lines]
        cases[0x40] = ("at += 1",)
    for number, (code, inner) in enumerate(cases.items()):
        lines += [f"{'elif' if number else 'if'} code == 0x{code:02X}:", *(f"    {line}" for line in inner)]
    lines += ["else:", f"    {{it}}, at = {otherwise}"] if cases else [f"{{it}}, at = {otherwise}"]
    return [line.format(it=f"made.{field.attribute}") for line in lines]


def _composite_reader(of: Any) -> Reader:
    """Generates the reader of a composite of the class, after its descriptor."""
    lines, known = ["made = new(of)"], {**_KNOWN, "of": of}
    for attribute in dataclasses.fields(of):
        lines.append(f"made.{attribute.name} = default_{attribute.name}")
        known[f"default_{attribute.name}"] = getattr(of, attribute.name, None)
    lines += _FIRST_LINES
    for field in of.FIELDS:
        known[f"read_{field.attribute}"] = reader = _field_reader(field)
        lines += _field_lines(field, f"read_{field.attribute}(data, at)" if reader else "plain[code](data, at)")
    return function(of, "def read(data, at):", [*lines, "return made, at"], known)


def _first_reader(of: Any) -> Reader:
    """Returns what generates the reader of the class, puts it in the place of this one, and calls it."""

    def read(data: bytes, at: int) -> Tuple[Any, int]:
        reader = _DESCRIBED[of.DESCRIPTOR[0]] = _composite_reader(of)
        return reader(data, at)

    return read


# Sections and messages.


def _map_section(of: Any) -> Reader:
    """Returns the reader of a section that is a map, after its descriptor."""

    def read(data: bytes, at: int) -> Tuple[Any, int]:
        if data[at] == 0xC1:
            end, at = at + 2 + data[at + 1], at + 3
        else:
            end, at = at + 5 + _size(data, at + 1)[0], at + 9
        made = of()
        while at < end:
            code = data[at]
            if code == 0xA1:
                start = at + 2
                at = start + data[at + 1]
                key = data[start:at].decode()
            else:
                key, at = _READERS[code](data, at)
            code = data[at]
            if code == 0xA1:
                start = at + 2
                at = start + data[at + 1]
                made[key] = data[start:at].decode()
            else:
                made[key], at = _READERS[code](data, at)
        return made, at

    return read


def _value_section(of: Any) -> Reader:
    """Returns the reader of any other section, after its descriptor."""

    def read(data: bytes, at: int) -> Tuple[Any, int]:
        made = _new(of)
        made.value, at = _READERS[data[at]](data, at)
        return made, at

    return read


# The readers of composites and of sections after their descriptors, by these.
_DESCRIBED: List[Any] = [None] * 256
for _of in types.COMPOSITES:
    _DESCRIBED[_of.DESCRIPTOR[0]] = _first_reader(_of)
for _of in types.SECTIONS:
    _DESCRIBED[_of.DESCRIPTOR[0]] = _map_section(_of) if issubclass(_of, dict) else _value_section(_of)


def described(data: bytes, at: int) -> Tuple[Any, int]:
    """Reads a composite or a section of a canonical text, whose descriptor is a number of one byte."""
    return _DESCRIBED[data[at + 2]](data, at + 3)  # type: ignore[no-any-return]


def _sections(data: bytes) -> List[Any]:
    """Reads sections to the end of the bytes."""
    at, found = 0, []
    while at < len(data):
        section, at = described(data, at)
        found.append(section)
    return found


def _body(found: List[Any]) -> Any:
    """Returns the body of these sections: a list of them, unless there is one."""
    return found[0] if len(found) == 1 else found


def message(data: bytes, body: Callable[[List[Any]], Any] = _body) -> types.Message:
    """Reads a message of a canonical text: its sections are in the standard's order, and it has a body."""
    made, at, code = types.Message(body=None), 0, data[2]  # type: ignore[arg-type]
    if code == 0x70:
        made.header, at = _DESCRIBED[code](data, at + 3)
        code = data[at + 2]
    if code == 0x71:
        made.delivery_annotations, at = _DESCRIBED[code](data, at + 3)
        code = data[at + 2]
    if code == 0x72:
        made.message_annotations, at = _DESCRIBED[code](data, at + 3)
        code = data[at + 2]
    if code == 0x73:
        made.properties, at = _DESCRIBED[code](data, at + 3)
        code = data[at + 2]
    if code == 0x74:
        made.application_properties, at = _DESCRIBED[code](data, at + 3)
    bodies, end = [], len(data)
    while at < end:
        code = data[at + 2]
        section, at = _DESCRIBED[code](data, at + 3)
        if code == 0x78:
            made.footer = section
        else:
            bodies.append(section)
    made.body = body(bodies)
    return made


# Types.


def _first(reader: Reader) -> Callable[[bytes], Any]:
    return lambda data: reader(data, 0)[0]


def _reader_of(of: Type) -> Callable[[bytes], Any]:
    """Returns what reads the canonical text of a value of the type."""
    if of in (Type.MESSAGE_BATCH, Type.STRICT_MESSAGE_BATCH):
        return lambda data: message(data, list)
    if of in MESSAGES:
        return message
    if of in (Type.BATCH_DATA, Type.BATCH_SEQUENCE):
        return _sections
    if of is Type.BODY:
        return lambda data: _body(_sections(data))
    if of in (Type.ANNOTATIONS, Type.BOOLEAN, Type.MESSAGE_ID, Type.SIMPLE_VALUE, Type.VALUE):
        return _first(term)
    return _first(_condition if of is Type.ERROR_CONDITION else described)


TYPES: Dict[int, Callable[[bytes], Any]] = {of: _reader_of(of) for of in Type}
