"""Bytes that encode values of Python. The library makes them canonical, or refuses them. So each is written in the simplest form."""

from __future__ import annotations

import datetime
import reprlib
import struct
import uuid
from collections.abc import Iterable, Mapping
from typing import Any, Callable, Dict, List, NamedTuple, NoReturn, Tuple, Union, get_args, get_origin

from . import types
from ._generated import function
from ._library import Type
from ._tables import MESSAGES, Composite, Field, MapSection, Section
from ._values import (
    Array,
    Byte,
    Char,
    DecimalBytes,
    Described,
    Int,
    Long,
    Pairs,
    Short,
    Symbol,
    Timestamp,
    Ubyte,
    Uint,
    Ulong,
    Ushort,
)

Writer = Callable[[Any], bytes]

_NULL = b"\x40"
_size = struct.Struct(">I").pack
_row_head = struct.Struct(">BII").pack
_composite_head = struct.Struct(">4sII").pack


class EncodeError(ValueError):
    """A value of Python can't be written: it isn't of the type that is wanted, is out of its range, or has no type of AMQP.

    The text says where the value is, as `Attach.source: Source.timeout: -1 is no uint`.
    """


def _unfit(value: Any, wanted: str) -> EncodeError:
    return EncodeError(f"{reprlib.repr(value)} is no {wanted}")


# Primitives.


def _number(name: str, code: int, layout: str) -> Writer:
    """Returns the writer of a number."""
    pack = struct.Struct(">B" + layout).pack

    def write_number(value: Any) -> bytes:
        try:
            return pack(code, value)
        except struct.error:
            raise _unfit(value, name) from None

    return write_number


# What makes bytes of a text and of a binary. They raise a TypeError for anything else. Whether a symbol is ASCII, the library checks.
_text_bytes: Callable[[Any], bytes] = str.encode
_binary_bytes: Callable[[Any], bytes] = b"".__add__


def _heads(code: int, start: bytes = b"") -> List[bytes]:
    """Returns the start, the format code and the size of bytes, by their number of at most 255."""
    return [start + bytes([code, size]) for size in range(256)]


def _sized(name: str, code: int, bytes_of: Callable[[Any], bytes], start: bytes = b"") -> Writer:
    """Returns the writer of bytes after a start and their number, which itself takes one byte if it can."""
    heads, write_long = _heads(code, start), _long(name, code + 0x10, bytes_of, start)

    def write_sized(value: Any) -> bytes:
        try:
            raw = bytes_of(value)
        except (TypeError, UnicodeEncodeError):
            raise _unfit(value, name) from None
        try:
            return heads[len(raw)] + raw
        except IndexError:
            return write_long(value)

    return write_sized


def _long(name: str, code: int, bytes_of: Callable[[Any], bytes], start: bytes = b"") -> Writer:
    """Returns the writer of bytes after a start and their number, which itself takes four bytes."""

    def write_long(value: Any) -> bytes:
        try:
            raw = bytes_of(value)
        except (TypeError, UnicodeEncodeError):
            raise _unfit(value, name) from None
        return b"%b%c%b%b" % (start, code, _size(len(raw)), raw)

    return write_long


_ubyte, _ushort = _number("ubyte", 0x50, "B"), _number("ushort", 0x60, "H")
_uint, _ulong = _number("uint", 0x70, "I"), _number("ulong", 0x80, "Q")
_long_number, _timestamp = _number("long", 0x81, "q"), _number("timestamp", 0x83, "q")
_string, _symbol = _sized("string", 0xA1, _text_bytes), _sized("symbol", 0xA3, _text_bytes)
_binary, _long_binary = _sized("binary", 0xA0, _binary_bytes), _long("binary", 0xB0, _binary_bytes)


def _null(_: Any) -> bytes:
    return _NULL


def _boolean(value: Any) -> bytes:
    if value is True:
        return b"\x41"
    if value is False:
        return b"\x42"
    raise _unfit(value, "boolean")


def _char(value: str) -> bytes:
    if len(value) != 1:
        raise _unfit(value, "char")
    return b"\x73" + _size(ord(value))


def _decimal(value: DecimalBytes) -> bytes:
    code = {4: 0x74, 8: 0x84, 16: 0x94}.get(len(value.raw))
    if code is None:
        raise _unfit(value, "decimal number of 4, 8 or 16 bytes")
    return b"%c%b" % (code, value.raw)


def _uuid(value: uuid.UUID) -> bytes:
    return b"\x98" + value.bytes


# Containers.


def _row(code: int, count: int, content: bytes) -> bytes:
    """Returns a list, a map or an array of so many values."""
    return _row_head(code, len(content) + 4, count) + content


def _list(value: Iterable[Any]) -> bytes:
    parts = [_WRITERS[type(item)](item) for item in value]
    return _row(0xD0, len(parts), b"".join(parts))


def _pairs_of(value: Any) -> Iterable[Tuple[Any, Any]]:
    if isinstance(value, (dict, Mapping)):
        return value.items()
    if isinstance(value, Pairs):
        return value
    raise _unfit(value, "map")


class _Keys(Dict[str, bytes]):
    """The texts of the last keys of maps, and what they were written as: the same few keys are written again and again."""

    def __init__(self, write_key: Writer) -> None:
        self.write_key = write_key

    def __missing__(self, key: str) -> bytes:
        written = self.write_key(key)
        if len(self) >= 1024:
            self.clear()
        if len(written) < 256:
            self[key] = written
        return written


def _map_of(write_key: Writer, start: bytes = b"", pairs_of: Callable[[Any], Iterable[Tuple[Any, Any]]] = _pairs_of) -> Writer:
    """Returns the writer of a map, from a dict or from pairs, after a start."""
    keys, start, head = _Keys(write_key), start + b"\xd1", struct.Struct(f">{len(start) + 1}sII").pack

    def write_map(value: Any) -> bytes:
        parts: List[bytes] = []
        for key, item in value.items() if isinstance(value, dict) else pairs_of(value):
            parts.append(keys[key] if type(key) is str else write_key(key))
            parts.append(_WRITERS[type(item)](item))
        content = b"".join(parts)
        return head(start, len(content) + 4, len(parts)) + content

    return write_map


def _descriptor(value: Union[int, str]) -> bytes:
    return b"\x00" + (_symbol(value) if isinstance(value, str) else _ulong(value))


def _described(value: Described) -> bytes:
    return _descriptor(value.descriptor) + write(value.value)


def _array(value: Array[Any]) -> bytes:
    return _array_of([_as_item(item) for item in value]) if value else _row(0xF0, 0, value.constructor or _NULL)


def _array_of(items: List[Tuple[bytes, bytes]]) -> bytes:
    """Returns the array of items, each of which is its constructor and its content."""
    constructor = items[0][0]
    if any(other != constructor for other, _ in items):
        raise EncodeError("the items of an array aren't of one type")
    return _row(0xF0, len(items), constructor + b"".join([content for _, content in items]))


def _as_item(value: Any) -> Tuple[bytes, bytes]:
    """Returns the constructor and the content of a value that is an item of an array."""
    if isinstance(value, Described):
        constructor, content = _as_item(value.value)
        return _descriptor(value.descriptor) + constructor, content
    if isinstance(value, Composite):
        whole = _composite(value)
        return whole[:4], whole[4:]
    if isinstance(value, (bool, types.Role)):
        return b"\x56", b"\x01" if write(value) == b"\x41" else b"\x00"
    writer = next((_ITEM_WRITERS[of] for of in _ITEM_WRITERS if isinstance(value, of)), write)
    whole = writer(value)
    return whole[:1], whole[1:]


# Values of any type.


def _refused_float(value: float) -> NoReturn:
    raise EncodeError(f"{value!r} is a float, which the library doesn't write")


def _refused_datetime(value: datetime.datetime) -> NoReturn:
    raise EncodeError(f"{value!r} isn't written; Timestamp.from_datetime makes a timestamp of it")


def _refused_section(value: Any) -> NoReturn:
    raise EncodeError(f"{reprlib.repr(value)} is a section, which can't be in another value")


def write(value: Any) -> bytes:
    """Returns a term of any type."""
    return _WRITERS[type(value)](value)


def _refused(value: Any) -> NoReturn:
    raise _unfit(value, "value of AMQP")


class _Writers(Dict[type, Writer]):
    """Writers by the classes of values."""

    def __missing__(self, of: type) -> Writer:
        """Returns the writer of the nearest class above the class, and keeps it for the class."""
        above = next((it for it in of.__mro__ if it in self), None)
        return _refused if above is None else self.setdefault(of, self[above])


class _Composites(Dict[type, Writer]):
    """The writers of composites by their classes. Each is generated when the first composite of its class is written."""

    def __missing__(self, of: Any) -> Writer:
        return self.setdefault(of, _composite_writer(of))


_COMPOSITES = _Composites()


def _composite(value: Composite) -> bytes:
    return _COMPOSITES[type(value)](value)


_any_map = _map_of(write)

_WRITERS = _Writers({
    type(None): _null,
    bool: _boolean,
    int: _long_number,
    Ubyte: _ubyte,
    Ushort: _ushort,
    Uint: _uint,
    Ulong: _ulong,
    Byte: _number("byte", 0x51, "b"),
    Short: _number("short", 0x61, "h"),
    Int: _number("int", 0x71, "i"),
    Long: _long_number,
    Timestamp: _timestamp,
    float: _refused_float,
    datetime.datetime: _refused_datetime,
    str: _string,
    Char: _char,
    Symbol: _symbol,
    bytes: _binary,
    bytearray: _binary,
    memoryview: _binary,
    DecimalBytes: _decimal,
    uuid.UUID: _uuid,
    list: _list,
    tuple: _list,
    dict: _any_map,
    Pairs: _any_map,
    Array: _array,
    Described: _described,
    Composite: _composite,
    Section: _refused_section,
    MapSection: _refused_section,
    types.Role: lambda value: _boolean(value.value),
})

# The writers of texts and binaries in arrays, where each of one type has the same code.
_ITEM_WRITERS: Dict[type, Writer] = {
    Symbol: _long("symbol", 0xB3, _text_bytes),
    Char: _char,
    str: _long("string", 0xB1, _text_bytes),
    bytes: _long_binary,
    bytearray: _long_binary,
    memoryview: _long_binary,
}


# Fields.

_MESSAGE_IDS: Dict[type, Writer] = {str: _string, int: _ulong, Ulong: _ulong, uuid.UUID: _uuid, bytes: _binary}


def _message_id(value: Any) -> bytes:
    writer = _MESSAGE_IDS.get(type(value))
    if writer is None:
        raise _unfit(value, "message-id")
    return writer(value)


def _annotation_key(value: Any) -> bytes:
    return _symbol(value) if isinstance(value, str) else _ulong(value)


def _role(value: Any) -> bytes:
    return _boolean(value.value if isinstance(value, types.Role) else value)


def _member_of(*members: type) -> Writer:
    """Returns the writer of a composite that is of one of the classes."""
    name = " or ".join(member.__name__ for member in members)

    def write_member(value: Any) -> bytes:
        if not isinstance(value, members):
            raise _unfit(value, name)
        return _COMPOSITES[type(value)](value)

    return write_member


_state = _member_of(*get_args(types.DeliveryState))
_annotations = _map_of(_annotation_key)


def _unsettled(value: Any) -> bytes:
    """Returns a map of states by their tags."""
    parts: List[bytes] = []
    for tag, state in _pairs_of(value):
        parts += (_binary(tag), _NULL if state is None else _state(state))
    return _row(0xD1, len(parts), b"".join(parts))


_FIELDS: Dict[Any, Writer] = {
    bool: _boolean,
    Ubyte: _ubyte,
    Ushort: _ushort,
    Uint: _uint,
    Ulong: _ulong,
    Timestamp: _timestamp,
    str: _string,
    Symbol: _symbol,
    bytes: _binary,
    types.Role: _role,
    types.MessageId: _message_id,
    types.ErrorCondition: _symbol,
    types.Fields: _map_of(_symbol),
    types.Unsettled: _unsettled,
}


def _type_writer(of: Any) -> Writer:
    """Returns the writer of values of a field's type."""
    if of in _FIELDS:
        return _FIELDS[of]
    if of in types.RESTRICTED:
        return next(_FIELDS[base] for base in (Ubyte, Uint, Symbol) if issubclass(of, base))
    return _member_of(*(get_args(of) if get_origin(of) is Union else (of,)))


def _several(of: Any) -> Writer:
    """Returns the writer of a field of several values. A text alone is the one value."""
    write_item = _ITEM_WRITERS[Symbol] if issubclass(of, Symbol) else _type_writer(of)

    def write_several(value: Any) -> bytes:
        items = [write_item(item) for item in ([value] if isinstance(value, str) else value)]
        return _array_of([(item[:1], item[1:]) for item in items]) if items else _NULL

    return write_several


def _field_writer(field: Field) -> Writer:
    return _several(field.type) if field.is_several else _type_writer(field.type)


# Composites. The writer of a class is generated when the first composite of the class is written.


def _sized_lines(raw: str, heads: str) -> Tuple[str, ...]:
    """Returns the lines that write bytes after their number. If it doesn't fit in one byte, the attribute's own writer is called."""
    return (f"raw = {raw}", "try:", f"    {{it}} = {heads}[len(raw)] + raw", "except IndexError:", "    {it} = {write}({it})")


def _class_lines(of: str, lines: Iterable[str]) -> Tuple[str, ...]:
    """Returns the lines, which are for a value of the class. For any other, the attribute's own writer is called."""
    return (f"if type({{it}}) is {of}:", *(f"    {line}" for line in lines), "else:", "    {it} = {write}({it})")


_TEXT = _sized_lines("text_bytes({it})", "text_heads")

# The lines that write the variable of an attribute of a type, if it isn't None.
_LINES: Dict[Any, Iterable[str]] = {
    str: _TEXT,
    Symbol: _sized_lines("text_bytes({it})", "symbol_heads"),
    bytes: _sized_lines("binary_bytes({it})", "binary_heads"),
    bool: ["{it} = true if {it} is True else false if {it} is False else {write}({it})"],
    Ubyte: ["{it} = pack_ubyte(0x50, {it})"],
    Ushort: ["{it} = pack_ushort(0x60, {it})"],
    Uint: ["{it} = pack_uint(0x70, {it})"],
    Timestamp: ["{it} = pack_long(0x83, {it})"],
    types.MessageId: _class_lines("str", _TEXT),
    types.Body: _class_lines("Data", _sized_lines("binary_bytes({it}.value)", "data_heads")),
    **{of: _class_lines(of.__name__, [f"{{it}} = write_{of.__name__}({{it}})"]) for of in types.COMPOSITES},
}

# What the lines know, besides composites and the writers of these and of attributes.
_KNOWN: Dict[str, Any] = {
    "true": b"\x41",
    "false": b"\x42",
    "text_bytes": _text_bytes,
    "binary_bytes": _binary_bytes,
    "text_heads": _heads(0xA1),
    "symbol_heads": _heads(0xA3),
    "binary_heads": _heads(0xA0),
    "data_heads": _heads(0xA0, b"\x00\x53\x75"),
    "pack_ubyte": struct.Struct(">BB").pack,
    "pack_ushort": struct.Struct(">BH").pack,
    "pack_uint": struct.Struct(">BI").pack,
    "pack_long": struct.Struct(">Bq").pack,
    "join": b"".join,
    "head": _composite_head,
    "faults": (EncodeError, TypeError, UnicodeEncodeError, struct.error),
    "unfit": _unfit,
    "Data": types.Data,
    "Message": types.Message,
}


class _Attribute(NamedTuple):
    """An attribute that is written: its name, its own writer, and its type, by which it may have lines that write it faster."""

    name: str
    writer: Writer
    type: Any = None

    def lines(self, it: str, none: bytes) -> List[str]:
        """Returns the lines that write the attribute to the variable, and None as these bytes."""
        lines = _LINES.get(self.type, ["{it} = {write}({it})"])
        inner = [f"    {line.format(it=it, write=f'write_{it}')}" for line in lines]
        return [f"{it} = value.{self.name}", f"if {it} is None:", f"    {it} = {none!r}", "else:", *inner]

    def known(self, it: str) -> Dict[str, Any]:
        """Returns what these lines know of the attribute."""
        found: Dict[str, Any] = {f"write_{it}": self.writer}
        if self.type in types.COMPOSITES:
            found.update({self.type.__name__: self.type, f"write_{self.type.__name__}": _COMPOSITES[self.type]})
        return found

    def fault(self, value: Any, error: Exception) -> EncodeError:
        """Returns the error that the attribute of the value can't be written, because of this error. Its own writer knows why."""
        if not isinstance(error, EncodeError):
            try:
                self.writer(getattr(value, self.name))
            except (EncodeError, TypeError) as found:
                error = found
        return EncodeError(f"{type(value).__name__}.{self.name}: {error}")


def _generated(of: Any, attributes: List[_Attribute], none: bytes, first: str, last: str) -> Writer:
    """Generates the writer of a class: it has the first line, writes each attribute, joins these bytes as `content`, and has the last line.

    The attribute that can't be written is the last whose variable is set.
    """
    by_variable = {f"field_{number}": attribute for number, attribute in enumerate(attributes)}
    lines, known = [first, "try:", "    pass"], dict(_KNOWN)
    for it, attribute in by_variable.items():
        lines += [f"    {line}" for line in attribute.lines(it, none)]
        known.update(attribute.known(it))
    lines += ["except faults as error:", "    raise fault(value, locals(), error) from None"]
    lines += [f"content = join(({''.join(f'{it}, ' for it in by_variable)}))", last]
    known["fault"] = lambda value, names, error: attributes[sum(it in names for it in by_variable) - 1].fault(value, error)
    return function(of, "def write(value):", lines, known)


def _composite_writer(of: Any) -> Writer:
    """Generates the writer of a composite: under its descriptor's number, as a list with a size of four bytes."""
    attributes = [_Attribute(field.attribute, _field_writer(field), None if field.is_several else field.type) for field in of.FIELDS]
    start = b"\x00\x53%c\xd0" % of.DESCRIPTOR[0]
    return _generated(of, attributes, _NULL, "pass", f"return head({start!r}, len(content) + 4, {len(attributes)}) + content")


# Sections and messages.

_KEYS: Dict[Type, Writer] = {
    Type.APPLICATION_PROPERTIES: _string,
    Type.DELIVERY_ANNOTATIONS: _annotation_key,
    Type.MESSAGE_ANNOTATIONS: _annotation_key,
    Type.FOOTER: _annotation_key,
}


def _section_pairs(value: Any) -> Iterable[Tuple[Any, Any]]:
    return _pairs_of(_content(value))


def _content(value: Any) -> Any:
    """Returns what is in a section, or the value itself if it is none."""
    return value.value if isinstance(value, Section) else value


def _section_writer(of: Any) -> Writer:
    """Returns the writer of a section of the class, from a section or from what is in one."""
    start = b"\x00\x53%c" % of.DESCRIPTOR[0]
    if of.TYPE in _KEYS:
        return _map_of(_KEYS[of.TYPE], start, _section_pairs)
    if of is types.Data:
        write_data = _sized("binary", 0xA0, _binary_bytes, start)
        return lambda value: write_data(_content(value))
    write_content = _list if of is types.AmqpSequence else write
    return lambda value: start + write_content(_content(value))


_SECTIONS: Dict[type, Writer] = {of: _section_writer(of) for of in types.SECTIONS}


def _batch(*of: type) -> Writer:
    """Returns the writer of a list of sections of one of the classes."""

    def write_batch(value: Any) -> bytes:
        found = {type(section) for section in value}
        if len(found) > 1 or not found.issubset(of):
            raise _unfit(value, f"list of {' or of '.join(it.__name__ for it in of)}")
        return b"".join([_SECTIONS[type(section)](section) for section in value])

    return write_batch


_any_batch = _batch(types.Data, types.AmqpSequence)


def _body(value: Any) -> bytes:
    if isinstance(value, (list, tuple)):
        return _any_batch(value)
    if type(value) in (types.Data, types.AmqpSequence, types.AmqpValue):
        return _SECTIONS[type(value)](value)
    raise _unfit(value, "body of a message")


_MESSAGE = [
    _Attribute("header", _member_of(types.Header), types.Header),
    _Attribute("delivery_annotations", _SECTIONS[types.DeliveryAnnotations]),
    _Attribute("message_annotations", _SECTIONS[types.MessageAnnotations]),
    _Attribute("properties", _member_of(types.Properties), types.Properties),
    _Attribute("application_properties", _SECTIONS[types.ApplicationProperties]),
    _Attribute("body", _body, types.Body),
    _Attribute("footer", _SECTIONS[types.Footer]),
]


def _message(value: Any) -> bytes:
    """Generates the writer of messages, puts it in the place of this one, and calls it."""
    check = "if not isinstance(value, Message): raise unfit(value, 'message')"
    writer = _generated(types.Message, _MESSAGE, b"", check, "return content")
    TYPES.update({of: writer for of in MESSAGES})
    return writer(value)


# Types.

_OWN_TYPES: Dict[type, Type] = {**{of: of.TYPE for of in (*types.COMPOSITES, *types.SECTIONS)}, types.Message: Type.MESSAGE}


def type_of(value: Any) -> Type:
    """Returns the type that a value is written as if none is named."""
    own = _OWN_TYPES.get(type(value))
    if own is not None:
        return own
    if isinstance(value, (Composite, Section, MapSection)):
        return value.TYPE
    return Type.MESSAGE if isinstance(value, types.Message) else Type.VALUE


TYPES: Dict[int, Writer] = {
    **{of: _message if of in MESSAGES else write for of in Type},
    **{of.TYPE: _SECTIONS[of] for of in types.SECTIONS},
    Type.ANNOTATIONS: _annotations,
    Type.BATCH_DATA: _batch(types.Data),
    Type.BATCH_SEQUENCE: _batch(types.AmqpSequence),
    Type.BODY: _body,
    Type.BOOLEAN: _boolean,
    Type.ERROR_CONDITION: _symbol,
    Type.MESSAGE_ID: _message_id,
}
