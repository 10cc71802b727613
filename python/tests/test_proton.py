"""Messages of Proton's Python client are read with Proton's own values, and Proton reads what is written with the same values.

The Debian package `python3-qpid-proton` has the client. Without it these tests are skipped.
"""

from __future__ import annotations

import dataclasses
import datetime
import uuid
from typing import Any, Dict, List, Tuple

import pytest
from values import Maker, same

from amqp_canonical import (
    Array,
    Byte,
    Char,
    Decimal32,
    Decimal64,
    Decimal128,
    Described,
    Int,
    Long,
    Short,
    Symbol,
    Timestamp,
    Ubyte,
    Uint,
    Ulong,
    Ushort,
    decode_message,
    encode,
    types,
)

proton = pytest.importorskip("proton")
Data = proton.Data

U = uuid.UUID("00112233-4455-6677-8899-aabbccddeeff")
MOMENT = 1_700_000_000_123

# A value of each type as Proton has it, and as this package has it. Proton's int is a long.
VALUES: Dict[str, Tuple[Any, Any]] = {
    "null": (None, None),
    "true": (True, True),
    "false": (False, False),
    "ubyte": (proton.ubyte(255), Ubyte(255)),
    "ushort": (proton.ushort(65535), Ushort(65535)),
    "uint": (proton.uint(2**32 - 1), Uint(2**32 - 1)),
    "uint of one byte": (proton.uint(7), Uint(7)),
    "uint 0": (proton.uint(0), Uint(0)),
    "ulong": (proton.ulong(2**64 - 1), Ulong(2**64 - 1)),
    "ulong of one byte": (proton.ulong(7), Ulong(7)),
    "ulong 0": (proton.ulong(0), Ulong(0)),
    "byte": (proton.byte(-128), Byte(-128)),
    "short": (proton.short(-32768), Short(-32768)),
    "int": (proton.int32(-(2**31)), Int(-(2**31))),
    "int of one byte": (proton.int32(-7), Int(-7)),
    "long": (-(2**63), Long(-(2**63))),
    "long of one byte": (-7, Long(-7)),
    "char": (proton.char("\U0001f600"), Char("\U0001f600")),
    "timestamp": (proton.timestamp(MOMENT), Timestamp(MOMENT)),
    "timestamp before 1970": (proton.timestamp(-1), Timestamp(-1)),
    "uuid": (U, U),
    "binary": (b"\x00\xff", b"\x00\xff"),
    "long binary": (b"\x00\xff" * 200, b"\x00\xff" * 200),
    "string": ("gr\u00fc\u00dfe", "gr\u00fc\u00dfe"),
    "long string": ("\u20ac" * 200, "\u20ac" * 200),
    "symbol": (proton.symbol("a-b"), Symbol("a-b")),
    "decimal32": (proton.decimal32(0x22334455), Decimal32(bytes.fromhex("22334455"))),
    "decimal64": (proton.decimal64(0x2233445566778899), Decimal64(bytes.fromhex("2233445566778899"))),
    "decimal128": (proton.decimal128(bytes(range(16))), Decimal128(bytes(range(16)))),
}
SIMPLE = dict(VALUES)
VALUES.update({
    "empty list": ([], []),
    "list": ([1, "a", [proton.uint(2)], None], [Long(1), "a", [Uint(2)], None]),
    "empty map": ({}, {}),
    "map": ({"a": 1, proton.symbol("b"): {"c": []}, proton.uint(3): True}, {"a": Long(1), Symbol("b"): {"c": []}, Uint(3): True}),
    "described value": (proton.Described(proton.symbol("d"), "v"), Described(Symbol("d"), "v")),
    "described list": (proton.Described(proton.ulong(0x24), []), Described(0x24, [])),
    "array of uints": (proton.Array(proton.UNDESCRIBED, Data.UINT, proton.uint(1), proton.uint(300)), Array([Uint(1), Uint(300)])),
    "array of symbols": (proton.Array(proton.UNDESCRIBED, Data.SYMBOL, proton.symbol("a")), Array([Symbol("a")])),
    "array of strings": (proton.Array(proton.UNDESCRIBED, Data.STRING, "a", ""), Array(["a", ""])),
    "array of booleans": (proton.Array(proton.UNDESCRIBED, Data.BOOL, True, False), Array([True, False])),
    "array of longs": (proton.Array(proton.UNDESCRIBED, Data.LONG, 1, -1), Array([Long(1), Long(-1)])),
    "array of described ubytes": (
        proton.Array(proton.symbol("d"), Data.UBYTE, proton.ubyte(1), proton.ubyte(2)),
        Array([Described(Symbol("d"), Ubyte(1)), Described(Symbol("d"), Ubyte(2))]),
    ),
})  # fmt: skip


def is_same_to_proton(first: Any, second: Any) -> bool:
    """Whether two values of Proton are equal and of the same classes. Of a described value and of an array it compares the parts."""
    if type(first) is not type(second):
        return False
    if isinstance(first, dict):
        return is_same_to_proton(list(first.items()), list(second.items()))
    if isinstance(first, (list, tuple)):
        return len(first) == len(second) and all(map(is_same_to_proton, first, second))
    if isinstance(first, proton.Described):
        return is_same_to_proton([first.descriptor, first.value], [second.descriptor, second.value])
    if isinstance(first, proton.Array):
        return is_same_to_proton([first.descriptor, first.type, first.elements], [second.descriptor, second.type, second.elements])
    return bool(first == second)


def read_by_proton(message: types.Message) -> Any:
    """Returns the message that Proton reads of what is written."""
    found = proton.Message()
    found.decode(encode(message))
    return found


@pytest.mark.parametrize("name", VALUES)
def test_bodies_of_one_value(name: str) -> None:
    theirs, ours = VALUES[name]
    assert same(decode_message(proton.Message(body=theirs).encode()).body, types.AmqpValue(ours))
    found = read_by_proton(types.Message(body=types.AmqpValue(ours)))
    assert is_same_to_proton(found.body, theirs) and not found.inferred


def test_bodies_of_data() -> None:
    for data in (b"", b"ab", bytes(range(256)) * 5):
        assert same(decode_message(proton.Message(body=data, inferred=True).encode()).body, types.Data(data))
        found = read_by_proton(types.Message(body=types.Data(data)))
        assert found.body == data and found.inferred


def test_bodies_of_a_sequence() -> None:
    theirs, ours = [it[0] for it in VALUES.values()], [it[1] for it in VALUES.values()]
    assert same(decode_message(proton.Message(body=theirs, inferred=True).encode()).body, types.AmqpSequence(ours))
    found = read_by_proton(types.Message(body=types.AmqpSequence(ours)))
    assert is_same_to_proton(found.body, theirs) and found.inferred


# Each property and each field of the header: what is set in Proton's message, the section, and what is read here.
PROPERTIES: List[Tuple[str, Any, str, Any]] = [
    ("durable", True, "header.durable", True),
    ("priority", 9, "header.priority", 9),
    ("priority", 0, "header.priority", 0),
    ("ttl", 60.5, "header.ttl", 60500),
    ("first_acquirer", True, "header.first_acquirer", True),
    ("delivery_count", 3, "header.delivery_count", 3),
    ("id", "id", "properties.message_id", "id"),
    ("id", proton.ulong(2**64 - 1), "properties.message_id", Ulong(2**64 - 1)),
    ("id", proton.ulong(5), "properties.message_id", Ulong(5)),
    ("id", U, "properties.message_id", U),
    ("id", b"\x00id", "properties.message_id", b"\x00id"),
    ("user_id", b"user", "properties.user_id", b"user"),
    ("address", "queue://\u00e4", "properties.to", "queue://\u00e4"),
    ("subject", "a subject", "properties.subject", "a subject"),
    ("reply_to", "queue", "properties.reply_to", "queue"),
    ("correlation_id", "id", "properties.correlation_id", "id"),
    ("correlation_id", proton.ulong(6), "properties.correlation_id", Ulong(6)),
    ("correlation_id", U, "properties.correlation_id", U),
    ("correlation_id", b"id", "properties.correlation_id", b"id"),
    ("content_type", proton.symbol("text/plain"), "properties.content_type", Symbol("text/plain")),
    ("content_encoding", proton.symbol("gzip"), "properties.content_encoding", Symbol("gzip")),
    ("expiry_time", MOMENT / 1000, "properties.absolute_expiry_time", Timestamp(MOMENT)),
    ("creation_time", MOMENT / 1000, "properties.creation_time", Timestamp(MOMENT)),
    ("group_id", "group", "properties.group_id", "group"),
    ("group_sequence", 2**32 - 2, "properties.group_sequence", 2**32 - 2),
    ("reply_to_group_id", "group", "properties.reply_to_group_id", "group"),
]

# What Proton has instead of none.
EMPTY = {name: 0 for name in ("ttl", "expiry_time", "creation_time", "group_sequence")}
TEXTS = {"user_id": b"", "content_type": "None", "content_encoding": "None"}


def fields_of(message: types.Message) -> Dict[str, Any]:
    """Returns the header's fields and the properties, by the names that Proton's message has for them."""
    names = {path: name for name, _, path, _ in PROPERTIES}
    sections = {"header": message.header or types.Header(), "properties": message.properties or types.Properties()}
    return {name: getattr(sections[path.split(".")[0]], path.split(".")[1]) for path, name in names.items()}


def as_of_proton(name: str, value: Any) -> Any:
    """Returns a field as Proton's message has it."""
    if value is None:
        return EMPTY.get(name, TEXTS.get(name))
    return float(value) / 1000.0 if name in ("ttl", "expiry_time", "creation_time") else value


def check_fields(theirs: Any, ours: types.Message) -> None:
    """Compares each field of the header and each property."""
    for name, value in fields_of(ours).items():
        assert getattr(theirs, name) == as_of_proton(name, value), name


@pytest.mark.parametrize("name, theirs, path, ours", PROPERTIES)
def test_properties(name: str, theirs: Any, path: str, ours: Any) -> None:
    """Each property alone, all others being omitted; and a message with this one field."""
    message = proton.Message(**{name: theirs})
    found = decode_message(message.encode())
    section, field = path.split(".")
    assert same(getattr(getattr(found, section), field), ours)
    check_fields(message, found)
    classes = {"header": types.Header, "properties": types.Properties}
    made = types.Message(**{section: classes[section](**{field: ours})})
    other = read_by_proton(made)
    assert getattr(other, name) == theirs
    check_fields(other, made)


def test_all_properties_together() -> None:
    last = {name: theirs for name, theirs, _, _ in PROPERTIES}
    message = proton.Message(body="b", **last)
    found = decode_message(message.encode(), strict=True)
    check_fields(message, found)
    assert found.properties is not None and found.properties.creation_time is not None
    assert found.properties.creation_time.datetime == datetime.datetime(2023, 11, 14, 22, 13, 20, 123000, tzinfo=datetime.timezone.utc)
    check_fields(read_by_proton(found), found)


@pytest.mark.parametrize("name", VALUES)
def test_annotations(name: str) -> None:
    """Under symbols and under numbers, of messages and of deliveries."""
    theirs, ours = VALUES[name]
    message = proton.Message(
        annotations={proton.symbol("x-opt-a"): theirs, proton.ulong(5): theirs},
        instructions={proton.symbol("b"): theirs, proton.ulong(300): theirs},
    )
    found = decode_message(message.encode())
    assert same(found.message_annotations, types.MessageAnnotations({Symbol("x-opt-a"): ours, Ulong(5): ours}))
    assert same(found.delivery_annotations, types.DeliveryAnnotations({Symbol("b"): ours, Ulong(300): ours}))
    other = read_by_proton(types.Message(message_annotations=found.message_annotations, delivery_annotations=found.delivery_annotations))
    assert is_same_to_proton(dict(other.annotations), dict(message.annotations))
    assert is_same_to_proton(dict(other.instructions), dict(message.instructions))


@pytest.mark.parametrize("name", SIMPLE)
def test_application_properties(name: str) -> None:
    theirs, ours = SIMPLE[name]
    message = proton.Message(properties={"a": theirs, "\u00e4": "b"})
    assert same(decode_message(message.encode()).application_properties, types.ApplicationProperties({"a": ours, "\u00e4": "b"}))
    other = read_by_proton(types.Message(application_properties={"a": ours, "\u00e4": "b"}))
    assert is_same_to_proton(dict(other.properties), dict(message.properties))


def test_floats_are_refused() -> None:
    """The library refuses them, which Proton writes."""
    with pytest.raises(ValueError, match="FloatCode"):
        decode_message(proton.Message(body=1.5).encode())


def without_nul(properties: types.Properties) -> types.Properties:
    """Returns the properties without NUL in their texts, at which Proton ends a text."""
    texts = {it.name: getattr(properties, it.name) for it in dataclasses.fields(properties)}
    return types.Properties(**{name: it.replace("\0", "") if isinstance(it, str) else it for name, it in texts.items()})


def test_messages_at_random() -> None:
    """Proton reads messages at random, and writes them again: what it writes is the same message."""
    maker = Maker(5)
    for _ in range(200):
        message = types.Message(
            header=maker.composite(types.Header),
            message_annotations=types.MessageAnnotations({maker.symbol(): maker.simple(0), Ulong(maker.number(Ulong)): maker.simple(0)}),
            properties=without_nul(maker.composite(types.Properties)),
            application_properties=types.ApplicationProperties({maker.text(): maker.simple(0) for _ in range(3)}),
            body=types.AmqpValue(maker.simple(0)),
        )
        theirs = read_by_proton(message)
        check_fields(theirs, message)
        again = decode_message(theirs.encode())
        assert same(again.body, message.body)
        assert same(again.application_properties, message.application_properties)
        assert same(again.message_annotations, message.message_annotations)
