"""What may be written, in which forms, and what is refused with which error."""

from __future__ import annotations

import copy
import datetime
import decimal
import enum
import pickle
import uuid
from collections import OrderedDict
from types import MappingProxyType
from typing import Any, Callable, Dict, List, Tuple

import pytest
from values import same

import amqp_canonical as amqp
from amqp_canonical import (
    AmqpError,
    Array,
    Char,
    Described,
    EncodeError,
    Long,
    Pairs,
    Symbol,
    Timestamp,
    Type,
    Ubyte,
    Uint,
    Ulong,
    decode,
    encode,
    types,
)


class Color(str, enum.Enum):
    """A text of a program's own."""

    RED = "red"


class Name(str):
    """A text that is equal to any other."""

    def __eq__(self, other: object) -> bool:
        return True

    def __hash__(self) -> int:
        return hash("a")


class Sender(types.SaslInit):
    """A composite of a program's own."""


def read_again(value: Any, of: Any = None) -> Any:
    """Returns what is read of what a value is written as."""
    text = encode(value, of)
    return amqp.decode_term(text)[0] if of is None else decode(of, text)[0]


FORMS: Dict[str, Any] = {
    "a whole number": (5, Long(5)),
    "a tuple": ((1, "a"), [Long(1), "a"]),
    "a bytearray": (bytearray(b"ab"), b"ab"),
    "a memoryview": (memoryview(b"ab"), b"ab"),
    "an ordered dict": (OrderedDict([("a", None)]), {"a": None}),
    "an enum of texts": (Color.RED, "red"),
    "pairs that could be a dict": (Pairs([("a", 1)]), {"a": Long(1)}),
    "keys that are equal in Python": (
        [{"a": 1}, {Name("b"): 2}, {Symbol("a"): 3}],
        [{"a": Long(1)}, {"b": Long(2)}, {Symbol("a"): Long(3)}],
    ),
    "many keys": ({f"{number}": None for number in range(3000)}, {f"{number}": None for number in range(3000)}),
    "long keys": ({"k" * 255: "v" * 255, "k" * 256: "v" * 256}, {"k" * 255: "v" * 255, "k" * 256: "v" * 256}),
    "a composite in a value": ([types.Accepted()], [Described(0x24, [])]),
    "a composite of another class": ([Sender("a", b"", "h")], [Described(0x41, [Symbol("a"), b"", "h"])]),
    "an array of composites": (Array([types.Declared(b"a")] * 2), Array([Described(0x33, [b"a"])] * 2)),
    "an array of roles": (Array([types.Role.SENDER, types.Role.RECEIVER]), Array([False, True])),
    "an array of bytes": (Array([b"a", bytearray(b"b")]), Array([b"a", b"b"])),
    "an array without items": (Array((), b"\x50"), Array()),
}


@pytest.mark.parametrize("name", FORMS)
def test_other_forms_of_values(name: str) -> None:
    value, found = FORMS[name]
    assert same(read_again(value), found)


def test_other_forms_of_fields() -> None:
    """Plain texts for symbols, plain numbers for restricted types, one text for several, any map, and other rows than lists."""
    opened = types.Open(Symbol("c"), offered_capabilities="one", desired_capabilities=("two",), outgoing_locales=[])
    opened.properties = MappingProxyType({"a": 1})  # type: ignore[assignment]
    found, _ = decode(Type.OPEN, encode(opened))
    expected = types.Open("c", offered_capabilities=[Symbol("one")], desired_capabilities=[Symbol("two")])
    expected.properties = {Symbol("a"): Long(1)}
    assert same(found, expected)
    source = types.Source(expiry_policy="never")  # type: ignore[arg-type]
    attach = types.Attach(name="n", handle=Uint(3), role=True, snd_settle_mode=1, source=source)  # type: ignore[arg-type]
    found_attach, _ = decode(Type.ATTACH, encode(attach))
    assert (found_attach.role, found_attach.snd_settle_mode) == (types.Role.RECEIVER, types.SenderSettleMode.SETTLED)
    assert found_attach.source == types.Source(expiry_policy=types.TerminusExpiryPolicy.NEVER)
    properties = types.Properties(message_id=5, creation_time=7)  # type: ignore[arg-type]
    assert same(read_again(properties, Type.PROPERTIES), types.Properties(message_id=Ulong(5), creation_time=Timestamp(7)))


def test_other_forms_of_messages() -> None:
    """Sections may be plain dicts, and a body of one section a list of it. Without one, it is a null value."""
    made = types.Message(message_annotations={"x-opt": 1, 5: None}, application_properties={"a": "b"}, body=[types.Data(b"x")], footer={})
    found = amqp.decode_message(encode(made))
    assert same(found.message_annotations, types.MessageAnnotations({Symbol("x-opt"): Long(1), Ulong(5): None}))
    assert same(found.application_properties, types.ApplicationProperties(a="b"))
    assert same((found.body, found.footer), (types.Data(b"x"), types.Footer()))
    assert amqp.decode_message(b"").body == types.AmqpValue(None) == amqp.decode_message(encode(types.Message(body=[]))).body
    assert encode(types.Message()) == bytes.fromhex("00537740")


def test_sections_by_what_is_in_them() -> None:
    sections: List[Tuple[Any, Any]] = [(b"x", types.Data), ([1], types.AmqpSequence), ("v", types.AmqpValue), ({"a": 1}, types.Footer)]
    for content, of in sections:
        assert encode(content, of.TYPE) == encode(of(content))


def test_types_of_several_forms() -> None:
    data = [types.Data(b"a"), types.Data(b"b")]
    assert decode(Type.BATCH_DATA, encode(data, Type.BATCH_DATA)) == (data, 12)
    assert decode(Type.BATCH_DATA, b"") == ([], 0)
    assert decode(Type.BODY, encode(data, Type.BODY))[0] == data
    assert decode(Type.MESSAGE_DATA, encode(types.Message(body=data[0]), Type.MESSAGE_DATA))[0].body == data[0]
    assert decode(Type.MESSAGE_BATCH, encode(types.Message(body=data[:1]), Type.MESSAGE_BATCH))[0].body == data[:1]
    assert encode(types.Accepted(), Type.OUTCOME) == encode(types.Accepted())


WRONG: Dict[str, Callable[[], bytes]] = {
    "Flow.incoming_window: -1 is no uint": lambda: encode(types.Flow(incoming_window=-1, next_outgoing_id=0, outgoing_window=0)),
    "Attach.source: Source.timeout: 'x' is no uint": lambda: encode(
        types.Attach(name="n", handle=0, role=types.Role.SENDER, source=types.Source(timeout="x"))  # type: ignore[arg-type]
    ),
    "Error.info: Error.info: Error.condition: 5 is no symbol": lambda: encode(
        types.Error("a", info={"b": [types.Error("c", info={"d": types.Error(5)})]})  # type: ignore[arg-type]
    ),
    "SaslInit.hostname: '\\ud800' is no string": lambda: encode(types.SaslInit("a", hostname="\ud800")),
    "Properties.group_sequence: 4294967296 is no uint": lambda: encode(types.Properties(group_sequence=2**32)),
    "Rejected.error: 5 is no Error": lambda: encode(types.Rejected(error=5)),  # type: ignore[arg-type]
    "Transfer.state: Open": lambda: encode(types.Transfer(handle=0, state=types.Open("c"))),  # type: ignore[arg-type]
    "Attach.target: Source": lambda: encode(types.Attach("n", 0, types.Role.SENDER, target=types.Source())),  # type: ignore[arg-type]
    "Discharge.fail: 1 is no boolean": lambda: encode(types.Discharge(b"", fail=1)),  # type: ignore[arg-type]
    "Open.container_id: b'c' is no string": lambda: encode(types.Open(b"c")),  # type: ignore[arg-type]
    "SaslResponse.response: 5 is no binary": lambda: encode(types.SaslResponse(5)),  # type: ignore[arg-type]
    "Open.offered_capabilities: 'int' object": lambda: encode(types.Open("c", offered_capabilities=5)),  # type: ignore[arg-type]
    "Open.offered_capabilities: 5 is no symbol": lambda: encode(types.Open("c", offered_capabilities=[5])),  # type: ignore[list-item]
    "Open.properties: 5 is no map": lambda: encode(types.Open("c", properties=5)),  # type: ignore[arg-type]
    "Open.properties: 5 is no symbol": lambda: encode(types.Open("c", properties={5: 5})),  # type: ignore[dict-item]
    "Message.properties: Properties.message_id: 1.5 is no message-id": lambda: encode(
        types.Message(properties=types.Properties(message_id=1.5))  # type: ignore[arg-type]
    ),
    "Message.body: b'x' is no body of a message": lambda: encode(types.Message(body=b"x")),  # type: ignore[arg-type]
    "is no list of Data or of AmqpSequence": lambda: encode(types.Message(body=[types.AmqpValue(1)])),  # type: ignore[arg-type]
    "is no list of Data": lambda: encode([types.Data(b""), types.AmqpSequence([])], Type.BATCH_DATA),
    "is no message": lambda: encode(types.Accepted(), Type.MESSAGE),
    "Ubyte(256) is no ubyte": lambda: encode(Ubyte(256)),
    "is no long": lambda: encode(2**63),
    "Char('ab') is no char": lambda: encode(Char("ab")),
    "Char('') is no char": lambda: encode(Char("")),
    "is no string": lambda: encode("\ud800"),
    "is no decimal number of 4, 8 or 16 bytes": lambda: encode(amqp.DecimalBytes(b"12345")),
    "1.5 is a float": lambda: encode([1.5]),
    "Timestamp.from_datetime": lambda: encode(datetime.datetime.now()),
    "is no value of AMQP": lambda: encode({"a": decimal.Decimal(1)}),
    "{1} is no value of AMQP": lambda: encode({1}),
    "is a section": lambda: encode([types.Data(b"")]),
    "the items of an array aren't of one type": lambda: encode(Array([Uint(1), True])),
    "aren't of one type": lambda: encode(Array([Described(1, True), Described(2, True)])),
    "the value can't be written": lambda: encode(Pairs([1])),  # type: ignore[list-item]
}


@pytest.mark.parametrize("text", WRONG)
def test_what_cannot_be_written(text: str) -> None:
    with pytest.raises(EncodeError) as caught:
        WRONG[text]()
    assert text in str(caught.value)


REFUSED: Dict[str, Callable[[], bytes]] = {
    "NonAscii": lambda: encode(types.Error(condition="\u00e9")),
    "Missing": lambda: encode(types.Open(None)),  # type: ignore[arg-type]
    "EmptyMultiple": lambda: encode(types.SaslMechanisms([])),
    "DuplicateKey": lambda: encode(Pairs([(Uint(1), 1), (Uint(1), 2)])),
    "UnknownText": lambda: encode(types.Source(expiry_policy="x")),  # type: ignore[arg-type]
    "UnknownNumber": lambda: encode(types.SaslOutcome(9)),  # type: ignore[arg-type]
    "WrongDescriptor": lambda: encode(types.Accepted(), Type.RELEASED),
    "WrongType": lambda: encode(5, Type.ACCEPTED),
    "InvalidValue": lambda: encode(types.ApplicationProperties(a=[])),
    "ZeroWidthItems": lambda: encode(Array([None])),
}


@pytest.mark.parametrize("name", REFUSED)
def test_what_the_library_refuses(name: str) -> None:
    with pytest.raises(AmqpError) as caught:
        REFUSED[name]()
    assert caught.value.name == name


def test_nesting() -> None:
    """128 lists in one another are written and read; one more is refused, and so is a list in itself."""
    value: Any = []
    for _ in range(127):
        value = [value]
    assert read_again(value) == value
    with pytest.raises(AmqpError, match="Depth"):
        encode([value])
    value = []
    value.append(value)
    with pytest.raises(EncodeError, match="nests too deep"):
        encode(value)


def test_timestamps() -> None:
    """All milliseconds are kept, and those of the years 1 to 9999 have a datetime."""
    utc = datetime.timezone.utc
    moment = datetime.datetime(2023, 11, 14, 22, 13, 20, 123000, tzinfo=utc)
    assert Timestamp(1_700_000_000_123).datetime == moment and Timestamp.from_datetime(moment) == 1_700_000_000_123
    assert Timestamp(-1).datetime == datetime.datetime(1969, 12, 31, 23, 59, 59, 999000, tzinfo=utc)
    east = datetime.timezone(datetime.timedelta(hours=3))
    assert Timestamp.from_datetime(datetime.datetime(1970, 1, 1, 3, 0, 0, 1999, tzinfo=east)) == 1
    assert read_again(Timestamp(2**63 - 1)) == 2**63 - 1
    for number in (2**63 - 1, -(2**63)):
        with pytest.raises(OverflowError):
            Timestamp(number).datetime
    with pytest.raises(TypeError):
        Timestamp.from_datetime(datetime.datetime(2000, 1, 1))


def test_how_values_are_shown() -> None:
    assert repr([Uint(1), Symbol("a"), Char("b"), Array([1]), Pairs([(1, 2)]), Timestamp(3)]) == (
        "[Uint(1), Symbol('a'), Char('b'), Array([1]), Pairs([(1, 2)]), Timestamp(3)]"
    )
    assert f"{Uint(1)} {Uint(2):03} {Symbol('a')}" == "1 002 a" and str(Ulong(5)) == "5"
    assert repr(types.Footer({"a": 1})) == "Footer({'a': 1})"
    assert repr(types.Accepted()) == "Accepted()" and repr(amqp.Decimal32(b"1234")) == "Decimal32(raw=b'1234')"


def test_values_are_copied() -> None:
    value = types.Message(
        properties=types.Properties(message_id=uuid.UUID(int=5), creation_time=Timestamp(5)),
        application_properties=types.ApplicationProperties(a=Uint(1)),
        body=types.AmqpValue(
            [Array([Ubyte(1)], b"\x50"), Pairs([([], Symbol("a"))]), Described(1, types.Role.SENDER), amqp.Decimal32(b"1234")]
        ),
    )
    for other in (copy.deepcopy(value), pickle.loads(pickle.dumps(value))):
        assert same(other, value) and encode(other) == encode(value)
        assert other.body.value[0].constructor == b"\x50"
