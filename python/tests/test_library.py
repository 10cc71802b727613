"""What no row says of the calls of the library: terms of any type, limits, errors, and calls from eight threads at once."""

from __future__ import annotations

import copy
import ctypes
import pickle
import threading
import uuid
from typing import Any, List

import pytest
from values import same

import amqp_canonical as amqp
from amqp_canonical import (
    Array,
    Byte,
    Char,
    Decimal32,
    Decimal64,
    Decimal128,
    Described,
    Int,
    Long,
    Pairs,
    Short,
    Symbol,
    Timestamp,
    Type,
    Ubyte,
    Uint,
    Ulong,
    Ushort,
    types,
)


def decoded(digits: str) -> Any:
    """Returns the value of the term that these are the digits of, all of which it takes."""
    data = bytes.fromhex(digits)
    value, taken = amqp.decode_term(data)
    assert taken == len(data)
    return value


PRIMITIVES = {
    "40": None,
    "41": True,
    "42": False,
    "5600": False,
    "5601": True,
    "50ff": Ubyte(255),
    "6001ff": Ushort(511),
    "43": Uint(0),
    "52ff": Uint(255),
    "7000000100": Uint(256),
    "44": Ulong(0),
    "53ff": Ulong(255),
    "800000000000000100": Ulong(256),
    "51ff": Byte(-1),
    "61ff00": Short(-256),
    "54fe": Int(-2),
    "71fffffffe": Int(-2),
    "55fe": Long(-2),
    "81fffffffffffffffe": Long(-2),
    "730001f600": Char("\U0001f600"),
    "83ffffffffffffffff": Timestamp(-1),
    "74aabbccdd": Decimal32(b"\xaa\xbb\xcc\xdd"),
    "840011223344556677": Decimal64(bytes.fromhex("0011223344556677")),
    "9400112233445566778899aabbccddeeff": Decimal128(bytes.fromhex("00112233445566778899aabbccddeeff")),
    "9800112233445566778899aabbccddeeff": uuid.UUID("00112233445566778899aabbccddeeff"),
    "a00241ff": b"A\xff",
    "b00000000141": b"A",
    "a102c3a9": "\u00e9",
    "b10000000161": "a",
    "a30161": Symbol("a"),
    "b30000000161": Symbol("a"),
}


@pytest.mark.parametrize("digits", PRIMITIVES)
def test_primitives(digits: str) -> None:
    assert same(decoded(digits), PRIMITIVES[digits])


CONTAINERS = {
    "45": [],
    "c00100": [],
    "c00000": [],
    "d00000000600000002" + "4142": [True, False],
    "c00702c003015201" + "41": [[Uint(1)], True],
    "c10100": {},
    "c10502a10161" + "45": {"a": []},
    "d10000000800000002" + "a1016141": {"a": True},
    "c1060441" + "40" + "5001" + "40": Pairs([(True, None), (Ubyte(1), None)]),
    "c10904a10161" + "40" + "a30161" + "40": Pairs([("a", None), (Symbol("a"), None)]),
    "c103024540": Pairs([([], None)]),
    "e00402500102": Array([Ubyte(1), Ubyte(2)]),
    "e00100": Array(),
    "e0020050": Array(),
    "e00802c003015201" + "0100": Array([[Uint(1)], []]),
    "e00902005301a101610162": Array([Described(1, "a"), Described(1, "b")]),
    "e00802e003015005" + "0100": Array([Array([Ubyte(5)]), Array()]),
    "f00000000900000002a101610162": Array(["a", "b"]),
    "00532445": Described(0x24, []),
    "00a3016100530141": Described(Symbol("a"), Described(1, True)),
}


@pytest.mark.parametrize("digits", CONTAINERS)
def test_lists_maps_arrays_and_described_values(digits: str) -> None:
    assert same(decoded(digits), CONTAINERS[digits])


def test_arrays_keep_the_constructor_of_their_items() -> None:
    for digits, constructor in {"e0020050": "50", "e00402500102": "50", "e00902005301a101610162": "005301a1", "e00100": ""}.items():
        assert decoded(digits).constructor.hex() == constructor


def test_limits_for_peers() -> None:
    """They bound bytes and values, and have a seed, which changes no answer."""
    limits = amqp.for_peers(5)
    assert (limits.nesting, limits.bytes, limits.items) == (128, 5, 5)
    assert limits.hash_seed != 0
    with pytest.raises(amqp.AmqpError) as caught:
        amqp.canonical(Type.ACCEPTED, bytes.fromhex("005324c00000"), limits)
    assert caught.value.name == "Limit"
    properties = bytes.fromhex("005374c10d04a1036f6e6543a10269745200")
    for seed in (0, 1, 2**64 - 1):
        found = amqp.canonical(Type.APPLICATION_PROPERTIES, properties, amqp.Limits(hash_seed=seed))
        assert found == (bytes.fromhex("005374c10c04a1036f6e6543a102697443"), len(properties))


class Raw(bytes):
    """Bytes of a program's own."""


def test_only_bytes_are_read() -> None:
    data: Any
    for data in (bytearray(b"\x41"), "41", memoryview(b"\x41")):
        for call in (amqp.read, amqp.canonical, amqp.decode):
            with pytest.raises(ctypes.ArgumentError):
                call(Type.BOOLEAN, data)
    assert amqp.decode(Type.BOOLEAN, Raw(b"\x41")) == (True, 1)


def test_types_by_their_numbers() -> None:
    number: Any
    for number in (11, Type.BOOLEAN):
        assert amqp.canonical(number, b"\x56\x01") == (b"\x41", 2)
    for number in ("boolean", None, b"\x0b"):
        with pytest.raises(ctypes.ArgumentError):
            amqp.canonical(number, b"\x41")


def test_limits_bound_what_is_decoded() -> None:
    data = amqp.encode(types.Message(body=types.Data(bytes(100))))
    enough, short = amqp.for_peers(len(data)), amqp.for_peers(len(data) - 1)
    assert amqp.decode(Type.MESSAGE, data, enough)[0] == amqp.decode_message(data, strict=True, limits=enough)
    with pytest.raises(amqp.AmqpError, match="Limit"):
        amqp.decode(Type.MESSAGE, data, short)
    with pytest.raises(amqp.AmqpError, match="Limit"):
        amqp.decode_message(data, limits=short)


def test_limits_are_copied_and_shown() -> None:
    limits = amqp.for_peers(7)
    amqp.read(Type.BOOLEAN, b"\x41", limits)
    assert pickle.loads(pickle.dumps(limits)) == copy.deepcopy(limits) == limits
    assert repr(limits) == "Limits(bytes=7, items=7)" and repr(amqp.Limits()) == "Limits()"


def test_refused() -> None:
    """An error has its number, its name and its code, and so has a copy."""
    with pytest.raises(amqp.AmqpError) as caught:
        amqp.decode_term(b"\xc0\x02\x01\x72")
    for error in (caught.value, pickle.loads(pickle.dumps(caught.value))):
        assert (error.number, error.name, error.code) == (3, "FloatCode", 0x72)
        assert str(error) == "FloatCode: 0x72"
    with pytest.raises(amqp.AmqpError) as caught:
        amqp.decode_term(b"")
    assert (caught.value.name, caught.value.code) == ("Cut", None)
    with pytest.raises(amqp.AmqpError) as caught:
        amqp.canonical(Type.BOOLEAN, b"\x41", amqp.Limits(nesting=129))
    assert caught.value.number == 1002


def test_texts_that_are_longer_than_the_data() -> None:
    """The canonical text of an array of small numbers is longer than the data, and than the buffer that is kept."""
    short, long = bytes.fromhex("e00402520103"), bytes.fromhex("f00000138d0000138852") + bytes(5000)
    assert amqp.canonical(Type.VALUE, short) == (bytes.fromhex("e00a02700000000100000003"), len(short))
    text, taken = amqp.canonical(Type.VALUE, long)
    assert (taken, len(text)) == (len(long), 10 + 4 * 5000)
    assert amqp.canonical_into(Type.VALUE, long, len(text)) == (text, len(text), taken)
    assert amqp.canonical_into(Type.VALUE, long, len(text) - 1) == (None, len(text), taken)
    assert amqp.decode(Type.VALUE, long) == ([0] * 5000, len(long))


def test_eight_threads() -> None:
    """Each call at once, each with its own input."""
    wrong: List[int] = []

    def work(own: int) -> None:
        for _ in range(500):
            data = bytes([0xC0, 0x05, 0x02, 0x50, own, 0x50, own])
            message = types.Message(properties=types.Properties(message_id=f"{own}" * 500), body=types.AmqpValue([own] * own))
            is_right = amqp.canonical(Type.VALUE, data) == (data, 7) and amqp.term_len(data) == 7
            is_right = is_right and amqp.decode_term(data) == ([own, own], 7)
            if not is_right or amqp.decode_message(amqp.encode(message)) != message:
                wrong.append(own)

    threads = [threading.Thread(target=work, args=[own]) for own in range(8)]
    for thread in threads:
        thread.start()
    for thread in threads:
        thread.join()
    assert wrong == []


def test_fields_by_number() -> None:
    # A transfer: handle 1, three fields that are null, and settled.
    data = bytes.fromhex("005314c00705520140404041")
    transfer = amqp.node_at(data)
    handle = amqp.field_at(data, transfer, 0)
    assert handle is not None
    assert handle.kind == amqp.Kind.UINT
    assert data[handle.start : handle.end] == b"\x01"
    assert [amqp.field_at(data, transfer, index) for index in (1, 2, 3, 6)] == [None] * 4
    with pytest.raises(amqp.AmqpError) as refused:
        amqp.field_at(data, handle, 0)
    assert refused.value.name == "WrongType"
