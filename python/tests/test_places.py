"""Where faults are, and the paths there: the rows of `crates/amqp_place_rows` for the types that the library names, and rows of paths."""

from __future__ import annotations

import pickle
import re
from pathlib import Path
from typing import Callable, Iterator, List, Tuple

import pytest

import amqp_canonical as amqp
from amqp_canonical import AmqpError, Container, Limits, PathNode, Piece, Type, path_of, types

ROWS = Path(__file__).parents[2] / "crates/amqp_place_rows/data/places.rows"
NAMES = {of.name.lower().replace("_", "-"): of for of in Type}
ROW = re.compile(r"(\S+) (-|(?:[0-9a-f]{2})+) => (\w+) (\d+)")


def rows() -> Iterator[Tuple[Type, bytes, Limits, str, int]]:
    """Yields the type, the bytes, the limits, the error and the place of each row of a type that the library names."""
    limits = Limits()
    for line in ROWS.read_text(encoding="utf-8").splitlines():
        word, _, rest = line.partition(" ")
        if word == "limits":
            limits = Limits() if rest == "none" else Limits(*map(int, rest.split()))
        row = ROW.fullmatch(line)
        if row and row[1] in NAMES:
            yield NAMES[row[1]], bytes.fromhex(row[2].strip("-")), limits, row[3], int(row[4])


def refused(of: Type, data: bytes, limits: Limits = Limits()) -> AmqpError:
    with pytest.raises(AmqpError) as caught:
        amqp.canonical(of, data, limits)
    return caught.value


def test_rows() -> None:
    wrong: List[str] = []
    for of, data, limits, name, at in rows():
        error = refused(of, data, limits)
        if (error.name, error.at) != (name, at) or not error.path:
            wrong.append(f"{of.name} {data.hex()} => {error.name} {error.at}")
    assert wrong == []


def test_there_are_rows() -> None:
    assert len(list(rows())) > 100


def test_each_call_tells_the_place() -> None:
    data = bytes.fromhex("c0050240a101ff")
    calls: List[Callable[[], object]] = [
        lambda: amqp.read(Type.VALUE, data),
        lambda: amqp.decode(Type.VALUE, data),
        lambda: amqp.decode_term(data),
    ]
    for call in calls:
        with pytest.raises(AmqpError) as caught:
            call()
        assert (caught.value.name, caught.value.at, caught.value.path) == ("BadUtf8", 4, "value[1]")
    with pytest.raises(AmqpError) as caught:
        amqp.canonical_into(Type.VALUE, data, 8)
    assert (caught.value.at, caught.value.path) == (4, "value[1]")


def test_errors_without_a_place() -> None:
    assert refused(Type.BOOLEAN, b"\x41", Limits(nesting=129)).at is None
    with pytest.raises(AmqpError) as caught:
        amqp.node_at(b"\xc0\x02\x01\x72")
    assert (caught.value.name, caught.value.at, caught.value.path) == ("FloatCode", None, None)


# By the standard's tables of fields: Part 2, section 2.7; Part 3, sections 3.2, 3.4 and 3.5.3; Part 5, section 5.3.3.6.
PATHS = [
    ("attach", "005312c01a06a1066f726465727343414040005328c00801a1057175ff7565", "BadUtf8", 24, "attach.source.address"),
    ("performative", "005312c01a06a1066f726465727343414040005328c00801a1057175ff7565", "BadUtf8", 24, "attach.source.address"),
    ("attach", "005312c01c06a1016143414040005328c00f0840404040404040c10502a3016699", "UnknownCode", 32, "attach.source.filter[{0}]"),
    ("open", "005310c0020140", "Missing", 6, "open.container-id"),
    ("begin", "005311c00d07404343434040e00401a301ff", "NonAscii", 16, "begin.desired-capabilities[0]"),
    ("disposition", "005315c0120541434040005325c0080100531dc0020141", "WrongType", 22, "disposition.state.error.condition"),
    ("sasl-outcome", "005344c003015005", "UnknownNumber", 6, "sasl-outcome.code"),
    ("received", "005323c003015209", "Missing", 8, "received(end)"),
    ("received", "005323c005025209", "Cut", 8, "received.section-offset"),
    ("accepted", "005323c003015209", "WrongDescriptor", 1, "accepted(descriptor)"),
    ("application-properties", "005374c10904a1016140a3016240", "WrongType", 10, "application-properties{1}"),
    ("application-properties", "005374c10904a1016140a1016245", "InvalidValue", 13, "application-properties[{1}]"),
    ("message", "00537045005373c003015001", "WrongType", 10, "properties.message-id"),
    ("message-data", "00537045005374c10904a1016140a3016240", "WrongType", 14, "application-properties{1}"),
    ("value", "e0050356000102", "BadBool", 6, "value[2]"),
    ("value", "e0020241", "ZeroWidthItems", 3, "value(constructor)"),
    ("value", "99", "UnknownCode", 0, "value"),
]


@pytest.mark.parametrize("name, digits, error, at, path", PATHS)
def test_paths(name: str, digits: str, error: str, at: int, path: str) -> None:
    found = refused(NAMES[name], bytes.fromhex(digits))
    assert (found.name, found.at, found.path) == (error, at, path)


def test_errors_are_copied_with_their_paths() -> None:
    error = refused(Type.ATTACH, bytes.fromhex(PATHS[0][1]))
    copied = pickle.loads(pickle.dumps(error))
    assert (copied.name, copied.at, copied.path, str(copied)) == ("BadUtf8", 24, "attach.source.address", "BadUtf8")


def test_what_python_writes_is_refused_with_a_path() -> None:
    """An encoded value that is too deep is refused in the bytes that Python has written."""
    deep: object = None
    for _ in range(129):
        deep = [deep]
    with pytest.raises(AmqpError) as caught:
        amqp.encode(types.AmqpValue(deep))
    assert caught.value.name == "Depth" and caught.value.path is not None
    assert caught.value.path.startswith("amqp-value[0][0]")


def test_nodes_of_a_path() -> None:
    data = bytes.fromhex("005323c005025209530d")
    value = PathNode(0, Piece.VALUE, None, 0, 0, 0, None, 0)
    described = PathNode(3, Piece.VALUE, None, 0, 0, 0, Type.RECEIVED, 0)
    offset = PathNode(8, Piece.ITEM, Container.LIST, 2, 1, 0, Type.RECEIVED, 0)
    assert path_of(data, 9) == [value, described, offset]
    assert path_of(data, 10)[-1] == PathNode(10, Piece.END, Container.LIST, 2, 0, 0, Type.RECEIVED, 0)
    assert path_of(b"", 0) == [value]
    assert len(path_of(b"\xc0\xff\x01" * 40 + b"\x40", 120)) == 41
