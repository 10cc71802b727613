"""Each worked row that names a type: a value that is read is written as the row's answer, and what is refused is refused for its reason."""

from __future__ import annotations

import re
from pathlib import Path
from typing import Iterator, Tuple

import pytest

from amqp_canonical import AmqpError, Limits, Type, decode, encode

ROWS = Path(__file__).parents[2] / "crates/amqp_worked_rows/data"
NAMES = {of.name.lower().replace("_", "-"): of for of in Type}


def rows_of(path: Path) -> Iterator[Tuple[Type, bytes, str, Limits]]:
    """Yields the type, the bytes, the answer and the limits of each row of a file that names a type."""
    limits = Limits()
    for line in path.read_text(encoding="utf-8").splitlines():
        request, arrow, answer = line.partition(" => ")
        name, _, rest = request.partition(" ")
        if name == "limits" and answer == request:
            limits = Limits(*map(int, rest.split()))
        if arrow and name in NAMES and re.fullmatch(r"-|([0-9a-fA-F]{2})+", rest):
            yield NAMES[name], bytes.fromhex(rest.strip("-")), answer, limits


@pytest.mark.parametrize("path", sorted(ROWS.glob("*.rows")), ids=lambda path: str(path.stem))
def test_rows(path: Path) -> None:
    for of, data, answer, limits in rows_of(path):
        word, first, second = answer.split(" ")
        if word == "ok":
            value, taken = decode(of, data, limits)
            assert len(data) - taken == int(second), (of, data.hex())
            assert encode(value, of) == bytes.fromhex(first.strip("-")), (of, data.hex())
        else:
            with pytest.raises(AmqpError) as caught:
                decode(of, data, limits)
            assert (caught.value.number, caught.value.name) == (int(first), second), (of, data.hex())


def test_there_are_rows() -> None:
    assert sum(len(list(rows_of(path))) for path in ROWS.glob("*.rows")) > 1000
