"""Values at random of each type are read as they were written. AMQP_RANDOM is how many of each; 10,000 are the full run."""

import os

import pytest
from values import Maker, name_of, same

from amqp_canonical import Type, canonical, decode, decode_message, encode
from amqp_canonical._tables import MESSAGES

COUNT = int(os.environ.get("AMQP_RANDOM", "50"))


@pytest.mark.parametrize("of", list(Type), ids=name_of)
def test_is_read_as_it_was_written(of: Type) -> None:
    maker = Maker(int(of))
    for _ in range(COUNT):
        value = maker.of_type(of)
        text = encode(value, of)
        found, taken = decode(of, text)
        assert same(found, value), text.hex()
        assert taken == len(text)
        assert canonical(of, text) == (text, len(text))


@pytest.mark.parametrize("of", [of for of in Type if of not in MESSAGES], ids=name_of)
def test_what_follows_is_left(of: Type) -> None:
    maker = Maker(1000 + int(of))
    for _ in range(COUNT // 10 + 1):
        value = maker.of_type(of)
        text = encode(value, of)
        found, taken = decode(of, text + b"\xff")
        assert same(found, value) and taken == len(text)


def test_messages_are_read_strictly() -> None:
    maker = Maker(2000)
    for _ in range(COUNT):
        message = maker.of_type(Type.MESSAGE)
        text = encode(message)
        assert same(decode_message(text), message) and same(decode_message(text, strict=True), message)
