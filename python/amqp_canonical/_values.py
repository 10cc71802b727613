"""Values of AMQP 1.0 for which Python has no class of its own (Part 1, section 1.6)."""

from __future__ import annotations

import datetime as _datetime
from collections.abc import Iterable
from dataclasses import dataclass
from typing import Any, List, Tuple, TypeVar, Union

Item = TypeVar("Item")

_EPOCH = _datetime.datetime(1970, 1, 1, tzinfo=_datetime.timezone.utc)
_MILLISECOND = _datetime.timedelta(milliseconds=1)


class _Number(int):
    """A whole number with the name of its type in its repr. That it is in the type's range is checked when it is written."""

    __slots__ = ()
    __str__ = int.__repr__

    def __repr__(self) -> str:
        return f"{type(self).__name__}({int(self)})"


class Ubyte(_Number):
    """An unsigned number of 8 bits (Part 1, section 1.6.3)."""

    __slots__ = ()


class Ushort(_Number):
    """An unsigned number of 16 bits (Part 1, section 1.6.4)."""

    __slots__ = ()


class Uint(_Number):
    """An unsigned number of 32 bits (Part 1, section 1.6.5)."""

    __slots__ = ()


class Ulong(_Number):
    """An unsigned number of 64 bits (Part 1, section 1.6.6)."""

    __slots__ = ()


class Byte(_Number):
    """A signed number of 8 bits (Part 1, section 1.6.7)."""

    __slots__ = ()


class Short(_Number):
    """A signed number of 16 bits (Part 1, section 1.6.8)."""

    __slots__ = ()


class Int(_Number):
    """A signed number of 32 bits (Part 1, section 1.6.9)."""

    __slots__ = ()


class Long(_Number):
    """A signed number of 64 bits (Part 1, section 1.6.10)."""

    __slots__ = ()


class Timestamp(_Number):
    """A point in time, in milliseconds since 1970 (Part 1, section 1.6.17).

    >>> Timestamp(1_700_000_000_123).datetime.isoformat()
    '2023-11-14T22:13:20.123000+00:00'
    """

    __slots__ = ()

    @property
    def datetime(self) -> _datetime.datetime:
        """The same point in time, in UTC. If its year isn't one of 1 to 9999, an OverflowError is raised."""
        return _EPOCH + int(self) * _MILLISECOND

    @classmethod
    def from_datetime(cls, moment: _datetime.datetime) -> Timestamp:
        """Returns the last millisecond that isn't after the moment, which has to have a time zone."""
        return cls((moment - _EPOCH) // _MILLISECOND)


class _Text(str):
    """A text with the name of its type in its repr."""

    __slots__ = ()

    def __repr__(self) -> str:
        return f"{type(self).__name__}({str.__repr__(self)})"


class Char(_Text):
    """One character (Part 1, section 1.6.16)."""

    __slots__ = ()


class Symbol(_Text):
    """A symbol, which is ASCII (Part 1, section 1.6.21)."""

    __slots__ = ()


@dataclass(frozen=True)
class DecimalBytes:
    """A decimal number, as its bytes. The number of its bits is that of its class."""

    raw: bytes


class Decimal32(DecimalBytes):
    """A decimal number of 32 bits, as its four bytes (Part 1, section 1.6.13)."""


class Decimal64(DecimalBytes):
    """A decimal number of 64 bits, as its eight bytes (Part 1, section 1.6.14)."""


class Decimal128(DecimalBytes):
    """A decimal number of 128 bits, as its sixteen bytes (Part 1, section 1.6.15)."""


@dataclass(frozen=True)
class Described:
    """A value under a descriptor, which is a symbol or the number of a ulong (Part 1, section 1.2)."""

    descriptor: Union[int, Symbol]
    value: Any


class Array(List[Item]):
    """The items of an array, which are of one type (Part 1, section 1.6.24).

    `constructor` has the bytes of the items' constructor, if the array was read. They aren't compared. What is written follows from the
    items, and only if there are none from these bytes.
    """

    __slots__ = ("constructor",)

    def __init__(self, items: Iterable[Item] = (), constructor: bytes = b"") -> None:
        super().__init__(items)
        self.constructor = constructor

    def __repr__(self) -> str:
        return f"Array({list.__repr__(self)})"


class Pairs(List[Tuple[Any, Any]]):
    """A map as its pairs of a key and a value, in order (Part 1, section 1.6.23).

    A map is read as these only if it can't be a dict: a key isn't hashable, or two keys are one in Python, as true and the number 1.
    """

    __slots__ = ()

    def __repr__(self) -> str:
        return f"Pairs({list.__repr__(self)})"
