"""Values of Python from bytes, and bytes from values."""

from __future__ import annotations

import struct
from typing import TYPE_CHECKING, Any, Optional, Tuple, cast

from . import _reading, _writing, types
from ._library import _DEFAULT, Limits, Type, canonical, term_len
from ._writing import EncodeError

if TYPE_CHECKING:
    from .types import Decode

_MESSAGE, _STRICT = Type.MESSAGE, Type.STRICT_MESSAGE


def _as_declared(call: Any) -> Decode:
    """Returns the call, of which a type checker knows what it returns for each type."""
    return cast("Decode", call)


@_as_declared
def decode(of: Type, data: bytes, limits: Limits = _DEFAULT) -> Tuple[Any, int]:
    """Returns the value of the type at the start of the data, within the limits, and how many bytes it takes.

    The library reads the data and writes the value's canonical text. The value is made of that text, as an instance of its class in
    `amqp_canonical.types`. If the data doesn't begin with a value of the type, an `AmqpError` says why.

    >>> decode(Type.RECEIVED, bytes.fromhex("005323c005025209530dff"))
    (Received(section_number=9, section_offset=13), 10)
    """
    text, taken = canonical(of, data, limits)
    return _reading.TYPES[of](text), taken


def decode_message(data: bytes, strict: bool = False, limits: Limits = _DEFAULT) -> types.Message:
    """Returns the message at the start of the data, within the limits.

    Its sections may be in any order; of several of a kind, the last counts, and what follows seven groups of sections is ignored. If
    `strict`, the sections are in the standard's order, each at most once, up to the end of the data (Part 3, section 3.2).

    >>> decode_message(bytes.fromhex("005375a0026869")).body
    Data(value=b'hi')
    """
    text, _ = canonical(_STRICT if strict else _MESSAGE, data, limits)
    return _reading.message(text)


def decode_term(data: bytes) -> Tuple[Any, int]:
    """Returns the term at the start of the data, of any type, and how many bytes it takes. Nothing is known of its type but its codes.

    Null is None, a boolean a bool, a string a str, a binary is bytes, and a uuid a `UUID`. Numbers, symbols, chars, timestamps and decimal
    numbers are instances of the class of their type. A list is a list, and an array an `Array`. A described value is `Described`, also that
    of a composite. A map is a dict, or `Pairs` if it can't be one.

    >>> decode_term(bytes.fromhex("005323c005025209530dff"))
    (Described(descriptor=35, value=[Uint(9), Ulong(13)]), 10)
    >>> decode_term(bytes.fromhex("c10904a1016141a1016240"))
    ({'a': True, 'b': None}, 11)
    """
    term_len(data)
    return _reading.term(data)


def encode(value: Any, of: Optional[Type] = None) -> bytes:
    """Returns the canonical text of a value: of its own type, or of one that is named, as of a sum or of a message of a kind.

    Python writes the value in some encoding, and the library makes it canonical. If the library refuses it, an `AmqpError` says why. If it
    can't be written at all, an `EncodeError` does.

    >>> encode(types.Received(section_number=9, section_offset=13)).hex()
    '005323c005025209530d'
    """
    of = _writing.type_of(value) if of is None else of
    try:
        written = _writing.TYPES[of](value)
    except RecursionError:
        raise EncodeError("the value nests too deep") from None
    except (TypeError, struct.error) as error:
        raise EncodeError(f"the value can't be written: {error}") from error
    text, taken = canonical(of, written)
    if taken != len(written):
        raise EncodeError(f"the value has more in it than {of!r}")
    return text
