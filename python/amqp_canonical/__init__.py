r"""The data types of AMQP 1.0: values are read from bytes as objects of Python, and written as their canonical text.

    decode(type, data)       reads a performative, a section, a delivery state: any type of the standard
    decode_message(data)     reads a message
    encode(value)            writes a value
    decode_term(data)        reads any term, without knowing its type
    canonical(type, data)    rewrites bytes as the canonical text
    read, term_len, nodes    measure bytes, and walk them
    path_of(data, at)        returns what is around a place

`Type` has the types of the standard by their names, and `amqp_canonical.types` their classes. Where Python has no class for a type of AMQP,
there is one here: `Ubyte`, `Ushort`, `Uint`, `Ulong`, `Byte`, `Short`, `Int`, `Long`, `Char`, `Symbol`, `Timestamp`, `Decimal32`,
`Decimal64`, `Decimal128`, `Described`, `Array`, and `Pairs` for a map that can't be a dict. What the library refuses raises an `AmqpError`,
and what can't be written an `EncodeError`. An `AmqpError` has the place of the fault, and the path there.

>>> from amqp_canonical import Type, decode, encode
>>> from amqp_canonical.types import Accepted, Disposition, Role
>>> data = encode(Disposition(role=Role.RECEIVER, first=1, state=Accepted()))
>>> data.hex()
'005315c00a05415201404000532445'
>>> disposition, taken = decode(Type.DISPOSITION, data)
>>> disposition.state, taken
(Accepted(), 15)
>>> decode(Type.BOOLEAN, b"\x99")
Traceback (most recent call last):
amqp_canonical.AmqpError: UnknownCode: 0x99

A shared object, `libamqp_types.so`, decides what is read and writes the text; its calls are proved. The environment's `AMQP_TYPES_SO` names
the file, if it is neither in this package nor where the system looks. In the repository, `docs/PYTHON.md` says more.
"""

from . import types as types
from ._calls import decode as decode
from ._calls import decode_message as decode_message
from ._calls import decode_term as decode_term
from ._calls import encode as encode
from ._library import UNLIMITED as UNLIMITED
from ._library import AmqpError as AmqpError
from ._library import Container as Container
from ._library import Kind as Kind
from ._library import Limits as Limits
from ._library import Node as Node
from ._library import PathNode as PathNode
from ._library import Piece as Piece
from ._library import Type as Type
from ._library import __license__ as __license__
from ._library import __version__ as __version__
from ._library import canonical as canonical
from ._library import canonical_into as canonical_into
from ._library import error_name as error_name
from ._library import field_at as field_at
from ._library import field_name as field_name
from ._library import for_peers as for_peers
from ._library import greatest as greatest
from ._library import node_at as node_at
from ._library import nodes as nodes
from ._library import path_of as path_of
from ._library import printed_path as printed_path
from ._library import read as read
from ._library import term_len as term_len
from ._library import type_of_descriptor as type_of_descriptor
from ._values import Array as Array
from ._values import Byte as Byte
from ._values import Char as Char
from ._values import Decimal32 as Decimal32
from ._values import Decimal64 as Decimal64
from ._values import Decimal128 as Decimal128
from ._values import DecimalBytes as DecimalBytes
from ._values import Described as Described
from ._values import Int as Int
from ._values import Long as Long
from ._values import Pairs as Pairs
from ._values import Short as Short
from ._values import Symbol as Symbol
from ._values import Timestamp as Timestamp
from ._values import Ubyte as Ubyte
from ._values import Uint as Uint
from ._values import Ulong as Ulong
from ._values import Ushort as Ushort
from ._writing import EncodeError as EncodeError

# What help() shows of this package, and where an error's text says that it is.
for _public in (AmqpError, EncodeError, Limits, Node, PathNode):
    _public.__module__ = __name__
for _call in (decode, decode_message, decode_term, encode, canonical, canonical_into, error_name, for_peers, greatest):
    _call.__module__ = __name__
for _call in (field_at, field_name, node_at, nodes, path_of, printed_path, read, term_len, type_of_descriptor):
    _call.__module__ = __name__
del _public, _call
