"""The calls of the shared object `libamqp_types.so`, which `docs/C.md` describes."""

from __future__ import annotations

import ctypes
import enum
import functools
import os
from collections.abc import Iterator
from dataclasses import dataclass, field, fields
from typing import Any, Dict, List, Optional, Tuple

__version__ = "0.1.0"
"""The version of this package, which is independent of that of the Rust crate `fe2o3-amqp-types`."""

__license__ = "MIT OR Apache-2.0"
"""The licenses of this package, of which you may choose one."""

UNLIMITED = 2**64 - 1
"""The number of bytes or of items that sets no limit."""

_NO_ROOM = 1000
_NAMES_A_CODE = (2, 3, 27)
# DuplicateKey, Missing and EmptyMultiple may be behind the last item of a container.
_MAY_END = (6, 8, 18)

# The bytes of a buffer that is kept for the next call.
_KEPT_ROOM = 4096


class Type(enum.IntEnum):
    """A type, by its name in the program `amqp_canon`."""

    ACCEPTED = 1
    AMQP_SEQUENCE = 2
    AMQP_VALUE = 3
    ANNOTATIONS = 4
    APPLICATION_PROPERTIES = 5
    ATTACH = 6
    BATCH_DATA = 7
    BATCH_SEQUENCE = 8
    BEGIN = 9
    BODY = 10
    BOOLEAN = 11
    CLOSE = 12
    COORDINATOR = 13
    DATA = 14
    DECLARE = 15
    DECLARED = 16
    DELETE_ON_CLOSE = 17
    DELETE_ON_NO_LINKS = 18
    DELETE_ON_NO_LINKS_OR_MESSAGES = 19
    DELETE_ON_NO_MESSAGES = 20
    DELIVERY_ANNOTATIONS = 21
    DELIVERY_STATE = 22
    DETACH = 23
    DISCHARGE = 24
    DISPOSITION = 25
    END = 26
    ERROR = 27
    ERROR_CONDITION = 28
    FLOW = 29
    FOOTER = 30
    HEADER = 31
    LIFETIME_POLICY = 32
    MESSAGE = 33
    MESSAGE_ANNOTATIONS = 34
    MESSAGE_BATCH = 35
    MESSAGE_DATA = 36
    MESSAGE_ID = 37
    MESSAGE_VALUE = 38
    MODIFIED = 39
    OPEN = 40
    OUTCOME = 41
    PERFORMATIVE = 42
    PROPERTIES = 43
    RECEIVED = 44
    REJECTED = 45
    RELEASED = 46
    SASL_CHALLENGE = 47
    SASL_INIT = 48
    SASL_MECHANISMS = 49
    SASL_OUTCOME = 50
    SASL_RESPONSE = 51
    SIMPLE_VALUE = 52
    SOURCE = 53
    STRICT_MESSAGE = 54
    STRICT_MESSAGE_BATCH = 55
    STRICT_MESSAGE_DATA = 56
    STRICT_MESSAGE_VALUE = 57
    TARGET = 58
    TARGET_ARCHETYPE = 59
    TRANSACTIONAL_STATE = 60
    TRANSFER = 61
    VALUE = 62

    @staticmethod
    def from_name(name: str) -> Optional[Type]:
        """Returns the type with this name, as `open` or `message-data`, or None if there is none."""
        raw = name.encode()
        number = _library.amqp_c_type(raw, len(raw))
        return Type(number) if number else None


class Kind(enum.IntEnum):
    """The kind of a node of a term."""

    NULL = 1
    BOOL = 2
    UBYTE = 3
    USHORT = 4
    UINT = 5
    ULONG = 6
    BYTE = 7
    SHORT = 8
    INT = 9
    LONG = 10
    DECIMAL32 = 11
    DECIMAL64 = 12
    DECIMAL128 = 13
    CHAR = 14
    TIMESTAMP = 15
    UUID = 16
    BINARY = 17
    STRING = 18
    SYMBOL = 19
    DESCRIBED = 20
    LIST = 21
    MAP = 22
    ARRAY = 23


# Drawn once a process, and never 0.
_PROCESS_SEED = int.from_bytes(os.urandom(8), "big") or 1


@dataclass(frozen=True, repr=False)
class Limits:
    """Limits on what is read: how deep values nest, up to 128, how many bytes are read, and how many items are in them.

    Each primitive, list, map and array is an item. In an array, each item takes one more for each descriptor that it shares, and for each
    whole 32 bytes of that descriptor's name.

    Keys of hashed maps are hashed by the seed, which a peer must not know. If none is given, it is the seed of this process. If it is 0,
    the hash is faster.
    """

    nesting: int = 128
    bytes: int = UNLIMITED
    items: int = UNLIMITED
    hash_seed: int = field(default_factory=lambda: _PROCESS_SEED, repr=False)

    def __repr__(self) -> str:
        shown = [(it.name, getattr(self, it.name)) for it in fields(self) if it.repr and getattr(self, it.name) != it.default]
        return f"Limits({', '.join(f'{name}={number}' for name, number in shown)})"

    def __reduce__(self) -> Tuple[Any, ...]:
        return Limits, (self.nesting, self.bytes, self.items, self.hash_seed)

    @functools.cached_property
    def _passed(self) -> Any:
        """The limits as they are passed to a call, which only reads them."""
        return ctypes.byref(_Limits(self.nesting, self.bytes, self.items, self.hash_seed))


class AmqpError(ValueError):
    """Why the library doesn't read or write a value.

    number: The number of the error.
    name: Its name, as `Cut`.
    code: The format code that it reports, or None if it reports none.
    at: The place of the fault: how many bytes of the data are before what is at fault, or None if the error or the call has no place.

    >>> try:
    ...     canonical(Type.VALUE, bytes.fromhex("005323c00401a101ff"))
    ... except AmqpError as error:
    ...     print(error.name, error.at, error.path)
    BadUtf8 6 received.section-number
    """

    def __init__(self, number: int, detail: int = 0, at: Optional[int] = None, of: Optional[Type] = None, data: bytes = b"") -> None:
        self.number = number
        self.name = error_name(number)
        self.code = detail if number in _NAMES_A_CODE else None
        self.at = at if _is_of_bytes(number) else None
        self._of, self._data = of, data
        super().__init__(self.name if self.code is None else f"{self.name}: 0x{self.code:02x}")

    @functools.cached_property
    def path(self) -> Optional[str]:
        """The path to the fault, as `attach.source.filter`, or None if the error has no place.

        It is the outermost type's name and a step for each node: `.NAME` for a field of a composite, `[N]` for an item of a list or of an
        array, `{N}` for the key of the pair N of a map, and `[{N}]` for its value. `(descriptor)` is a descriptor, `(constructor)` that of
        an array's items, and `(end)` the place behind the last item. All numbers count from 0. If the data has several sections, the path
        begins with the section that has the fault.
        """
        if self.at is None or self._of is None:
            return None
        start = _section_of(self._data, self.at, self.number in _MAY_END)
        return printed_path(path_of(self._data[start:], self.at - start), self._of)

    def __reduce__(self) -> Tuple[Any, ...]:
        return AmqpError, (self.number, self.code or 0, self.at), {"path": self.path}


def _is_of_bytes(number: int) -> bool:
    """Whether the error with this number is a fault of bytes. The others say that memory ran out, or that a value can't be written."""
    return 1 <= number <= 20 or 25 <= number <= 31


class _Outcome(ctypes.Structure):
    _fields_ = [("number", ctypes.c_uint32), ("detail", ctypes.c_uint32), ("at", ctypes.c_uint64)]


class _PathNode(ctypes.Structure):
    _fields_ = [
        ("at", ctypes.c_size_t),
        ("piece", ctypes.c_uint32),
        ("container", ctypes.c_uint32),
        ("count", ctypes.c_size_t),
        ("index", ctypes.c_size_t),
        ("descriptors", ctypes.c_size_t),
        ("type", ctypes.c_uint32),
        ("code", ctypes.c_uint8),
    ]


class _Node(ctypes.Structure):
    _fields_ = [
        ("kind", ctypes.c_uint32),
        ("depth", ctypes.c_uint32),
        ("code", ctypes.c_uint8),
        ("item_code", ctypes.c_uint8),
        ("count", ctypes.c_size_t),
        ("start", ctypes.c_size_t),
        ("end", ctypes.c_size_t),
        ("next", ctypes.c_size_t),
    ]


class _Limits(ctypes.Structure):
    _fields_ = [
        ("nesting", ctypes.c_uint32),
        ("bytes", ctypes.c_uint64),
        ("items", ctypes.c_uint64),
        ("hash_seed", ctypes.c_uint64),
    ]


def _shared_object() -> str:
    """Returns what AMQP_TYPES_SO names, or else the object in this package, which a release has, or else the name that the system knows."""
    inside = os.path.join(os.path.dirname(os.path.abspath(__file__)), "libamqp_types.so")
    return os.environ.get("AMQP_TYPES_SO") or (inside if os.path.exists(inside) else "libamqp_types.so.0")


def _loaded() -> ctypes.CDLL:
    """Loads the shared object and declares what its calls take and return, as `c/amqp_types.h` does."""
    try:
        library = ctypes.CDLL(_shared_object())
    except OSError as error:
        raise OSError(f"the shared object isn't loaded; set AMQP_TYPES_SO to its path: {error}") from error
    size, place, number = ctypes.c_size_t, ctypes.POINTER(ctypes.c_size_t), ctypes.c_uint32
    data, limits = ctypes.c_char_p, ctypes.POINTER(_Limits)
    signatures = {
        "amqp_c_type": ([data, size], number),
        "amqp_c_read": ([number, data, size, limits, place], _Outcome),
        "amqp_c_canonical": ([number, data, size, limits, ctypes.c_void_p, size, place, place], _Outcome),
        "amqp_c_term_len": ([data, size, place], _Outcome),
        "amqp_c_path": ([data, size, size, ctypes.POINTER(_PathNode), size], size),
        "amqp_c_next": ([data, size, size, ctypes.POINTER(_Node)], _Outcome),
        "amqp_c_field": ([data, size, ctypes.POINTER(_Node), size, ctypes.POINTER(_Node)], _Outcome),
        "amqp_c_type_of_descriptor": ([ctypes.c_uint64], number),
        "amqp_c_field_name": ([number, size, ctypes.c_void_p, size], size),
        "amqp_c_error_name": ([number, ctypes.c_void_p, size], size),
        "amqp_c_greatest": ([limits], None),
        "amqp_c_for_peers": ([limits, ctypes.c_uint64], None),
    }
    for call_name, (takes, gives) in signatures.items():
        call = getattr(library, call_name)
        call.argtypes, call.restype = takes, gives
    return library


_library = _loaded()


class _Room:
    """What a call writes to: a buffer for a text, and two numbers. One call has it at a time."""

    __slots__ = ("size", "out", "written", "taken", "written_at", "taken_at")

    def __init__(self, size: int) -> None:
        self.size = size
        self.out: Any = ctypes.create_string_buffer(size) if size else None
        self.written, self.taken = ctypes.c_size_t(), ctypes.c_size_t()
        self.written_at, self.taken_at = ctypes.byref(self.written), ctypes.byref(self.taken)

    def text(self) -> bytes:
        """Returns the text that a call has written."""
        text: bytes = self.out[: self.written.value] if self.size else b""
        return text


# The same call for short data. Without declared types, ctypes passes what it is given as it is, in a third of the time. So it may only be
# given a `Type`, bytes, and what `byref` and `from_param` return. Other threads of Python don't run meanwhile: to wait for the next turn
# could take longer than the call. On x86-64 an outcome is returned in two registers. This reads the first, with the error's number in the
# lower half, and an error is asked for again.
_quick_canonical = ctypes.PyDLL(_library._name, handle=_library._handle).amqp_c_canonical
_quick_canonical.restype = ctypes.c_uint64


class _Sizes(Dict[int, Any]):
    """Sizes as they are passed to the quick call. Each is made when it is first needed."""

    def __missing__(self, size: int) -> Any:
        return self.setdefault(size, ctypes.c_size_t.from_param(size))


def _quick_room() -> Tuple[Any, ...]:
    """Returns what the quick call writes to: a buffer of the kept size and two numbers. After them comes what passes these three."""
    out, written, taken = ctypes.create_string_buffer(_KEPT_ROOM), ctypes.c_size_t(), ctypes.c_size_t()
    return out, written, taken, ctypes.byref(out), ctypes.byref(written), ctypes.byref(taken)


_sizes = _Sizes()
_kept_size = _sizes[_KEPT_ROOM]

# The rooms that no quick call has now.
_rooms: List[Tuple[Any, ...]] = []


def greatest() -> Limits:
    """Returns the greatest limits, under which everything is read that nests at most 128 deep."""
    limits = _Limits()
    _library.amqp_c_greatest(ctypes.byref(limits))
    return Limits(limits.nesting, limits.bytes, limits.items)


def for_peers(size: int) -> Limits:
    """Returns limits for data from a peer, of which at most so many bytes are read. There are at most as many values as bytes."""
    limits = _Limits()
    _library.amqp_c_for_peers(ctypes.byref(limits), size)
    return Limits(limits.nesting, limits.bytes, limits.items)


def error_name(number: int) -> str:
    """Returns the name of the error with this number, as `Cut`, or an empty text if there is none."""
    room = ctypes.create_string_buffer(32)
    size = _library.amqp_c_error_name(number, room, len(room))
    return room.raw[:size].decode()


def type_of_descriptor(code: int) -> Optional[Type]:
    """Returns the type whose values have the descriptor with this code, or `None`. A sum of types has none, nor has a message.

    >>> type_of_descriptor(0x12)
    <Type.ATTACH: 6>
    """
    number = _library.amqp_c_type_of_descriptor(code) if 0 <= code < 2**64 else 0
    return Type(number) if number else None


def field_name(of: Type, index: int) -> Optional[str]:
    """Returns the standard's name of the field with this number, counted from 0, of a composite's type, or `None` if it has no such field.

    >>> field_name(Type.ATTACH, 5)
    'source'
    """
    room = ctypes.create_string_buffer(32)
    size = _library.amqp_c_field_name(of, index, room, len(room)) if index >= 0 else 0
    return room.raw[:size].decode() if size else None


def _check(outcome: Any, of: Type, data: bytes) -> None:
    """Raises the error of a call that tells places."""
    if outcome.number:
        raise AmqpError(outcome.number, outcome.detail, outcome.at, of, data)


def _check_node(outcome: Any) -> None:
    """Raises the error of a call that tells no place."""
    if outcome.number:
        raise AmqpError(outcome.number, outcome.detail)


_DEFAULT = Limits()
_default_passed = _DEFAULT._passed


def read(of: Type, data: bytes, limits: Limits = _DEFAULT) -> int:
    """Returns how many bytes the value of the type at the start of the data takes, within the limits.

    >>> read(Type.BOOLEAN, b"\x41\x42")
    1
    """
    taken = ctypes.c_size_t()
    _check(_library.amqp_c_read(of, data, len(data), limits._passed, ctypes.byref(taken)), of, data)
    return taken.value


def canonical(of: Type, data: bytes, limits: Limits = _DEFAULT) -> Tuple[bytes, int]:
    r"""Returns the canonical text of the value of the type at the start of the data, within the limits, and how many bytes the value takes.

    >>> canonical(Type.ACCEPTED, bytes.fromhex("005324c00000ff"))
    (b'\x00S$E', 6)
    """
    size = len(data)
    if size <= _KEPT_ROOM and type(data) is bytes and type(of) is Type:
        passed = _default_passed if limits is _DEFAULT else limits._passed
        try:
            room = _rooms.pop()
        except IndexError:
            room = _quick_room()
        try:
            out, written, taken, out_at, written_at, taken_at = room
            outcome = _quick_canonical(of, data, _sizes[size], passed, out_at, _kept_size, written_at, taken_at)
            if outcome == 0:
                return out[: written.value], taken.value
            size = written.value if outcome == _NO_ROOM else 0
        finally:
            _rooms.append(room)
    return _canonical(of, data, limits, _Room(size))


def _canonical(of: Type, data: bytes, limits: Limits, room: _Room) -> Tuple[bytes, int]:
    """Does the same with a room, or with a larger one if the text is longer."""
    while not _is_written(of, data, limits, room):
        room = _Room(room.written.value)
    return room.text(), room.taken.value


def canonical_into(of: Type, data: bytes, room: int, limits: Limits = _DEFAULT) -> Tuple[Optional[bytes], int, int]:
    """Returns the same with so many bytes of room: the text, its length, and how many bytes the value takes. A longer text is None.

    >>> canonical_into(Type.BOOLEAN, b"\x56\x01", 0)
    (None, 1, 2)
    """
    to = _Room(room)
    text = to.text() if _is_written(of, data, limits, to) else None
    return text, to.written.value, to.taken.value


def _is_written(of: Type, data: bytes, limits: Limits, room: _Room) -> bool:
    """Writes the canonical text to the room. If the text is longer than the room, only its length is written."""
    outcome = _library.amqp_c_canonical(
        of, data, len(data), limits._passed, room.out, room.size, room.written_at, room.taken_at
    )
    if outcome.number == _NO_ROOM:
        return False
    _check(outcome, of, data)
    return True


def term_len(data: bytes) -> int:
    r"""Returns the length of the term at the start of the data: one encoded value, of any type.

    >>> term_len(b"\xa1\x02hi\x00")
    4
    """
    taken = ctypes.c_size_t()
    _check(_library.amqp_c_term_len(data, len(data), ctypes.byref(taken)), Type.VALUE, data)
    return taken.value


class Piece(enum.IntEnum):
    """What begins at a node of a path."""

    VALUE = 1
    DESCRIPTOR = 2
    ITEM = 3
    ARRAY_CONTENT = 4
    ELEMENT_CONSTRUCTOR = 5
    ELEMENT = 6
    END = 7


class Container(enum.IntEnum):
    """A kind of value that holds any number of other values."""

    LIST = 1
    MAP = 2
    ARRAY = 3


@dataclass(frozen=True)
class PathNode:
    """A node of a path.

    at: How many bytes of the data are before it.
    piece: What begins there: a value by itself, a descriptor, an item of a list or a map, the content of an array, the rest of the
        constructor that the array's items share, an item of the array, or nothing, behind all items of a container.
    container: The container that it is in, or whose end it is; None for a value by itself and for a descriptor.
    count: How many items the container announces; 0 for the rest of a constructor.
    index: The number of an item, from 0. In a map, keys have even numbers, each before its value.
    descriptors: How many descriptors of a shared constructor are before its rest, or describe what begins here.
    type: For a value behind a descriptor, the type that has the descriptor's code. If this is a list, its items have the type, too, whose
        fields they are, and so has its end. Otherwise None.
    code: The format code that the items of an array share, or 0.
    """

    at: int
    piece: Piece
    container: Optional[Container]
    count: int
    index: int
    descriptors: int
    type: Optional[Type]
    code: int


def path_of(data: bytes, at: int) -> List[PathNode]:
    """Returns the path to an offset of the encoded value at the start of the data: the nodes around it, from the outside in.

    The first node is the value itself, and none begins behind the offset. The bytes there and behind it need not be well formed.

    >>> [(node.at, node.piece.name, node.index) for node in path_of(bytes.fromhex("005323c005025209530d"), 8)]
    [(0, 'VALUE', 0), (3, 'VALUE', 0), (8, 'ITEM', 1)]
    """
    count = _library.amqp_c_path(data, len(data), at, None, 0)
    nodes = (_PathNode * count)()
    _library.amqp_c_path(data, len(data), at, nodes, count)
    return [_told(node) for node in nodes]


def _told(node: Any) -> PathNode:
    container = Container(node.container) if node.container else None
    of = Type(node.type) if node.type else None
    return PathNode(node.at, Piece(node.piece), container, node.count, node.index, node.descriptors, of, node.code)


def _section_of(data: bytes, at: int, may_end: bool) -> int:
    """Returns where the section begins that has the place: behind the whole sections before it, of which the last may end there."""
    start, taken = 0, ctypes.c_size_t()
    while not _library.amqp_c_term_len(data[start:], len(data) - start, ctypes.byref(taken)).number:
        end = start + taken.value
        if end > at or (end == at and may_end):
            break
        start = end
    return start


def printed_path(path: List[PathNode], of: Type) -> str:
    """Returns a path as `AmqpError.path` has it. The type is the one that was asked for, if the value doesn't say its own.

    >>> printed_path(path_of(bytes.fromhex("005323c005025209530d"), 8), Type.VALUE)
    'received.section-offset'
    """
    root = path[1].type if len(path) > 1 and path[1].piece == Piece.VALUE else None
    return _name_of(root or Type(of)) + "".join(_step(node, before) for before, node in zip(path, path[1:]))


def _name_of(of: Type) -> str:
    return of.name.lower().replace("_", "-")


_MARKS = {Piece.DESCRIPTOR: "(descriptor)", Piece.ELEMENT_CONSTRUCTOR: "(constructor)", Piece.END: "(end)"}


def _step(node: PathNode, before: PathNode) -> str:
    """Returns the step to a node of a path from the one before it."""
    if node.piece == Piece.ITEM and node.container == Container.MAP:
        return f"[{{{node.index // 2}}}]" if node.index % 2 else f"{{{node.index // 2}}}"
    if node.piece == Piece.ITEM:
        name = field_name(node.type, node.index) if node.type else None
        return f".{name}" if name else f"[{node.index}]"
    if node.piece == Piece.ELEMENT and before.piece != Piece.ELEMENT:
        return f"[{node.index}]"
    return _MARKS.get(node.piece, "")


@dataclass(frozen=True)
class Node:
    """A value in a term, by its offsets in the data. A described value is a node with two in it, its descriptor and its value."""

    kind: Kind
    depth: int
    code: int
    item_code: int
    count: int
    start: int
    end: int
    next: int


def _passed(node: Node) -> _Node:
    return _Node(node.kind, node.depth, node.code, node.item_code, node.count, node.start, node.end, node.next)


def _returned(node: _Node) -> Node:
    return Node(Kind(node.kind), node.depth, node.code, node.item_code, node.count, node.start, node.end, node.next)


def node_at(data: bytes, at: int = 0, around: Optional[Node] = None) -> Node:
    """Returns the node that begins at the offset, in the enclosing node. The items of an array have no constructor of their own."""
    node = _passed(around) if around else _Node()
    _check_node(_library.amqp_c_next(data, len(data), at, ctypes.byref(node)))
    return _returned(node)


def field_at(data: bytes, composite: Node, index: int) -> Optional[Node]:
    """Returns the node of a composite's field, by the field's number from 0 on, or `None` if the composite omits the field.

    >>> received = bytes.fromhex("005323c005025209530d")
    >>> field_at(received, node_at(received), 1).end
    10
    """
    field = _Node()
    _check_node(_library.amqp_c_field(data, len(data), ctypes.byref(_passed(composite)), index, ctypes.byref(field)))
    return _returned(field) if field.kind else None


def nodes(data: bytes, at: int = 0, around: Optional[Node] = None) -> Iterator[Node]:
    """Returns the nodes of the term at the start of the data, each before those in it.

    >>> [(node.kind.name, node.depth) for node in nodes(bytes.fromhex("005323c005025209530d"))]
    [('DESCRIBED', 0), ('ULONG', 1), ('LIST', 1), ('UINT', 2), ('ULONG', 2)]
    """
    node = node_at(data, at, around)
    yield node
    place = node.next
    for _ in range(node.count):
        for inner in nodes(data, place, node):
            yield inner
            if inner.depth == node.depth + 1:
                place = inner.end
