"""Values at random of each type, in the form in which they are read, and how two values are compared with their types."""

from __future__ import annotations

import dataclasses
import functools
import random
import uuid
from typing import Any, Callable, Dict, List, Tuple, Union, get_args, get_origin

from amqp_canonical import (
    Array,
    Byte,
    Char,
    Decimal32,
    Decimal64,
    Decimal128,
    Described,
    Int,
    Long,
    Pairs,
    Short,
    Symbol,
    Timestamp,
    Type,
    Ubyte,
    Uint,
    Ulong,
    Ushort,
    encode,
    types,
)
from amqp_canonical._tables import Field, Rule

NUMBERS: Dict[Any, Tuple[int, int]] = {
    Ubyte: (0, 2**8 - 1),
    Ushort: (0, 2**16 - 1),
    Uint: (0, 2**32 - 1),
    Ulong: (0, 2**64 - 1),
    Byte: (-(2**7), 2**7 - 1),
    Short: (-(2**15), 2**15 - 1),
    Int: (-(2**31), 2**31 - 1),
    Long: (-(2**63), 2**63 - 1),
    Timestamp: (-(2**63), 2**63 - 1),
}
ALPHABET = "aZ09-:._ \x00\x7f\u00e9\u20ac\uffff\U0001f600"


def name_of(of: Any) -> str:
    """Returns the name of a class or of a member of an enum."""
    return str(of.name if isinstance(of, Type) else of.__name__)


def same(first: Any, second: Any) -> bool:
    """Whether two values are equal, and all that is in them is of the same classes and in the same order."""
    if type(first) is not type(second):
        return False
    if isinstance(first, dict):
        return same(Pairs(first.items()), Pairs(second.items()))
    if isinstance(first, (list, tuple)):
        return len(first) == len(second) and all(map(same, first, second))
    if dataclasses.is_dataclass(first):
        return all(same(getattr(first, it.name), getattr(second, it.name)) for it in dataclasses.fields(first))
    return bool(first == second)


def as_mapping(pairs: Pairs) -> Union[Dict[Any, Any], Pairs]:
    """Returns pairs as the map that is read."""
    try:
        made = dict(pairs)
    except TypeError:
        return pairs
    return made if len(made) == len(pairs) else pairs


class Maker:
    """Makes values of each type, at random."""

    def __init__(self, seed: int) -> None:
        self.random = random.Random(seed)

    # Primitives.

    def number(self, of: Any) -> int:
        """Returns a number of the class's range: often one at an end of it, or where the encoding changes."""
        least, greatest = NUMBERS[of]
        near = [it for it in (least, -129, -128, -1, 0, 1, 127, 128, 255, 256, greatest) if least <= it <= greatest]
        return self.random.choice([*near, self.random.randint(least, greatest)])

    def number_of(self, of: Any) -> Any:
        return of(self.number(of))

    def size(self) -> int:
        return self.random.choice([0, 1, 2, 3, 5, 8, 13, 255, 256, 300] if self.random.random() < 0.1 else [0, 1, 2, 3, 5])

    def text(self) -> str:
        return "".join(self.random.choices(ALPHABET, k=self.size()))

    def symbol(self) -> Symbol:
        return Symbol("".join(self.random.choices(ALPHABET[:10], k=self.size())))

    def binary(self) -> bytes:
        return self.random.getrandbits(8 * 300).to_bytes(300, "big")[: self.size()]

    def char(self) -> Char:
        return Char(self.random.choice([*ALPHABET, chr(self.random.randint(0xE000, 0x10FFFF)), chr(self.random.randint(0, 0xD7FF))]))

    def uuid(self) -> uuid.UUID:
        return uuid.UUID(int=self.random.getrandbits(128))

    def boolean(self) -> bool:
        return self.random.random() < 0.5

    def decimal(self, of: Any) -> Any:
        width = {Decimal32: 4, Decimal64: 8, Decimal128: 16}[of]
        return of(self.random.getrandbits(8 * width).to_bytes(width, "big"))

    def descriptor(self) -> Union[int, Symbol]:
        return self.symbol() if self.boolean() else self.number(Ulong)

    # Values of any type.

    def simple_makers(self) -> List[Callable[[], Any]]:
        """Returns makers of each primitive type that may be an item of an array."""
        numbers = [functools.partial(self.number_of, of) for of in NUMBERS]
        decimals = [functools.partial(self.decimal, of) for of in (Decimal32, Decimal64, Decimal128)]
        return [*numbers, *decimals, self.text, self.symbol, self.binary, self.char, self.uuid, self.boolean]

    def simple(self, depth: int = 3) -> Any:
        if depth and self.random.random() < 0.1:
            return Described(self.descriptor(), self.simple(depth - 1))
        return self.random.choice([lambda: None, *self.simple_makers()])()

    def value(self, depth: int = 3) -> Any:
        if not depth or self.random.random() < 0.6:
            return self.simple(depth)
        return self.random.choice([self.list, self.mapping, self.array, self.described])(depth - 1)

    def list(self, depth: int) -> List[Any]:
        return [self.value(depth) for _ in range(self.random.randint(0, 4))]

    def described(self, depth: int) -> Described:
        return Described(self.descriptor(), self.value(depth))

    def mapping(self, depth: int) -> Union[Dict[Any, Any], Pairs]:
        """Returns a map without equal keys. Some keys are one key in Python, and some can't be one."""
        keys = self.random.choices([True, Ubyte(1), Uint(1), Long(1), "a", Symbol("a"), Char("a")], k=self.random.randint(0, 2))
        keys += [self.value(depth) for _ in range(self.random.randint(0, 3))]
        apart = {encode(key): key for key in keys}
        return as_mapping(Pairs([(key, self.value(depth)) for key in apart.values()]))

    def array(self, depth: int) -> Array[Any]:
        """Returns an array, whose items are made by one maker of one type."""
        containers: List[Callable[[], Any]] = [lambda: self.list(depth), lambda: self.mapping(depth), lambda: self.array(depth)]
        make_items = containers if depth else []
        make = self.random.choice([*self.simple_makers(), *make_items])
        items = [make() for _ in range(self.random.randint(0, 4))]
        for _ in range(self.random.choice([0, 0, 0, 1, 2])):
            descriptor = self.descriptor()
            items = [Described(descriptor, item) for item in items]
        return Array(items)

    # Fields, composites and sections.

    def fields(self) -> Dict[str, Any]:
        return {self.symbol(): self.value(2) for _ in range(self.random.randint(0, 3))}

    def annotations(self) -> Dict[Any, Any]:
        keys = [self.symbol() if self.boolean() else Ulong(self.number(Ulong)) for _ in range(self.random.randint(0, 3))]
        return {key: self.value(2) for key in keys}

    def message_id(self) -> Any:
        return self.random.choice([lambda: Ulong(self.number(Ulong)), self.uuid, self.binary, self.text])()

    def condition(self) -> Any:
        lists = [of for of in get_args(types.ErrorCondition) if of is not str]
        return self.random.choice([*(member for of in lists for member in of), self.symbol()])

    def unsettled(self) -> Dict[bytes, Any]:
        return {self.binary(): self.random.choice([None, self.of(types.DeliveryState)]) for _ in range(self.random.randint(0, 2))}

    def of(self, kind: Any) -> Any:
        """Returns a value of a field's type."""
        made: Dict[Any, Callable[[], Any]] = {
            bool: self.boolean,
            str: self.text,
            Symbol: self.symbol,
            bytes: self.binary,
            Timestamp: lambda: Timestamp(self.number(Timestamp)),
            types.MessageId: self.message_id,
            types.ErrorCondition: self.condition,
            types.Fields: self.fields,
            types.Unsettled: self.unsettled,
        }
        if kind in made:
            return made[kind]()
        if kind in NUMBERS:
            return self.number(kind)
        if kind in types.RESTRICTED:
            return self.random.choice(list(kind))
        return self.composite(self.random.choice(get_args(kind)) if get_origin(kind) is Union else kind)

    def composite(self, of: Any) -> Any:
        """Returns a composite of the class. A field that may be omitted often is."""
        given = [it for it in of.FIELDS if it.rule in (Rule.MANDATORY, Rule.MANDATORY_MULTIPLE) or self.boolean()]
        return of(**{field.attribute: self.field(field) for field in given})

    def field(self, field: Field) -> Any:
        """Returns a value of a field."""
        if field.rule in (Rule.MULTIPLE, Rule.MANDATORY_MULTIPLE):
            return [self.of(field.type) for _ in range(self.random.randint(1, 3))]
        return self.of(field.type)

    def section(self, of: Any) -> Any:
        """Returns a section of the class that isn't a composite."""
        if of is types.ApplicationProperties:
            return of({self.text(): self.simple() for _ in range(self.random.randint(0, 4))})
        if issubclass(of, dict):
            return of(self.annotations())
        makers: Dict[Any, Callable[[], Any]] = {
            types.Data: self.binary,
            types.AmqpValue: self.value,
            types.AmqpSequence: lambda: self.list(3),
        }
        return of(makers[of]())

    def batch(self, of: Any, least: int) -> List[Any]:
        return [self.section(of) for _ in range(self.random.randint(least, 4))]

    def body(self) -> Any:
        of = self.random.choice([types.Data, types.AmqpSequence, types.AmqpValue])
        return self.batch(of, 2) if of is not types.AmqpValue and self.boolean() else self.section(of)

    def message(self, body: Callable[[], Any]) -> types.Message:
        """Returns a message. Each section but the body is often omitted."""

        def some(make: Callable[[], Any]) -> Any:
            return make() if self.boolean() else None

        return types.Message(
            header=some(lambda: self.composite(types.Header)),
            delivery_annotations=some(lambda: self.section(types.DeliveryAnnotations)),
            message_annotations=some(lambda: self.section(types.MessageAnnotations)),
            properties=some(lambda: self.composite(types.Properties)),
            application_properties=some(lambda: self.section(types.ApplicationProperties)),
            body=body(),
            footer=some(lambda: self.section(types.Footer)),
        )

    # Types.

    def of_type(self, of: Type) -> Any:
        """Returns a value of the type."""
        name = of.name.replace("STRICT_", "")
        bodies: Dict[str, Callable[[], Any]] = {
            "MESSAGE": self.body,
            "MESSAGE_BATCH": lambda: self.batch(types.Data, 1),
            "MESSAGE_DATA": lambda: self.section(types.Data),
            "MESSAGE_VALUE": lambda: self.section(types.AmqpValue),
        }
        others: Dict[Type, Callable[[], Any]] = {
            Type.ANNOTATIONS: self.annotations,
            Type.BATCH_DATA: lambda: self.batch(types.Data, 0),
            Type.BATCH_SEQUENCE: lambda: self.batch(types.AmqpSequence, 0),
            Type.BODY: self.body,
            Type.BOOLEAN: self.boolean,
            Type.ERROR_CONDITION: self.condition,
            Type.MESSAGE_ID: self.message_id,
            Type.SIMPLE_VALUE: self.simple,
            Type.VALUE: self.value,
            Type.DELIVERY_STATE: lambda: self.of(types.DeliveryState),
            Type.LIFETIME_POLICY: lambda: self.of(types.LifetimePolicy),
            Type.OUTCOME: lambda: self.of(types.Outcome),
            Type.PERFORMATIVE: lambda: self.of(types.Performative),
            Type.TARGET_ARCHETYPE: lambda: self.of(types.TargetArchetype),
        }
        if name in bodies:
            return self.message(bodies[name])
        if of in others:
            return others[of]()
        section = next((it for it in types.SECTIONS if it.TYPE is of), None)
        return self.section(section) if section else self.composite(next(it for it in types.COMPOSITES if it.TYPE is of))
