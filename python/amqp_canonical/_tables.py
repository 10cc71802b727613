"""What the generated classes are made with: the rules of fields, and what composites and sections have in common (Part 1, section 1.4)."""

from __future__ import annotations

import enum
from typing import Any, ClassVar, Dict, NamedTuple, Tuple, TypeVar

from ._library import Type

Key = TypeVar("Key")
Item = TypeVar("Item")


MESSAGES = (
    Type.MESSAGE,
    Type.MESSAGE_BATCH,
    Type.MESSAGE_DATA,
    Type.MESSAGE_VALUE,
    Type.STRICT_MESSAGE,
    Type.STRICT_MESSAGE_BATCH,
    Type.STRICT_MESSAGE_DATA,
    Type.STRICT_MESSAGE_VALUE,
)
"""The types of messages, whose sections are in any order or in the standard's."""


class Rule(enum.Enum):
    """What a field may be (Part 1, section 1.4)."""

    MANDATORY = "mandatory"
    OPTIONAL = "optional"
    DEFAULT = "default"
    MULTIPLE = "multiple"
    MANDATORY_MULTIPLE = "mandatory, multiple"

    def __repr__(self) -> str:
        return self.name


MANDATORY, OPTIONAL, DEFAULT = Rule.MANDATORY, Rule.OPTIONAL, Rule.DEFAULT
MULTIPLE, MANDATORY_MULTIPLE = Rule.MULTIPLE, Rule.MANDATORY_MULTIPLE


class Field(NamedTuple):
    """A field of a composite: its name in the standard, the type of its values, and its rule."""

    name: str
    type: Any
    rule: Rule

    @property
    def attribute(self) -> str:
        """The name of the attribute that has the field's value."""
        return self.name.replace("-", "_")

    @property
    def is_mandatory(self) -> bool:
        """Whether the field is in each composite."""
        return self.rule in (Rule.MANDATORY, Rule.MANDATORY_MULTIPLE)

    @property
    def is_several(self) -> bool:
        """Whether the field has several values."""
        return self.rule in (Rule.MULTIPLE, Rule.MANDATORY_MULTIPLE)


class Composite:
    """A described list of fields (Part 1, section 1.4). A field that is omitted reads as its default, or as None if it has none."""

    TYPE: ClassVar[Type]
    DESCRIPTOR: ClassVar[Tuple[int, str]]
    FIELDS: ClassVar[Tuple[Field, ...]]


class Section:
    """A section of a message that is one value (Part 3, section 3.2), which is in `value`."""

    TYPE: ClassVar[Type]
    DESCRIPTOR: ClassVar[Tuple[int, str]]
    value: Any


class MapSection(Dict[Key, Item]):
    """A section of a message that is a map (Part 3, section 3.2)."""

    TYPE: ClassVar[Type]
    DESCRIPTOR: ClassVar[Tuple[int, str]]

    def __repr__(self) -> str:
        return f"{type(self).__name__}({dict.__repr__(self)})"
