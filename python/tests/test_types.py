"""The generated classes are those of the library's tables, and each type of the standard has one."""

from __future__ import annotations

import dataclasses
import re
import subprocess
import sys
from pathlib import Path
from typing import TYPE_CHECKING, Any, Dict, List, get_args

import pytest
from values import name_of

import amqp_canonical
from amqp_canonical import Symbol, Type, Ubyte, Uint, decode, encode, types
from amqp_canonical._tables import Rule

if TYPE_CHECKING:
    # A type checker knows what is decoded: if it were anything, it would tell these comments.
    decode(Type.ATTACH, b"")[0].nothing  # type: ignore[attr-defined]
    decode(Type.MESSAGE, b"")[0].nothing  # type: ignore[attr-defined]
    decode(Type.DELIVERY_STATE, b"")[0].nothing  # type: ignore[union-attr]

TOP = Path(__file__).parents[2]

# The types of docs/TYPES.md that have other names in Python, and those that only Rust needs.
RENAMED = {
    "AmqpError": "AmqpErrorCondition",
    "ConnectionError": "ConnectionErrorCondition",
    "SessionError": "SessionErrorCondition",
    "LinkError": "LinkErrorCondition",
    "TransactionError": "TransactionErrorCondition",
}
NUMBERS = ["Ubyte", "Ushort", "Uint", "Ulong", "Byte", "Short", "Int", "Long"]
IN_PACKAGE = ["Symbol", "Timestamp", "Array", "Described"]
IN_PYTHON = {"bool", "u8", "u16", "u32", "u64", "i8", "i16", "i32", "i64", "char", "String", "Dec32", "Dec64", "Dec128", "Uuid", "Binary"}
OF_RUST = {
    "Option", "Box", "Rc", "T", "Vec", "OrderedMap", "BTreeMap", "ValueMap", "LazyValue", "Value", "SimpleValue", "SymbolRef", "ByteBuf",
    "CowStr", "str", "mut", "K", "V", "Descriptor", "AmqpValue", "AmqpSequence",
}  # fmt: skip


def test_the_file_is_what_the_tool_makes() -> None:
    ran = subprocess.run([sys.executable, str(TOP / "tools/python-types"), "--check"], capture_output=True, text=True, check=False)
    assert ran.returncode == 0, ran.stdout + ran.stderr


def types_of_page() -> List[str]:
    """Returns the names of the types in the first column of the table of docs/TYPES.md."""
    rows = [line.split("|")[1] for line in (TOP / "docs/TYPES.md").read_text(encoding="utf-8").splitlines() if line.startswith("| `")]
    return [path.split("::")[-1] for row in rows for path in re.findall(r"`&?([\w:]+)", row)]


def test_each_type_of_the_page_has_its_class() -> None:
    names = types_of_page()
    assert len(names) > 80
    missing = [
        name
        for name in names
        if not hasattr(types, RENAMED.get(name, name)) and name not in IN_PACKAGE and name not in IN_PYTHON | OF_RUST
    ]
    assert missing == []
    for name in [*NUMBERS, *IN_PACKAGE, "Char", "Decimal32", "Decimal64", "Decimal128"]:
        assert hasattr(amqp_canonical, name)


def test_each_type_of_a_line_has_one_class() -> None:
    """But for batches, bodies, messages, sums, and what is no described value."""
    named = [of.TYPE for of in (*types.COMPOSITES, *types.SECTIONS)]
    assert len(set(named)) == len(named) == 40
    others = {of.name for of in Type} - {of.name for of in named}
    assert others == {
        "ANNOTATIONS", "BATCH_DATA", "BATCH_SEQUENCE", "BODY", "BOOLEAN", "DELIVERY_STATE", "ERROR_CONDITION", "LIFETIME_POLICY", "MESSAGE",
        "MESSAGE_BATCH", "MESSAGE_DATA", "MESSAGE_ID", "MESSAGE_VALUE", "OUTCOME", "PERFORMATIVE", "SIMPLE_VALUE", "STRICT_MESSAGE",
        "STRICT_MESSAGE_BATCH", "STRICT_MESSAGE_DATA", "STRICT_MESSAGE_VALUE", "TARGET_ARCHETYPE", "VALUE",
    }  # fmt: skip


@pytest.mark.parametrize("of", types.COMPOSITES, ids=name_of)
def test_attributes_are_the_fields(of: Any) -> None:
    """The mandatory ones come first, and only these have no default."""
    attributes = dataclasses.fields(of)
    in_order = sorted(of.FIELDS, key=lambda it: it.rule not in (Rule.MANDATORY, Rule.MANDATORY_MULTIPLE))
    assert [it.name for it in attributes] == [it.attribute for it in in_order]
    for attribute, field in zip(attributes, in_order):
        is_mandatory = field.rule in (Rule.MANDATORY, Rule.MANDATORY_MULTIPLE)
        assert (attribute.default is dataclasses.MISSING) == is_mandatory
        assert (attribute.default is None) == (field.rule in (Rule.OPTIONAL, Rule.MULTIPLE))
        assert re.search(rf"(?m)^ *{attribute.name}: \S", of.__doc__)
    assert re.search(r"\(Part \d, sections? \d", of.__doc__)


def test_names_are_those_of_the_standard() -> None:
    """Some composites with their fields, as the standard has them."""
    rows: Dict[Any, str] = {
        types.Open: "container-id hostname max-frame-size channel-max idle-time-out outgoing-locales incoming-locales offered-capabilities "
        "desired-capabilities properties",
        types.Flow: "next-incoming-id incoming-window next-outgoing-id outgoing-window handle delivery-count link-credit available drain "
        "echo properties",
        types.Transfer: "handle delivery-id delivery-tag message-format settled more rcv-settle-mode state resume aborted batchable",
        types.Header: "durable priority ttl first-acquirer delivery-count",
        types.Properties: "message-id user-id to subject reply-to correlation-id content-type content-encoding absolute-expiry-time "
        "creation-time group-id group-sequence reply-to-group-id",
        types.SaslInit: "mechanism initial-response hostname",
        types.Accepted: "",
    }
    for of, names in rows.items():
        assert [it.name for it in of.FIELDS] == names.split()
    assert types.Attach.DESCRIPTOR == (0x12, "amqp:attach:list") and types.Footer.DESCRIPTOR == (0x78, "amqp:footer:map")


def test_omitted_fields_have_their_defaults() -> None:
    opened, _ = decode(Type.OPEN, bytes.fromhex("005310c00401a10163"))
    assert (opened.max_frame_size, opened.channel_max, opened.hostname, opened.offered_capabilities) == (4294967295, 65535, None, None)
    header, _ = decode(Type.HEADER, bytes.fromhex("00537045"))
    assert header == types.Header() and (header.priority, header.durable, header.delivery_count, header.ttl) == (4, False, 0, None)
    source, _ = decode(Type.SOURCE, bytes.fromhex("00532845"))
    assert source == types.Source() and source.expiry_policy is types.TerminusExpiryPolicy.SESSION_END
    begin, _ = decode(Type.BEGIN, encode(types.Begin(next_outgoing_id=1, incoming_window=2, outgoing_window=3)))
    assert (begin.remote_channel, begin.next_outgoing_id, begin.incoming_window, begin.outgoing_window) == (None, 1, 2, 3)


def test_fields_are_in_their_places() -> None:
    """Each field of a flow and of a begin by its own number, as bytes have them in the standard's order."""
    flow, _ = decode(Type.FLOW, bytes.fromhex("005313c0160b520152025203520452055206520752084141c10100"))
    numbers = [flow.next_incoming_id, flow.incoming_window, flow.next_outgoing_id, flow.outgoing_window, flow.handle]
    assert numbers == [1, 2, 3, 4, 5]
    assert [flow.delivery_count, flow.link_credit, flow.available, flow.drain, flow.echo, flow.properties] == [6, 7, 8, True, True, {}]
    begin, _ = decode(Type.BEGIN, bytes.fromhex("005311c00c056000015202520352045205"))
    assert [begin.remote_channel, begin.next_outgoing_id, begin.incoming_window] == [1, 2, 3]
    assert [begin.outgoing_window, begin.handle_max] == [4, 5]


def test_restricted_types() -> None:
    """They are values of their type, too, so that they are written as such in any place."""
    assert types.SenderSettleMode(2) is types.SenderSettleMode.MIXED and isinstance(types.SenderSettleMode.MIXED, Ubyte)
    assert isinstance(types.TerminusDurability.NONE, Uint) and isinstance(types.TerminusExpiryPolicy.NEVER, Symbol)
    for of, digits in {
        types.SenderSettleMode.MIXED: "5002",
        types.TerminusDurability.CONFIGURATION: "5201",
        types.DistributionMode.COPY: "a304636f7079",
        types.Role.RECEIVER: "41",
        types.LinkErrorCondition.STOLEN: "a310" + b"amqp:link:stolen".hex(),
    }.items():
        assert encode(of).hex() == digits
    supported: types.SupportedDistModes = amqp_canonical.Array([types.DistributionMode.MOVE, types.DistributionMode.COPY])
    assert encode(supported) == bytes.fromhex("e01202b3000000046d6f766500000004636f7079")


def test_conditions() -> None:
    """A listed text is its member, and any other a symbol."""
    for text, found in {
        "amqp:not-found": types.AmqpErrorCondition.NOT_FOUND,
        "amqp:connection:forced": types.ConnectionErrorCondition.CONNECTION_FORCED,
        "amqp:transaction:timeout": types.TransactionErrorCondition.TIMEOUT,
        "x:y": Symbol("x:y"),
    }.items():
        error, _ = decode(Type.ERROR, encode(types.Error(condition=text)))
        assert error.condition is found or (type(error.condition), error.condition) == (Symbol, found)
        assert decode(Type.ERROR_CONDITION, encode(text, Type.ERROR_CONDITION))[0] == found


def test_sums_are_unions_of_their_members() -> None:
    assert get_args(types.TargetArchetype) == (types.Target, types.Coordinator)
    assert len(get_args(types.Performative)) == 9 and len(get_args(types.DeliveryState)) == 7
    for of in get_args(types.LifetimePolicy):
        assert decode(Type.LIFETIME_POLICY, encode(of()))[0] == of()
