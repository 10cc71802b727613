"""The types of the standard, each with the name that it has in the Rust crate. The lists of errors end with `Condition`.

A composite is a dataclass. Its mandatory fields come first; any other field has its default, or None if the standard gives none. `FIELDS`
lists the fields in the standard's order. A sum is a union of its members. A restricted type is an enum, or another name for a plain class.

This file is written by `tools/python-types`.
"""

from __future__ import annotations

import enum
import uuid
from dataclasses import dataclass, field
from typing import TYPE_CHECKING, Any, ClassVar, Dict, List, Optional, Sequence, Tuple, Union

from ._library import Type
from ._tables import DEFAULT, MANDATORY, MANDATORY_MULTIPLE, MULTIPLE, OPTIONAL, Composite, Field, MapSection, Section
from ._values import Array, Symbol, Timestamp, Ubyte, Uint, Ulong, Ushort

if TYPE_CHECKING:
    from typing import Literal, Protocol, overload

    from ._library import Limits

__all__ = [
    "MaxFrameSize",
    "ChannelMax",
    "Fields",
    "Open",
    "Handle",
    "Begin",
    "Role",
    "SenderSettleMode",
    "ReceiverSettleMode",
    "TerminusDurability",
    "TerminusExpiryPolicy",
    "DistributionMode",
    "Accepted",
    "AmqpErrorCondition",
    "ConnectionErrorCondition",
    "SessionErrorCondition",
    "LinkErrorCondition",
    "TransactionErrorCondition",
    "ErrorCondition",
    "Error",
    "Rejected",
    "Released",
    "Modified",
    "Declared",
    "Outcome",
    "Source",
    "Target",
    "TxnCapability",
    "Coordinator",
    "TargetArchetype",
    "DeliveryTag",
    "Received",
    "TransactionalState",
    "DeliveryState",
    "Unsettled",
    "Attach",
    "Flow",
    "Transfer",
    "Disposition",
    "Detach",
    "End",
    "Close",
    "Performative",
    "Seconds",
    "Milliseconds",
    "SequenceNo",
    "DeliveryNumber",
    "TransferNumber",
    "MessageFormat",
    "IetfLanguageTag",
    "AmqpValue",
    "Data",
    "AmqpSequence",
    "Priority",
    "Header",
    "OwnedKey",
    "MessageId",
    "Properties",
    "Message",
    "DeliveryAnnotations",
    "MessageAnnotations",
    "ApplicationProperties",
    "Footer",
    "Annotations",
    "Address",
    "FilterSet",
    "NodeProperties",
    "SupportedDistModes",
    "DeleteOnClose",
    "DeleteOnNoLinks",
    "DeleteOnNoMessages",
    "DeleteOnNoLinksOrMessages",
    "LifetimePolicy",
    "Declare",
    "Discharge",
    "TransactionId",
    "SaslMechanisms",
    "SaslInit",
    "SaslChallenge",
    "SaslResponse",
    "SaslCode",
    "SaslOutcome",
]


MaxFrameSize = Uint
"""The greatest size, in bytes, of a frame that is sent to a peer (Part 2, section 2.7.1). The default, 4,294,967,295, is the greatest
possible."""


ChannelMax = Ushort
"""The greatest channel number that may be used on a connection (Part 2, section 2.7.1). The default, 65,535, is the greatest possible."""


Fields = Dict[str, Any]
"""A map from symbols to values of any kind, in the order in which they were inserted (Part 2, section 2.8.13)."""


@dataclass
class Open(Composite):
    """Opens a connection, and states how it may be used (Part 2, section 2.7.1).

    container_id: The name of the container that sends this.
    hostname: The name of the host that the sender wants to reach.
    max_frame_size: The size of the greatest frame that the sender of this accepts, in bytes.
    channel_max: The greatest channel number that may be used.
    idle_time_out: The sender's `idle-time-out`, in milliseconds without a frame.
    outgoing_locales: The locales in which the sender of this can write texts.
    incoming_locales: The locales in which it asks for texts.
    offered_capabilities: What the sender of this can do.
    desired_capabilities: What the sender of this asks the peer to do.
    properties: Further properties of the connection.
    """

    TYPE: ClassVar[Type] = Type.OPEN
    DESCRIPTOR: ClassVar[Tuple[int, str]] = (0x10, "amqp:open:list")
    FIELDS: ClassVar[Tuple[Field, ...]] = (
        Field("container-id", str, MANDATORY),
        Field("hostname", str, OPTIONAL),
        Field("max-frame-size", MaxFrameSize, DEFAULT),
        Field("channel-max", ChannelMax, DEFAULT),
        Field("idle-time-out", Uint, OPTIONAL),
        Field("outgoing-locales", Symbol, MULTIPLE),
        Field("incoming-locales", Symbol, MULTIPLE),
        Field("offered-capabilities", Symbol, MULTIPLE),
        Field("desired-capabilities", Symbol, MULTIPLE),
        Field("properties", Fields, OPTIONAL),
    )

    container_id: str
    hostname: Optional[str] = None
    max_frame_size: int = 4294967295
    channel_max: int = 65535
    idle_time_out: Optional[int] = None
    outgoing_locales: Optional[Sequence[str]] = None
    incoming_locales: Optional[Sequence[str]] = None
    offered_capabilities: Optional[Sequence[str]] = None
    desired_capabilities: Optional[Sequence[str]] = None
    properties: Optional[Fields] = None


Handle = Uint
"""The number of a link in a session; in `handle-max`, the greatest number that may be used. The default is that of `handle-max`,
4,294,967,295 (Part 2, section 2.7.2)."""


@dataclass
class Begin(Composite):
    """Begins a session on a channel (Part 2, section 2.7.2).

    next_outgoing_id: The number of the first transfer.
    incoming_window: How many transfers the sender of this can receive.
    outgoing_window: How many transfers it may send.
    remote_channel: The channel on which the peer began the session, if this answers the peer's begin.
    handle_max: The greatest handle that may be used.
    offered_capabilities: What the sender of this can do.
    desired_capabilities: What the sender of this asks the peer to do.
    properties: Further properties of the session.
    """

    TYPE: ClassVar[Type] = Type.BEGIN
    DESCRIPTOR: ClassVar[Tuple[int, str]] = (0x11, "amqp:begin:list")
    FIELDS: ClassVar[Tuple[Field, ...]] = (
        Field("remote-channel", Ushort, OPTIONAL),
        Field("next-outgoing-id", Uint, MANDATORY),
        Field("incoming-window", Uint, MANDATORY),
        Field("outgoing-window", Uint, MANDATORY),
        Field("handle-max", Handle, DEFAULT),
        Field("offered-capabilities", Symbol, MULTIPLE),
        Field("desired-capabilities", Symbol, MULTIPLE),
        Field("properties", Fields, OPTIONAL),
    )

    next_outgoing_id: int
    incoming_window: int
    outgoing_window: int
    remote_channel: Optional[int] = None
    handle_max: int = 4294967295
    offered_capabilities: Optional[Sequence[str]] = None
    desired_capabilities: Optional[Sequence[str]] = None
    properties: Optional[Fields] = None


class Role(enum.Enum):
    """Which end of a link a peer is (Part 2, section 2.8.1).

    SENDER: It sends messages on the link.
    RECEIVER: It receives them.
    """

    SENDER = False
    RECEIVER = True


class SenderSettleMode(Ubyte, enum.Enum):
    """How the sender of a link settles its deliveries (Part 2, section 2.8.2).

    UNSETTLED: It sends all of them unsettled.
    SETTLED: It sends all of them settled.
    MIXED: It sends some settled and some unsettled; the default.
    """

    UNSETTLED = 0
    SETTLED = 1
    MIXED = 2


class ReceiverSettleMode(Ubyte, enum.Enum):
    """How the receiver of a link settles its deliveries (Part 2, section 2.8.3).

    FIRST: It settles each without waiting for the sender; the default.
    SECOND: It settles each after the sender has.
    """

    FIRST = 0
    SECOND = 1


class TerminusDurability(Uint, enum.Enum):
    """What part of a terminus is kept durably (Part 3, section 3.5.5).

    NONE: Nothing; the default.
    CONFIGURATION: That it exists, and its configuration.
    UNSETTLED_STATE: These, and the state of unsettled deliveries of durable messages.
    """

    NONE = 0
    CONFIGURATION = 1
    UNSETTLED_STATE = 2


class TerminusExpiryPolicy(Symbol, enum.Enum):
    """When a terminus begins to expire (Part 3, section 3.5.6).

    LINK_DETACH: When the link is detached.
    SESSION_END: When the last session that it was linked in ends; the default.
    CONNECTION_CLOSE: When the last connection that it was linked over closes.
    NEVER: Never.
    """

    LINK_DETACH = "link-detach"
    SESSION_END = "session-end"
    CONNECTION_CLOSE = "connection-close"
    NEVER = "never"


class DistributionMode(Symbol, enum.Enum):
    """How a node gives its messages to links (Part 3, section 3.5.7).

    MOVE: A message that was transferred is no longer available to other links.
    COPY: A message that was transferred stays available to other links.
    """

    MOVE = "move"
    COPY = "copy"


@dataclass
class Accepted(Composite):
    """The delivery was processed successfully (Part 3, section 3.4.2)."""

    TYPE: ClassVar[Type] = Type.ACCEPTED
    DESCRIPTOR: ClassVar[Tuple[int, str]] = (0x24, "amqp:accepted:list")
    FIELDS: ClassVar[Tuple[Field, ...]] = ()


class AmqpErrorCondition(Symbol, enum.Enum):
    """An error that isn't of one kind of endpoint alone (Part 2, section 2.8.15).

    INTERNAL_ERROR: An internal error occurred, and an operator may have to intervene.
    NOT_FOUND: The peer tried to use something that doesn't exist.
    UNAUTHORIZED_ACCESS: The peer tried to use something that it may not access.
    DECODE_ERROR: Data couldn't be decoded.
    RESOURCE_LIMIT_EXCEEDED: The peer has used more than it may.
    NOT_ALLOWED: A frame was used in a way that the standard doesn't allow.
    INVALID_FIELD: A field of a frame's body is invalid.
    NOT_IMPLEMENTED: What the peer asked for isn't implemented.
    RESOURCE_LOCKED: The client tried to use something that another client is using.
    PRECONDITION_FAILED: A precondition of the request didn't hold.
    RESOURCE_DELETED: Something that the client is using was deleted.
    ILLEGAL_STATE: A frame was sent that isn't permitted in the current state.
    FRAME_SIZE_TOO_SMALL: The smallest encoding of a frame is larger than a frame may be.
    """

    INTERNAL_ERROR = "amqp:internal-error"
    NOT_FOUND = "amqp:not-found"
    UNAUTHORIZED_ACCESS = "amqp:unauthorized-access"
    DECODE_ERROR = "amqp:decode-error"
    RESOURCE_LIMIT_EXCEEDED = "amqp:resource-limit-exceeded"
    NOT_ALLOWED = "amqp:not-allowed"
    INVALID_FIELD = "amqp:invalid-field"
    NOT_IMPLEMENTED = "amqp:not-implemented"
    RESOURCE_LOCKED = "amqp:resource-locked"
    PRECONDITION_FAILED = "amqp:precondition-failed"
    RESOURCE_DELETED = "amqp:resource-deleted"
    ILLEGAL_STATE = "amqp:illegal-state"
    FRAME_SIZE_TOO_SMALL = "amqp:frame-size-too-small"


class ConnectionErrorCondition(Symbol, enum.Enum):
    """An error of a connection (Part 2, section 2.8.16).

    CONNECTION_FORCED: An operator has closed it.
    FRAMING_ERROR: No valid frame was found in the incoming bytes.
    REDIRECT: The peer is to connect elsewhere, as the error's information says.
    """

    CONNECTION_FORCED = "amqp:connection:forced"
    FRAMING_ERROR = "amqp:connection:framing-error"
    REDIRECT = "amqp:connection:redirect"


class SessionErrorCondition(Symbol, enum.Enum):
    """An error of a session (Part 2, section 2.8.17).

    WINDOW_VIOLATION: The peer has sent more transfers than the window allows.
    ERRANT_LINK: Input was received for a link that was detached with an error.
    HANDLE_IN_USE: A link was attached with a handle that is in use.
    UNATTACHED_HANDLE: A frame has a handle that no link is attached with.
    """

    WINDOW_VIOLATION = "amqp:session:window-violation"
    ERRANT_LINK = "amqp:session:errant-link"
    HANDLE_IN_USE = "amqp:session:handle-in-use"
    UNATTACHED_HANDLE = "amqp:session:unattached-handle"


class LinkErrorCondition(Symbol, enum.Enum):
    """An error of a link (Part 2, section 2.8.18).

    DETACH_FORCED: An operator has detached it.
    TRANSFER_LIMIT_EXCEEDED: The peer has sent more messages than the link's credit allows.
    MESSAGE_SIZE_EXCEEDED: The peer has sent a larger message than the link allows.
    REDIRECT: The peer is to attach to another address, as the error's information says.
    STOLEN: The link was attached elsewhere.
    """

    DETACH_FORCED = "amqp:link:detach-forced"
    TRANSFER_LIMIT_EXCEEDED = "amqp:link:transfer-limit-exceeded"
    MESSAGE_SIZE_EXCEEDED = "amqp:link:message-size-exceeded"
    REDIRECT = "amqp:link:redirect"
    STOLEN = "amqp:link:stolen"


class TransactionErrorCondition(Symbol, enum.Enum):
    """An error of a transaction (Part 4, section 4.5.8).

    UNKNOWN_ID: There is no transaction with that identifier.
    ROLLBACK: The transaction was rolled back.
    TIMEOUT: The work of the transaction took too long.
    """

    UNKNOWN_ID = "amqp:transaction:unknown-id"
    ROLLBACK = "amqp:transaction:rollback"
    TIMEOUT = "amqp:transaction:timeout"


ErrorCondition = Union[
    AmqpErrorCondition,
    ConnectionErrorCondition,
    SessionErrorCondition,
    LinkErrorCondition,
    TransactionErrorCondition,
    str,
]
"""What went wrong (Part 2, section 2.8.14): a listed error, or an extension's own."""


@dataclass
class Error(Composite):
    """What went wrong (Part 2, section 2.8.14).

    condition: Which error it is.
    description: A description of it, for a person to read.
    info: Further information about it.
    """

    TYPE: ClassVar[Type] = Type.ERROR
    DESCRIPTOR: ClassVar[Tuple[int, str]] = (0x1d, "amqp:error:list")
    FIELDS: ClassVar[Tuple[Field, ...]] = (
        Field("condition", ErrorCondition, MANDATORY),
        Field("description", str, OPTIONAL),
        Field("info", Fields, OPTIONAL),
    )

    condition: ErrorCondition
    description: Optional[str] = None
    info: Optional[Fields] = None


@dataclass
class Rejected(Composite):
    """The message was not processed, and won't be (Part 3, section 3.4.3).

    error: Why it was not processed.
    """

    TYPE: ClassVar[Type] = Type.REJECTED
    DESCRIPTOR: ClassVar[Tuple[int, str]] = (0x25, "amqp:rejected:list")
    FIELDS: ClassVar[Tuple[Field, ...]] = (
        Field("error", Error, OPTIONAL),
    )

    error: Optional[Error] = None


@dataclass
class Released(Composite):
    """The delivery was not and will not be processed (Part 3, section 3.4.4). Its message may be delivered again."""

    TYPE: ClassVar[Type] = Type.RELEASED
    DESCRIPTOR: ClassVar[Tuple[int, str]] = (0x26, "amqp:released:list")
    FIELDS: ClassVar[Tuple[Field, ...]] = ()


@dataclass
class Modified(Composite):
    """The message was not processed, and is changed before it is sent again (Part 3, section 3.4.5).

    delivery_failed: Whether the transfer counts as a failed delivery.
    undeliverable_here: Whether the message is not to be sent to this node again.
    message_annotations: Annotations that are added to those of the message, or replace them.
    """

    TYPE: ClassVar[Type] = Type.MODIFIED
    DESCRIPTOR: ClassVar[Tuple[int, str]] = (0x27, "amqp:modified:list")
    FIELDS: ClassVar[Tuple[Field, ...]] = (
        Field("delivery-failed", bool, OPTIONAL),
        Field("undeliverable-here", bool, OPTIONAL),
        Field("message-annotations", Fields, OPTIONAL),
    )

    delivery_failed: Optional[bool] = None
    undeliverable_here: Optional[bool] = None
    message_annotations: Optional[Fields] = None


@dataclass
class Declared(Composite):
    """The transaction was declared (Part 4, section 4.5.5).

    txn_id: The transaction's identifier.
    """

    TYPE: ClassVar[Type] = Type.DECLARED
    DESCRIPTOR: ClassVar[Tuple[int, str]] = (0x33, "amqp:declared:list")
    FIELDS: ClassVar[Tuple[Field, ...]] = (
        Field("txn-id", bytes, MANDATORY),
    )

    txn_id: bytes


Outcome = Union[Accepted, Rejected, Released, Modified, Declared]
"""The outcome of a delivery (Part 3, section 3.4): a state in which it ends."""


@dataclass
class Source(Composite):
    """Where the messages of a link come from (Part 3, section 3.5.3).

    address: The address of the node, if there is one.
    durable: Which part of its state is kept durably.
    expiry_policy: When it begins to expire.
    timeout: How long it is kept after that, in seconds.
    dynamic: Whether the peer is to make a node for it.
    dynamic_node_properties: The properties of the node that is made.
    distribution_mode: How the node gives its messages to links.
    filter: The filters, by their names, that select the messages for the link.
    default_outcome: The outcome of deliveries that are settled without one.
    outcomes: The outcomes that may be chosen for deliveries, by their descriptors.
    capabilities: What else the source can do.
    """

    TYPE: ClassVar[Type] = Type.SOURCE
    DESCRIPTOR: ClassVar[Tuple[int, str]] = (0x28, "amqp:source:list")
    FIELDS: ClassVar[Tuple[Field, ...]] = (
        Field("address", str, OPTIONAL),
        Field("durable", TerminusDurability, DEFAULT),
        Field("expiry-policy", TerminusExpiryPolicy, DEFAULT),
        Field("timeout", Uint, DEFAULT),
        Field("dynamic", bool, DEFAULT),
        Field("dynamic-node-properties", Fields, OPTIONAL),
        Field("distribution-mode", DistributionMode, OPTIONAL),
        Field("filter", Fields, OPTIONAL),
        Field("default-outcome", Outcome, OPTIONAL),
        Field("outcomes", Symbol, MULTIPLE),
        Field("capabilities", Symbol, MULTIPLE),
    )

    address: Optional[str] = None
    durable: TerminusDurability = TerminusDurability.NONE
    expiry_policy: TerminusExpiryPolicy = TerminusExpiryPolicy.SESSION_END
    timeout: int = 0
    dynamic: bool = False
    dynamic_node_properties: Optional[Fields] = None
    distribution_mode: Optional[DistributionMode] = None
    filter: Optional[Fields] = None
    default_outcome: Optional[Outcome] = None
    outcomes: Optional[Sequence[str]] = None
    capabilities: Optional[Sequence[str]] = None


@dataclass
class Target(Composite):
    """Where the messages of a link go to (Part 3, section 3.5.4).

    address: The address of the node, if there is one.
    durable: Which part of its state is kept durably.
    expiry_policy: When it begins to expire.
    timeout: How long it is kept after that, in seconds.
    dynamic: Whether the peer is to make a node for it.
    dynamic_node_properties: The properties of the node that is made.
    capabilities: What else the target can do.
    """

    TYPE: ClassVar[Type] = Type.TARGET
    DESCRIPTOR: ClassVar[Tuple[int, str]] = (0x29, "amqp:target:list")
    FIELDS: ClassVar[Tuple[Field, ...]] = (
        Field("address", str, OPTIONAL),
        Field("durable", TerminusDurability, DEFAULT),
        Field("expiry-policy", TerminusExpiryPolicy, DEFAULT),
        Field("timeout", Uint, DEFAULT),
        Field("dynamic", bool, DEFAULT),
        Field("dynamic-node-properties", Fields, OPTIONAL),
        Field("capabilities", Symbol, MULTIPLE),
    )

    address: Optional[str] = None
    durable: TerminusDurability = TerminusDurability.NONE
    expiry_policy: TerminusExpiryPolicy = TerminusExpiryPolicy.SESSION_END
    timeout: int = 0
    dynamic: bool = False
    dynamic_node_properties: Optional[Fields] = None
    capabilities: Optional[Sequence[str]] = None


class TxnCapability(Symbol, enum.Enum):
    """What a coordinator of transactions can do (Part 4, section 4.5.7).

    LOCAL_TRANSACTIONS: Local transactions.
    DISTRIBUTED_TRANSACTIONS: Transactions over several resources.
    PROMOTABLE_TRANSACTIONS: Local transactions that may become ones over several resources.
    MULTI_TXNS_PER_SSN: Several active transactions on one session.
    MULTI_SSNS_PER_TXN: One transaction on several sessions.
    """

    LOCAL_TRANSACTIONS = "amqp:local-transactions"
    DISTRIBUTED_TRANSACTIONS = "amqp:distributed-transactions"
    PROMOTABLE_TRANSACTIONS = "amqp:promotable-transactions"
    MULTI_TXNS_PER_SSN = "amqp:multi-txns-per-ssn"
    MULTI_SSNS_PER_TXN = "amqp:multi-ssns-per-txn"


@dataclass
class Coordinator(Composite):
    """The target of a link over which transactions are declared and discharged (Part 4, section 4.5.1).

    capabilities: What the coordinator can do.
    """

    TYPE: ClassVar[Type] = Type.COORDINATOR
    DESCRIPTOR: ClassVar[Tuple[int, str]] = (0x30, "amqp:coordinator:list")
    FIELDS: ClassVar[Tuple[Field, ...]] = (
        Field("capabilities", TxnCapability, MULTIPLE),
    )

    capabilities: Optional[Sequence[TxnCapability]] = None


TargetArchetype = Union[Target, Coordinator]
"""The target in an attach (Part 2, section 2.7.3; Part 4, section 4.5.1): a target, or a coordinator of transactions."""


DeliveryTag = bytes
"""The sender's name for a delivery, of at most 32 bytes (Part 2, section 2.8.7). The length isn't checked."""


@dataclass
class Received(Composite):
    """How far a message was received (Part 3, section 3.4.1): the section, and the byte in it, from which the sender may continue.

    section_number: The number of the section, from 0 on.
    section_offset: The first byte of the section's payload that was not received.
    """

    TYPE: ClassVar[Type] = Type.RECEIVED
    DESCRIPTOR: ClassVar[Tuple[int, str]] = (0x23, "amqp:received:list")
    FIELDS: ClassVar[Tuple[Field, ...]] = (
        Field("section-number", Uint, MANDATORY),
        Field("section-offset", Ulong, MANDATORY),
    )

    section_number: int
    section_offset: int


@dataclass
class TransactionalState(Composite):
    """The state of a delivery in a transaction (Part 4, section 4.5.6).

    txn_id: The transaction's identifier.
    outcome: The outcome that counts once the transaction is committed.
    """

    TYPE: ClassVar[Type] = Type.TRANSACTIONAL_STATE
    DESCRIPTOR: ClassVar[Tuple[int, str]] = (0x34, "amqp:transactional-state:list")
    FIELDS: ClassVar[Tuple[Field, ...]] = (
        Field("txn-id", bytes, MANDATORY),
        Field("outcome", Outcome, OPTIONAL),
    )

    txn_id: bytes
    outcome: Optional[Outcome] = None


DeliveryState = Union[Received, Accepted, Rejected, Released, Modified, Declared, TransactionalState]
"""The state of a delivery (Part 3, section 3.4)."""


Unsettled = Dict[DeliveryTag, Optional[DeliveryState]]
"""The states of unsettled deliveries by their tags (Part 2, section 2.7.3): None for a delivery whose state isn't known."""


@dataclass
class Attach(Composite):
    """Attaches a link to a session (Part 2, section 2.7.3).

    name: The name of the link.
    handle: The number that the sender of this uses for the link.
    role: Which end of the link the sender of this is.
    snd_settle_mode: How the sender settles deliveries.
    rcv_settle_mode: When the receiver settles deliveries.
    source: Where the messages come from.
    target: Where the messages go to.
    unsettled: The states of unsettled deliveries, by their tags, if a link is resumed.
    incomplete_unsettled: Whether some unsettled deliveries aren't named.
    initial_delivery_count: The number of the first delivery. The sender of messages must give it, the receiver need not.
    max_message_size: The size of the greatest message that the sender of this accepts, in bytes. If it is omitted or 0, there is no bound.
    offered_capabilities: What the sender of this can do.
    desired_capabilities: What the sender of this asks the peer to do.
    properties: Further properties of the link.
    """

    TYPE: ClassVar[Type] = Type.ATTACH
    DESCRIPTOR: ClassVar[Tuple[int, str]] = (0x12, "amqp:attach:list")
    FIELDS: ClassVar[Tuple[Field, ...]] = (
        Field("name", str, MANDATORY),
        Field("handle", Handle, MANDATORY),
        Field("role", Role, MANDATORY),
        Field("snd-settle-mode", SenderSettleMode, DEFAULT),
        Field("rcv-settle-mode", ReceiverSettleMode, DEFAULT),
        Field("source", Source, OPTIONAL),
        Field("target", TargetArchetype, OPTIONAL),
        Field("unsettled", Unsettled, OPTIONAL),
        Field("incomplete-unsettled", bool, DEFAULT),
        Field("initial-delivery-count", Uint, OPTIONAL),
        Field("max-message-size", Ulong, OPTIONAL),
        Field("offered-capabilities", Symbol, MULTIPLE),
        Field("desired-capabilities", Symbol, MULTIPLE),
        Field("properties", Fields, OPTIONAL),
    )

    name: str
    handle: int
    role: Role
    snd_settle_mode: SenderSettleMode = SenderSettleMode.MIXED
    rcv_settle_mode: ReceiverSettleMode = ReceiverSettleMode.FIRST
    source: Optional[Source] = None
    target: Optional[TargetArchetype] = None
    unsettled: Optional[Unsettled] = None
    incomplete_unsettled: bool = False
    initial_delivery_count: Optional[int] = None
    max_message_size: Optional[int] = None
    offered_capabilities: Optional[Sequence[str]] = None
    desired_capabilities: Optional[Sequence[str]] = None
    properties: Optional[Fields] = None


@dataclass
class Flow(Composite):
    """States how much of a session, or of a link, may flow (Part 2, section 2.7.4).

    incoming_window: How many transfers the sender of this can receive.
    next_outgoing_id: The number of the next transfer that it sends.
    outgoing_window: How many transfers it may send.
    next_incoming_id: The number of the next transfer that is expected. It is omitted until the peer has begun the session.
    handle: The link whose flow this is. If it is omitted, this is the session's flow alone.
    delivery_count: The number of the link's deliveries so far.
    link_credit: How many more messages the receiver can take.
    available: How many messages the sender has at hand.
    drain: Whether the sender is to use up its credit now.
    echo: Whether the peer is asked for its own flow.
    properties: Further properties of the link.
    """

    TYPE: ClassVar[Type] = Type.FLOW
    DESCRIPTOR: ClassVar[Tuple[int, str]] = (0x13, "amqp:flow:list")
    FIELDS: ClassVar[Tuple[Field, ...]] = (
        Field("next-incoming-id", Uint, OPTIONAL),
        Field("incoming-window", Uint, MANDATORY),
        Field("next-outgoing-id", Uint, MANDATORY),
        Field("outgoing-window", Uint, MANDATORY),
        Field("handle", Handle, OPTIONAL),
        Field("delivery-count", Uint, OPTIONAL),
        Field("link-credit", Uint, OPTIONAL),
        Field("available", Uint, OPTIONAL),
        Field("drain", bool, DEFAULT),
        Field("echo", bool, DEFAULT),
        Field("properties", Fields, OPTIONAL),
    )

    incoming_window: int
    next_outgoing_id: int
    outgoing_window: int
    next_incoming_id: Optional[int] = None
    handle: Optional[int] = None
    delivery_count: Optional[int] = None
    link_credit: Optional[int] = None
    available: Optional[int] = None
    drain: bool = False
    echo: bool = False
    properties: Optional[Fields] = None


@dataclass
class Transfer(Composite):
    """Transfers a message, or a part of one, over a link (Part 2, section 2.7.5).

    handle: The link over which it is transferred.
    delivery_id: The number of the delivery. It may be omitted if a delivery continues.
    delivery_tag: The sender's name for the delivery. It may be omitted if a delivery continues.
    message_format: The format of the message. It may be omitted if a delivery continues.
    settled: Whether the delivery is settled at the sender. If it is omitted, the earlier transfers of the delivery say so, and otherwise it
        isn't settled.
    more: Whether more of the message follows in other transfers.
    rcv_settle_mode: When the receiver settles the delivery. If it is omitted, the mode of the link counts.
    state: The state of the delivery at the sender.
    resume: Whether an unsettled delivery is resumed.
    aborted: Whether the message is aborted, so that what was received of it is dropped.
    batchable: Whether the peer need not soon report a change of the delivery's state.
    """

    TYPE: ClassVar[Type] = Type.TRANSFER
    DESCRIPTOR: ClassVar[Tuple[int, str]] = (0x14, "amqp:transfer:list")
    FIELDS: ClassVar[Tuple[Field, ...]] = (
        Field("handle", Handle, MANDATORY),
        Field("delivery-id", Uint, OPTIONAL),
        Field("delivery-tag", bytes, OPTIONAL),
        Field("message-format", Uint, OPTIONAL),
        Field("settled", bool, OPTIONAL),
        Field("more", bool, DEFAULT),
        Field("rcv-settle-mode", ReceiverSettleMode, OPTIONAL),
        Field("state", DeliveryState, OPTIONAL),
        Field("resume", bool, DEFAULT),
        Field("aborted", bool, DEFAULT),
        Field("batchable", bool, DEFAULT),
    )

    handle: int
    delivery_id: Optional[int] = None
    delivery_tag: Optional[bytes] = None
    message_format: Optional[int] = None
    settled: Optional[bool] = None
    more: bool = False
    rcv_settle_mode: Optional[ReceiverSettleMode] = None
    state: Optional[DeliveryState] = None
    resume: bool = False
    aborted: bool = False
    batchable: bool = False


@dataclass
class Disposition(Composite):
    """The state of a row of deliveries, and whether they are settled (Part 2, section 2.7.6).

    role: Which ends of the links this is about: the sending ones, or the receiving ones.
    first: The first delivery.
    last: The last delivery. If it is omitted, it is the first.
    settled: Whether the deliveries are settled at the end that sends this.
    state: The state of the deliveries.
    batchable: Whether the peer need not soon report a change of the deliveries' state.
    """

    TYPE: ClassVar[Type] = Type.DISPOSITION
    DESCRIPTOR: ClassVar[Tuple[int, str]] = (0x15, "amqp:disposition:list")
    FIELDS: ClassVar[Tuple[Field, ...]] = (
        Field("role", Role, MANDATORY),
        Field("first", Uint, MANDATORY),
        Field("last", Uint, OPTIONAL),
        Field("settled", bool, DEFAULT),
        Field("state", DeliveryState, OPTIONAL),
        Field("batchable", bool, DEFAULT),
    )

    role: Role
    first: int
    last: Optional[int] = None
    settled: bool = False
    state: Optional[DeliveryState] = None
    batchable: bool = False


@dataclass
class Detach(Composite):
    """Detaches a link from its session (Part 2, section 2.7.7).

    handle: The link.
    closed: Whether the link is closed, too.
    error: What went wrong, if that is why the link is detached.
    """

    TYPE: ClassVar[Type] = Type.DETACH
    DESCRIPTOR: ClassVar[Tuple[int, str]] = (0x16, "amqp:detach:list")
    FIELDS: ClassVar[Tuple[Field, ...]] = (
        Field("handle", Handle, MANDATORY),
        Field("closed", bool, DEFAULT),
        Field("error", Error, OPTIONAL),
    )

    handle: int
    closed: bool = False
    error: Optional[Error] = None


@dataclass
class End(Composite):
    """Ends a session (Part 2, section 2.7.8).

    error: What went wrong, if that is why the session ends.
    """

    TYPE: ClassVar[Type] = Type.END
    DESCRIPTOR: ClassVar[Tuple[int, str]] = (0x17, "amqp:end:list")
    FIELDS: ClassVar[Tuple[Field, ...]] = (
        Field("error", Error, OPTIONAL),
    )

    error: Optional[Error] = None


@dataclass
class Close(Composite):
    """Closes a connection (Part 2, section 2.7.9).

    error: What went wrong, if that is why the connection ends.
    """

    TYPE: ClassVar[Type] = Type.CLOSE
    DESCRIPTOR: ClassVar[Tuple[int, str]] = (0x18, "amqp:close:list")
    FIELDS: ClassVar[Tuple[Field, ...]] = (
        Field("error", Error, OPTIONAL),
    )

    error: Optional[Error] = None


Performative = Union[Open, Begin, Attach, Flow, Transfer, Disposition, Detach, End, Close]
"""The performative of an AMQP frame (Part 2, section 2.7)."""


Seconds = Uint
"""A duration in seconds (Part 2, section 2.8.5)."""


Milliseconds = Uint
"""A duration in milliseconds (Part 2, section 2.8.6)."""


SequenceNo = Uint
"""A number after whose greatest value 0 comes again (Part 2, section 2.8.10)."""


DeliveryNumber = SequenceNo
"""The number of a delivery in its session (Part 2, section 2.8.8)."""


TransferNumber = SequenceNo
"""The number of a transfer in its session (Part 2, section 2.8.9)."""


MessageFormat = Uint
"""The format of a message (Part 2, section 2.8.11)."""


IetfLanguageTag = Symbol
"""A tag of a natural language (Part 2, section 2.8.12)."""


@dataclass
class AmqpValue(Section):
    """A value that is the body of a message (Part 3, section 3.2.8)."""

    TYPE: ClassVar[Type] = Type.AMQP_VALUE
    DESCRIPTOR: ClassVar[Tuple[int, str]] = (0x77, "amqp:amqp-value:*")

    value: Any = None


@dataclass
class Data(Section):
    """Bytes that are the body of a message, or a part of it (Part 3, section 3.2.6)."""

    TYPE: ClassVar[Type] = Type.DATA
    DESCRIPTOR: ClassVar[Tuple[int, str]] = (0x75, "amqp:data:binary")

    value: bytes


@dataclass
class AmqpSequence(Section):
    """A list of values that is the body of a message, or a part of it (Part 3, section 3.2.7)."""

    TYPE: ClassVar[Type] = Type.AMQP_SEQUENCE
    DESCRIPTOR: ClassVar[Tuple[int, str]] = (0x76, "amqp:amqp-sequence:list")

    value: Sequence[Any]


Priority = Ubyte
"""How urgent a message is, compared with others: a greater number is more urgent. The default is 4 (Part 3, section 3.2.1)."""


@dataclass
class Header(Composite):
    """The header of a message: how it is to be delivered (Part 3, section 3.2.1). Nodes on the way of the message may change it.

    durable: Whether the message must survive the loss or restart of a node. False if the field is omitted.
    priority: The priority of the message: greater numbers come before smaller ones. 4 if the field is omitted.
    ttl: For how many milliseconds the message is live. None means without end.
    first_acquirer: Whether no other link has acquired the message before. False if the field is omitted.
    delivery_count: How many earlier attempts to deliver the message have failed. 0 if the field is omitted.
    """

    TYPE: ClassVar[Type] = Type.HEADER
    DESCRIPTOR: ClassVar[Tuple[int, str]] = (0x70, "amqp:header:list")
    FIELDS: ClassVar[Tuple[Field, ...]] = (
        Field("durable", bool, DEFAULT),
        Field("priority", Priority, DEFAULT),
        Field("ttl", Uint, OPTIONAL),
        Field("first-acquirer", bool, DEFAULT),
        Field("delivery-count", Uint, DEFAULT),
    )

    durable: bool = False
    priority: int = 4
    ttl: Optional[int] = None
    first_acquirer: bool = False
    delivery_count: int = 0


OwnedKey = Union[str, int]
"""The key of an annotation: a symbol or a number, as its first code determines. Numbers are reserved for the standard, and symbols are free
(Part 3, section 3.2.10)."""


MessageId = Union[int, uuid.UUID, bytes, str]
"""The identifier of a message, of one of four types, as its first code determines (Part 3, sections 3.2.11 to 3.2.14)."""


@dataclass
class Properties(Composite):
    """The properties of a message (Part 3, section 3.2.4): fields of the bare message, which no node on its way may change. A field is None
    if it is omitted.

    message_id: Identifies the message among all messages of its sender.
    user_id: The identity of the user who produced the message, as the receiver may check it.
    to: The address of the node that the message is sent to.
    subject: A short text on what the message is about.
    reply_to: The address of the node that replies are sent to.
    correlation_id: An identifier of the client's own, which marks messages that belong together.
    content_type: The media type of the body (RFC 2046), if the body consists of data sections.
    content_encoding: The content codings that the body's data have undergone (RFC 2616), as `gzip`.
    absolute_expiry_time: When the message expires, in milliseconds since the Unix epoch.
    creation_time: When the message was created, in milliseconds since the Unix epoch.
    group_id: The group that the message belongs to.
    group_sequence: The position of the message in its group, a sequence number (RFC 1982).
    reply_to_group_id: The group that replies to the message belong to.
    """

    TYPE: ClassVar[Type] = Type.PROPERTIES
    DESCRIPTOR: ClassVar[Tuple[int, str]] = (0x73, "amqp:properties:list")
    FIELDS: ClassVar[Tuple[Field, ...]] = (
        Field("message-id", MessageId, OPTIONAL),
        Field("user-id", bytes, OPTIONAL),
        Field("to", str, OPTIONAL),
        Field("subject", str, OPTIONAL),
        Field("reply-to", str, OPTIONAL),
        Field("correlation-id", MessageId, OPTIONAL),
        Field("content-type", Symbol, OPTIONAL),
        Field("content-encoding", Symbol, OPTIONAL),
        Field("absolute-expiry-time", Timestamp, OPTIONAL),
        Field("creation-time", Timestamp, OPTIONAL),
        Field("group-id", str, OPTIONAL),
        Field("group-sequence", Uint, OPTIONAL),
        Field("reply-to-group-id", str, OPTIONAL),
    )

    message_id: Optional[MessageId] = None
    user_id: Optional[bytes] = None
    to: Optional[str] = None
    subject: Optional[str] = None
    reply_to: Optional[str] = None
    correlation_id: Optional[MessageId] = None
    content_type: Optional[str] = None
    content_encoding: Optional[str] = None
    absolute_expiry_time: Optional[Timestamp] = None
    creation_time: Optional[Timestamp] = None
    group_id: Optional[str] = None
    group_sequence: Optional[int] = None
    reply_to_group_id: Optional[str] = None


Body = Union[AmqpValue, Data, AmqpSequence, Sequence[Data], Sequence[AmqpSequence]]
"""The body of a message: one section, or several of data or of sequences (Part 3, section 3.2)."""


@dataclass
class Message:
    """A message (Part 3, section 3.2): its body, and the other sections that are present. By default a message has only its body, which is
    a null value.

    header: How the message is to be delivered.
    delivery_annotations: What is said about its delivery from node to node.
    message_annotations: What is said about it from its sender on.
    properties: Its properties by the standard.
    application_properties: Its properties by the application.
    body: What it carries.
    footer: What can only be told after the body.
    """

    header: Optional[Header] = None
    delivery_annotations: Optional[Dict[OwnedKey, Any]] = None
    message_annotations: Optional[Dict[OwnedKey, Any]] = None
    properties: Optional[Properties] = None
    application_properties: Optional[Dict[str, Any]] = None
    body: Body = field(default_factory=AmqpValue)
    footer: Optional[Dict[OwnedKey, Any]] = None


class DeliveryAnnotations(MapSection[OwnedKey, Any]):
    """Delivery annotations (Part 3, section 3.2.2): what the sending peer tells the receiving peer about the delivery of a message."""

    TYPE: ClassVar[Type] = Type.DELIVERY_ANNOTATIONS
    DESCRIPTOR: ClassVar[Tuple[int, str]] = (0x71, "amqp:delivery-annotations:map")


class MessageAnnotations(MapSection[OwnedKey, Any]):
    """Message annotations (Part 3, section 3.2.3): information for the infrastructure, which is passed on at every hop."""

    TYPE: ClassVar[Type] = Type.MESSAGE_ANNOTATIONS
    DESCRIPTOR: ClassVar[Tuple[int, str]] = (0x72, "amqp:message-annotations:map")


class ApplicationProperties(MapSection[str, Any]):
    """Application properties (Part 3, section 3.2.5): simple values under names, which intermediaries may filter by."""

    TYPE: ClassVar[Type] = Type.APPLICATION_PROPERTIES
    DESCRIPTOR: ClassVar[Tuple[int, str]] = (0x74, "amqp:application-properties:map")


class Footer(MapSection[OwnedKey, Any]):
    """A footer (Part 3, section 3.2.9): details about a message or delivery that need the whole bare message, as a signature."""

    TYPE: ClassVar[Type] = Type.FOOTER
    DESCRIPTOR: ClassVar[Tuple[int, str]] = (0x78, "amqp:footer:map")


Annotations = Dict[OwnedKey, Any]
"""A map from symbols or ulongs to values of any kind, in the order in which they were inserted (Part 3, section 3.2.10)."""


Address = str
"""The address of a node (Part 3, section 3.5.3)."""


FilterSet = Fields
"""Filters by their names (Part 3, section 3.5.8)."""


NodeProperties = Fields
"""The properties of a node (Part 3, section 3.5.9)."""


SupportedDistModes = Array[DistributionMode]
"""The distribution modes that a node supports, in order (Part 3, section 3.5.9)."""


@dataclass
class DeleteOnClose(Composite):
    """The node lives until the link for which it was made is closed (Part 3, section 3.5.10)."""

    TYPE: ClassVar[Type] = Type.DELETE_ON_CLOSE
    DESCRIPTOR: ClassVar[Tuple[int, str]] = (0x2b, "amqp:delete-on-close:list")
    FIELDS: ClassVar[Tuple[Field, ...]] = ()


@dataclass
class DeleteOnNoLinks(Composite):
    """The node lives until there is no link to it (Part 3, section 3.5.11)."""

    TYPE: ClassVar[Type] = Type.DELETE_ON_NO_LINKS
    DESCRIPTOR: ClassVar[Tuple[int, str]] = (0x2c, "amqp:delete-on-no-links:list")
    FIELDS: ClassVar[Tuple[Field, ...]] = ()


@dataclass
class DeleteOnNoMessages(Composite):
    """The node lives until there is no message on it (Part 3, section 3.5.12)."""

    TYPE: ClassVar[Type] = Type.DELETE_ON_NO_MESSAGES
    DESCRIPTOR: ClassVar[Tuple[int, str]] = (0x2d, "amqp:delete-on-no-messages:list")
    FIELDS: ClassVar[Tuple[Field, ...]] = ()


@dataclass
class DeleteOnNoLinksOrMessages(Composite):
    """The node lives until there is neither a link to it nor a message on it (Part 3, section 3.5.13)."""

    TYPE: ClassVar[Type] = Type.DELETE_ON_NO_LINKS_OR_MESSAGES
    DESCRIPTOR: ClassVar[Tuple[int, str]] = (0x2e, "amqp:delete-on-no-links-or-messages:list")
    FIELDS: ClassVar[Tuple[Field, ...]] = ()


LifetimePolicy = Union[DeleteOnClose, DeleteOnNoLinks, DeleteOnNoMessages, DeleteOnNoLinksOrMessages]
"""How long a node lives that was made for a link (Part 3, sections 3.5.10 to 3.5.13)."""


@dataclass
class Declare(Composite):
    """Asks the coordinator for a transaction (Part 4, section 4.5.2).

    global_id: The identifier of a transaction over several resources, of which the new one is a part.
    """

    TYPE: ClassVar[Type] = Type.DECLARE
    DESCRIPTOR: ClassVar[Tuple[int, str]] = (0x31, "amqp:declare:list")
    FIELDS: ClassVar[Tuple[Field, ...]] = (
        Field("global-id", bytes, OPTIONAL),
    )

    global_id: Optional[bytes] = None


@dataclass
class Discharge(Composite):
    """Ends a transaction (Part 4, section 4.5.3).

    txn_id: The transaction's identifier.
    fail: Whether it is rolled back; else it is committed.
    """

    TYPE: ClassVar[Type] = Type.DISCHARGE
    DESCRIPTOR: ClassVar[Tuple[int, str]] = (0x32, "amqp:discharge:list")
    FIELDS: ClassVar[Tuple[Field, ...]] = (
        Field("txn-id", bytes, MANDATORY),
        Field("fail", bool, OPTIONAL),
    )

    txn_id: bytes
    fail: Optional[bool] = None


TransactionId = bytes
"""The coordinator's name of a transaction (Part 4, section 4.5.4)."""


@dataclass
class SaslMechanisms(Composite):
    """The SASL mechanisms that a server offers (Part 5, section 5.3.3.1): the body of a frame. There is at least one.

    sasl_server_mechanisms: The mechanisms, in the order of the server's preference.
    """

    TYPE: ClassVar[Type] = Type.SASL_MECHANISMS
    DESCRIPTOR: ClassVar[Tuple[int, str]] = (0x40, "amqp:sasl-mechanisms:list")
    FIELDS: ClassVar[Tuple[Field, ...]] = (
        Field("sasl-server-mechanisms", Symbol, MANDATORY_MULTIPLE),
    )

    sasl_server_mechanisms: Sequence[str]


@dataclass
class SaslInit(Composite):
    """The client's choice of a mechanism, and its first response (Part 5, section 5.3.3.2).

    mechanism: The mechanism.
    initial_response: What the client says before it is asked.
    hostname: The name of the host that the client wants to reach.
    """

    TYPE: ClassVar[Type] = Type.SASL_INIT
    DESCRIPTOR: ClassVar[Tuple[int, str]] = (0x41, "amqp:sasl-init:list")
    FIELDS: ClassVar[Tuple[Field, ...]] = (
        Field("mechanism", Symbol, MANDATORY),
        Field("initial-response", bytes, OPTIONAL),
        Field("hostname", str, OPTIONAL),
    )

    mechanism: str
    initial_response: Optional[bytes] = None
    hostname: Optional[str] = None


@dataclass
class SaslChallenge(Composite):
    """What the server asks, in the terms of the mechanism (Part 5, section 5.3.3.3).

    challenge: The question.
    """

    TYPE: ClassVar[Type] = Type.SASL_CHALLENGE
    DESCRIPTOR: ClassVar[Tuple[int, str]] = (0x42, "amqp:sasl-challenge:list")
    FIELDS: ClassVar[Tuple[Field, ...]] = (
        Field("challenge", bytes, MANDATORY),
    )

    challenge: bytes


@dataclass
class SaslResponse(Composite):
    """What the client answers, in the terms of the mechanism (Part 5, section 5.3.3.4).

    response: The answer.
    """

    TYPE: ClassVar[Type] = Type.SASL_RESPONSE
    DESCRIPTOR: ClassVar[Tuple[int, str]] = (0x43, "amqp:sasl-response:list")
    FIELDS: ClassVar[Tuple[Field, ...]] = (
        Field("response", bytes, MANDATORY),
    )

    response: bytes


class SaslCode(Ubyte, enum.Enum):
    """How a SASL exchange ended (Part 5, section 5.3.3.6).

    OK: The peer was authenticated.
    AUTH: It wasn't, because its credentials were wrong.
    SYS: It wasn't, because a system failed.
    SYS_PERM: It wasn't, because a system failed and must be repaired.
    SYS_TEMP: It wasn't, because a system failed temporarily.
    """

    OK = 0
    AUTH = 1
    SYS = 2
    SYS_PERM = 3
    SYS_TEMP = 4


@dataclass
class SaslOutcome(Composite):
    """How the exchange ended (Part 5, section 5.3.3.5).

    code: How it ended.
    additional_data: What the server says at the end, in the terms of the mechanism.
    """

    TYPE: ClassVar[Type] = Type.SASL_OUTCOME
    DESCRIPTOR: ClassVar[Tuple[int, str]] = (0x44, "amqp:sasl-outcome:list")
    FIELDS: ClassVar[Tuple[Field, ...]] = (
        Field("code", SaslCode, MANDATORY),
        Field("additional-data", bytes, OPTIONAL),
    )

    code: SaslCode
    additional_data: Optional[bytes] = None


COMPOSITES: Tuple[Any, ...] = (
    Open,
    Begin,
    Accepted,
    Error,
    Rejected,
    Released,
    Modified,
    Declared,
    Source,
    Target,
    Coordinator,
    Received,
    TransactionalState,
    Attach,
    Flow,
    Transfer,
    Disposition,
    Detach,
    End,
    Close,
    Header,
    Properties,
    DeleteOnClose,
    DeleteOnNoLinks,
    DeleteOnNoMessages,
    DeleteOnNoLinksOrMessages,
    Declare,
    Discharge,
    SaslMechanisms,
    SaslInit,
    SaslChallenge,
    SaslResponse,
    SaslOutcome,
)
"""The classes of composites."""


SECTIONS: Tuple[Any, ...] = (
    AmqpSequence,
    AmqpValue,
    ApplicationProperties,
    Data,
    DeliveryAnnotations,
    Footer,
    MessageAnnotations,
)
"""The classes of sections that aren't composites."""


RESTRICTED: Tuple[Any, ...] = (
    AmqpErrorCondition,
    ConnectionErrorCondition,
    SessionErrorCondition,
    LinkErrorCondition,
    TransactionErrorCondition,
    SaslCode,
    TerminusDurability,
    TerminusExpiryPolicy,
    DistributionMode,
    TxnCapability,
    Role,
    SenderSettleMode,
    ReceiverSettleMode,
)
"""The classes of restricted types that are enums."""


if TYPE_CHECKING:

    class Decode(Protocol):
        """What `decode` returns for each type."""

        @overload
        def __call__(self, of: Literal[Type.ACCEPTED], data: bytes, limits: Limits = ...) -> Tuple[Accepted, int]: ...

        @overload
        def __call__(self, of: Literal[Type.AMQP_SEQUENCE], data: bytes, limits: Limits = ...) -> Tuple[AmqpSequence, int]: ...

        @overload
        def __call__(self, of: Literal[Type.AMQP_VALUE], data: bytes, limits: Limits = ...) -> Tuple[AmqpValue, int]: ...

        @overload
        def __call__(self, of: Literal[Type.ANNOTATIONS], data: bytes, limits: Limits = ...) -> Tuple[Annotations, int]: ...

        @overload
        def __call__(
            self, of: Literal[Type.APPLICATION_PROPERTIES], data: bytes, limits: Limits = ...
        ) -> Tuple[ApplicationProperties, int]: ...

        @overload
        def __call__(self, of: Literal[Type.ATTACH], data: bytes, limits: Limits = ...) -> Tuple[Attach, int]: ...

        @overload
        def __call__(self, of: Literal[Type.BATCH_DATA], data: bytes, limits: Limits = ...) -> Tuple[List[Data], int]: ...

        @overload
        def __call__(self, of: Literal[Type.BATCH_SEQUENCE], data: bytes, limits: Limits = ...) -> Tuple[List[AmqpSequence], int]: ...

        @overload
        def __call__(self, of: Literal[Type.BEGIN], data: bytes, limits: Limits = ...) -> Tuple[Begin, int]: ...

        @overload
        def __call__(self, of: Literal[Type.BODY], data: bytes, limits: Limits = ...) -> Tuple[Body, int]: ...

        @overload
        def __call__(self, of: Literal[Type.BOOLEAN], data: bytes, limits: Limits = ...) -> Tuple[bool, int]: ...

        @overload
        def __call__(self, of: Literal[Type.CLOSE], data: bytes, limits: Limits = ...) -> Tuple[Close, int]: ...

        @overload
        def __call__(self, of: Literal[Type.COORDINATOR], data: bytes, limits: Limits = ...) -> Tuple[Coordinator, int]: ...

        @overload
        def __call__(self, of: Literal[Type.DATA], data: bytes, limits: Limits = ...) -> Tuple[Data, int]: ...

        @overload
        def __call__(self, of: Literal[Type.DECLARE], data: bytes, limits: Limits = ...) -> Tuple[Declare, int]: ...

        @overload
        def __call__(self, of: Literal[Type.DECLARED], data: bytes, limits: Limits = ...) -> Tuple[Declared, int]: ...

        @overload
        def __call__(self, of: Literal[Type.DELETE_ON_CLOSE], data: bytes, limits: Limits = ...) -> Tuple[DeleteOnClose, int]: ...

        @overload
        def __call__(self, of: Literal[Type.DELETE_ON_NO_LINKS], data: bytes, limits: Limits = ...) -> Tuple[DeleteOnNoLinks, int]: ...

        @overload
        def __call__(
            self, of: Literal[Type.DELETE_ON_NO_LINKS_OR_MESSAGES], data: bytes, limits: Limits = ...
        ) -> Tuple[DeleteOnNoLinksOrMessages, int]: ...

        @overload
        def __call__(
            self, of: Literal[Type.DELETE_ON_NO_MESSAGES], data: bytes, limits: Limits = ...
        ) -> Tuple[DeleteOnNoMessages, int]: ...

        @overload
        def __call__(
            self, of: Literal[Type.DELIVERY_ANNOTATIONS], data: bytes, limits: Limits = ...
        ) -> Tuple[DeliveryAnnotations, int]: ...

        @overload
        def __call__(self, of: Literal[Type.DELIVERY_STATE], data: bytes, limits: Limits = ...) -> Tuple[DeliveryState, int]: ...

        @overload
        def __call__(self, of: Literal[Type.DETACH], data: bytes, limits: Limits = ...) -> Tuple[Detach, int]: ...

        @overload
        def __call__(self, of: Literal[Type.DISCHARGE], data: bytes, limits: Limits = ...) -> Tuple[Discharge, int]: ...

        @overload
        def __call__(self, of: Literal[Type.DISPOSITION], data: bytes, limits: Limits = ...) -> Tuple[Disposition, int]: ...

        @overload
        def __call__(self, of: Literal[Type.END], data: bytes, limits: Limits = ...) -> Tuple[End, int]: ...

        @overload
        def __call__(self, of: Literal[Type.ERROR], data: bytes, limits: Limits = ...) -> Tuple[Error, int]: ...

        @overload
        def __call__(self, of: Literal[Type.ERROR_CONDITION], data: bytes, limits: Limits = ...) -> Tuple[ErrorCondition, int]: ...

        @overload
        def __call__(self, of: Literal[Type.FLOW], data: bytes, limits: Limits = ...) -> Tuple[Flow, int]: ...

        @overload
        def __call__(self, of: Literal[Type.FOOTER], data: bytes, limits: Limits = ...) -> Tuple[Footer, int]: ...

        @overload
        def __call__(self, of: Literal[Type.HEADER], data: bytes, limits: Limits = ...) -> Tuple[Header, int]: ...

        @overload
        def __call__(self, of: Literal[Type.LIFETIME_POLICY], data: bytes, limits: Limits = ...) -> Tuple[LifetimePolicy, int]: ...

        @overload
        def __call__(self, of: Literal[Type.MESSAGE], data: bytes, limits: Limits = ...) -> Tuple[Message, int]: ...

        @overload
        def __call__(self, of: Literal[Type.MESSAGE_ANNOTATIONS], data: bytes, limits: Limits = ...) -> Tuple[MessageAnnotations, int]: ...

        @overload
        def __call__(self, of: Literal[Type.MESSAGE_BATCH], data: bytes, limits: Limits = ...) -> Tuple[Message, int]: ...

        @overload
        def __call__(self, of: Literal[Type.MESSAGE_DATA], data: bytes, limits: Limits = ...) -> Tuple[Message, int]: ...

        @overload
        def __call__(self, of: Literal[Type.MESSAGE_ID], data: bytes, limits: Limits = ...) -> Tuple[MessageId, int]: ...

        @overload
        def __call__(self, of: Literal[Type.MESSAGE_VALUE], data: bytes, limits: Limits = ...) -> Tuple[Message, int]: ...

        @overload
        def __call__(self, of: Literal[Type.MODIFIED], data: bytes, limits: Limits = ...) -> Tuple[Modified, int]: ...

        @overload
        def __call__(self, of: Literal[Type.OPEN], data: bytes, limits: Limits = ...) -> Tuple[Open, int]: ...

        @overload
        def __call__(self, of: Literal[Type.OUTCOME], data: bytes, limits: Limits = ...) -> Tuple[Outcome, int]: ...

        @overload
        def __call__(self, of: Literal[Type.PERFORMATIVE], data: bytes, limits: Limits = ...) -> Tuple[Performative, int]: ...

        @overload
        def __call__(self, of: Literal[Type.PROPERTIES], data: bytes, limits: Limits = ...) -> Tuple[Properties, int]: ...

        @overload
        def __call__(self, of: Literal[Type.RECEIVED], data: bytes, limits: Limits = ...) -> Tuple[Received, int]: ...

        @overload
        def __call__(self, of: Literal[Type.REJECTED], data: bytes, limits: Limits = ...) -> Tuple[Rejected, int]: ...

        @overload
        def __call__(self, of: Literal[Type.RELEASED], data: bytes, limits: Limits = ...) -> Tuple[Released, int]: ...

        @overload
        def __call__(self, of: Literal[Type.SASL_CHALLENGE], data: bytes, limits: Limits = ...) -> Tuple[SaslChallenge, int]: ...

        @overload
        def __call__(self, of: Literal[Type.SASL_INIT], data: bytes, limits: Limits = ...) -> Tuple[SaslInit, int]: ...

        @overload
        def __call__(self, of: Literal[Type.SASL_MECHANISMS], data: bytes, limits: Limits = ...) -> Tuple[SaslMechanisms, int]: ...

        @overload
        def __call__(self, of: Literal[Type.SASL_OUTCOME], data: bytes, limits: Limits = ...) -> Tuple[SaslOutcome, int]: ...

        @overload
        def __call__(self, of: Literal[Type.SASL_RESPONSE], data: bytes, limits: Limits = ...) -> Tuple[SaslResponse, int]: ...

        @overload
        def __call__(self, of: Literal[Type.SIMPLE_VALUE], data: bytes, limits: Limits = ...) -> Tuple[Any, int]: ...

        @overload
        def __call__(self, of: Literal[Type.SOURCE], data: bytes, limits: Limits = ...) -> Tuple[Source, int]: ...

        @overload
        def __call__(self, of: Literal[Type.STRICT_MESSAGE], data: bytes, limits: Limits = ...) -> Tuple[Message, int]: ...

        @overload
        def __call__(self, of: Literal[Type.STRICT_MESSAGE_BATCH], data: bytes, limits: Limits = ...) -> Tuple[Message, int]: ...

        @overload
        def __call__(self, of: Literal[Type.STRICT_MESSAGE_DATA], data: bytes, limits: Limits = ...) -> Tuple[Message, int]: ...

        @overload
        def __call__(self, of: Literal[Type.STRICT_MESSAGE_VALUE], data: bytes, limits: Limits = ...) -> Tuple[Message, int]: ...

        @overload
        def __call__(self, of: Literal[Type.TARGET], data: bytes, limits: Limits = ...) -> Tuple[Target, int]: ...

        @overload
        def __call__(self, of: Literal[Type.TARGET_ARCHETYPE], data: bytes, limits: Limits = ...) -> Tuple[TargetArchetype, int]: ...

        @overload
        def __call__(self, of: Literal[Type.TRANSACTIONAL_STATE], data: bytes, limits: Limits = ...) -> Tuple[TransactionalState, int]: ...

        @overload
        def __call__(self, of: Literal[Type.TRANSFER], data: bytes, limits: Limits = ...) -> Tuple[Transfer, int]: ...

        @overload
        def __call__(self, of: Literal[Type.VALUE], data: bytes, limits: Limits = ...) -> Tuple[Any, int]: ...

        @overload
        def __call__(self, of: Type, data: bytes, limits: Limits = ...) -> Tuple[Any, int]: ...
