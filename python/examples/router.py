"""Finds what a router needs in a message: its sections, the bare message, and the address that it goes to (Part 3, section 3.2).

    python router.py 005372... (the message in hexadecimal digits)
"""

import sys

from amqp_canonical import AmqpError, Type, decode, for_peers, read

SECTIONS = (
    Type.HEADER,
    Type.DELIVERY_ANNOTATIONS,
    Type.MESSAGE_ANNOTATIONS,
    Type.PROPERTIES,
    Type.APPLICATION_PROPERTIES,
    Type.DATA,
    Type.AMQP_SEQUENCE,
    Type.AMQP_VALUE,
    Type.FOOTER,
)
# The bare message is what its sender made, and no router changes a byte of it.
BARE = SECTIONS[3:8]


def section_at(data, limits):
    """Returns the type and the size of the section that the data begins with."""
    for of in SECTIONS[:-1]:
        try:
            return of, read(of, data, limits)
        except AmqpError as error:
            if error.name != "WrongDescriptor":
                raise
    return SECTIONS[-1], read(SECTIONS[-1], data, limits)


def sections(data):
    """Yields the type, the place and the size of each section."""
    limits, at = for_peers(len(data)), 0
    while at < len(data):
        of, size = section_at(data[at:], limits)
        yield of, at, size
        at += size


def main():
    data = bytes.fromhex(sys.argv[1])
    start = end = None
    for of, at, size in sections(data):
        print(f"{of.name.lower().replace('_', '-')}: {size} bytes at {at}")
        if of in BARE:
            start, end = at if start is None else start, at + size
        if of is Type.PROPERTIES:
            properties, _ = decode(of, data[at:])
            print(f"  to: {properties.to}")
    if start is not None:
        print(f"bare message: {end - start} bytes at {start}")


if __name__ == "__main__":
    main()
