"""Goes through the frames that one side of a connection sends, and prints the performative of each, or its fault with the place
(Part 2, sections 2.2 and 2.3).

    python filter.py 414d5150... (the bytes in hexadecimal digits)
"""

import sys

from amqp_canonical import AmqpError, Type, for_peers, read

AMQP = (Type.OPEN, Type.BEGIN, Type.ATTACH, Type.FLOW, Type.TRANSFER, Type.DISPOSITION, Type.DETACH, Type.END, Type.CLOSE)
SASL = (Type.SASL_MECHANISMS, Type.SASL_INIT, Type.SASL_CHALLENGE, Type.SASL_RESPONSE, Type.SASL_OUTCOME)


def performative_of(body, types):
    """Returns the type of the performative that a frame's body begins with. What follows a transfer is its payload."""
    for of in types:
        try:
            read(of, body, for_peers(len(body)))
            return of
        except AmqpError as error:
            if error.name != "WrongDescriptor" or of is types[-1]:
                raise


def told(data, at, size, offset):
    """Returns what is told of the frame at the place, of so many bytes, whose body begins so many bytes later."""
    body, kind = data[at + offset : at + size], data[at + 5]
    if not body:
        return "empty"
    try:
        of = performative_of(body, SASL if kind else AMQP)
        return of.name.lower().replace("_", "-")
    except AmqpError as error:
        return f"{error.name} at byte {at + offset + (error.at or 0)}"


def main():
    data, at = bytes.fromhex(sys.argv[1]), 0
    while len(data) - at >= 8:
        if data.startswith(b"AMQP", at):
            print(f"{at}: protocol header")
            at += 8
            continue
        size, offset = int.from_bytes(data[at : at + 4], "big"), 4 * data[at + 4]
        if offset < 8 or size < offset or data[at + 5] > 1 or size > len(data) - at:
            break
        print(f"{at}: {told(data, at, size, offset)}")
        at += size
    if at < len(data):
        print(f"{at}: no whole frame")


if __name__ == "__main__":
    main()
