"""Keeps each message once, however it is spelled: by its canonical text, which all spellings of a message share.

    python archive.py MESSAGE.. (each in hexadecimal digits)
"""

import hashlib
import sys

from amqp_canonical import Type, canonical, for_peers


class Archive:
    """Canonical texts by their hashes."""

    def __init__(self):
        self.numbers = {}

    def add(self, data):
        """Adds a message, and returns its canonical text and its number: that of the first message that is equal to it."""
        text, _ = canonical(Type.MESSAGE, data, for_peers(len(data)))
        key = hashlib.sha256(text).digest()
        return text, self.numbers.setdefault(key, len(self.numbers) + 1)


def main():
    archive = Archive()
    for digits in sys.argv[1:]:
        kept = len(archive.numbers)
        data = bytes.fromhex(digits)
        text, number = archive.add(data)
        known = "new" if number > kept else "known"
        print(f"{number}: {known}, {len(data)} bytes, {len(text)} in canonical text")


if __name__ == "__main__":
    main()
