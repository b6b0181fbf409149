"""Converts names from the form that a client types to the form in the book."""

import base64
import hashlib
import re

from .options import Options

LONGEST_ADDRESS = 254  # bytes
OF_AN_ADDRESS = re.compile(rb"e\.[a-z2-7]{30}")  # the form of its name in the book
NOT_IN_ADDRESSES = re.compile(rb"[\0-\x20\x7f]")
NO_NAME = b"@"  # a name that no book can have


class Names:
    """The rules of --mail-names and --fold-local-part for names."""

    def __init__(self, options: Options) -> None:
        self.has_addresses = options.mail_names
        self.folds_local_part = options.fold_local_part

    def of_book(self, name: bytes) -> bytes:
        """Returns the name of an account in the book, or NO_NAME for a refused name."""
        if not self.has_addresses:
            return name
        if OF_AN_ADDRESS.fullmatch(name):
            return NO_NAME
        local, at, domain = name.rpartition(b"@")
        if not at:
            return name
        if not local or not domain or len(name) > LONGEST_ADDRESS or NOT_IN_ADDRESSES.search(name):
            return NO_NAME
        digest = hashlib.blake2b(self.spelling(name), digest_size=20).digest()
        return b"e." + base64.b32encode(digest)[:30].lower()

    def spelling(self, name: bytes) -> bytes:
        """Returns the canonical spelling of an address that users may type in several ways; other
        names stay unchanged."""
        local, at, domain = name.rpartition(b"@")
        if not self.has_addresses or not at:
            return name
        if self.folds_local_part:
            local = local.lower()
        return local + at + domain.lower()
