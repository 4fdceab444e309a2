"""Numbers, addresses and digits as they stand in texts. Each reader takes bytes, and gives None where they aren't
such a text."""

import re

LETTERS = b"ABCDEFGHIJKLMNOPQRSTUVWXYZabcdefghijklmnopqrstuvwxyz"
DIGITS = b"0123456789"
HEXADECIMAL = b"0123456789abcdefABCDEF"
DIGITS_MOST, NAME_MOST, PART_MOST = 20, 16, 255
ADDRESS = re.compile(rb"\.".join([b"(0|[1-9][0-9]{0,2})"] * 4))


def consists_of(text, characters):
    return not text.strip(characters)


def decimal(text, most):
    """A number of 1 to 20 digits, with or without leading zeros, which is at most `most`."""
    if not 1 <= len(text) or not has_at_most(text, DIGITS_MOST) or not consists_of(text, DIGITS):
        return None
    number = int(text)
    return number if is_at_most(number, most) else None


def has_at_most(text, most):
    return len(text) <= most


def is_at_most(number, most):
    return number <= most


def hexadecimal(text, size=None):
    """Bytes, of that number where one is told."""
    if len(text) % 2 or not consists_of(text, HEXADECIMAL):
        return None
    data = bytes.fromhex(text.decode())
    return data if size is None or len(data) == size else None


def name(text):
    """The name of a node."""
    return text.decode() if text and has_at_most(text, NAME_MOST) and consists_of(text, LETTERS + DIGITS + b"_-") else None


def address(text):
    """A number of 32 bits."""
    found = ADDRESS.fullmatch(text)
    parts = [int(part) for part in found.groups()] if found else [256]
    return int.from_bytes(bytes(parts), "big") if is_at_most(max(parts), PART_MOST) else None


def front(number, bits):
    """The address with all bits but the first ones made zero."""
    return number >> (32 - bits) << (32 - bits)


def prefix(text):
    """The front of an address, and its number of bits."""
    told, _, bits = text.partition(b"/")
    number, bits = address(told), decimal(bits, 32) if not bits.startswith(b"0") or bits == b"0" else None
    return None if number is None or bits is None else (front(number, bits), bits)
