"""Makes the bytes of files from scratch: member files with an empty base, and bundles, with changes of any operations.

A file is a sequence of CBOR items (RFC 8949 section 3, RFC 8742), each number and length in its shortest form.
"""

import functools

LARGEST_FILE = 16_777_216
LARGEST_BODY = 1_048_576
LARGEST_WIDTH = 65_536

UNSIGNED, NEGATIVE, BYTES, TEXT, ARRAY, MAP, TAG = range(7)
NULL, FALSE, TRUE = b"\xf6", b"\xf4", b"\xf5"


@functools.lru_cache(maxsize=1 << 18)
def head(major, argument):
    """The first bytes of an item: its major type and its argument."""
    if argument < 24:
        return bytes([major << 5 | argument])
    for code, length in ((24, 1), (25, 2), (26, 4), (27, 8)):
        if argument < 1 << 8 * length:
            return bytes([major << 5 | code]) + argument.to_bytes(length, "big")
    raise ValueError(f"{argument} has more than 64 bits")


def number(value):
    return head(UNSIGNED, value) if value >= 0 else head(NEGATIVE, -1 - value)


def octets(content):
    return head(BYTES, len(content)) + content


def text(content):
    encoded = content.encode()
    return head(TEXT, len(encoded)) + encoded


def array(items):
    return head(ARRAY, len(items)) + b"".join(items)


def value(content):
    """A value of a key: None, a truth value, a whole number, a text or bytes."""
    if content is None:
        return NULL
    if content is True or content is False:
        return TRUE if content else FALSE
    if isinstance(content, int):
        return number(content)
    return text(content) if isinstance(content, str) else octets(content)


ROOT = array([number(0), number(0), number(0)])
PUT_ON_ROOT = head(ARRAY, 4) + number(2) + ROOT


def put(key, content):
    """The operation that puts a key of the root to a value."""
    return PUT_ON_ROOT + text(key) + value(content)


def field(content):
    """A field of an operation: an id as a triple, or a value."""
    return array([number(it) for it in content]) if isinstance(content, tuple) else value(content)


def operation(kind, *fields):
    return head(ARRAY, 1 + len(fields)) + number(kind) + b"".join(map(field, fields))


def change(member, count, time, members, operations, width=None, known=0):
    """The member's change number `count`, which knows so many changes of each other member. Without `width` each operation has width 1."""
    causes = array([number(count - 1 if it == member else known) for it in range(members)])
    ids = len(operations) if width is None else width
    body = octets(b"".join(operations))
    return array([number(member), number(count), number(time), causes, number(len(operations)), number(ids), body])


def header(kind, document, members, mine, changes):
    return array([
        text("outline"), number(1), number(kind), octets(document), number(members),
        array([number(it) for it in mine]), number(len(changes)), number(0),
    ])


def bundle(document, members, changes):
    return header(1, document, members, [], changes) + b"".join(changes)


def member_file(document, members, mine, changes):
    """A member file with the empty base and nothing waiting."""
    row = array([number(0), number(0), array([number(0)] * members)])
    base = array([number(0), array([row] * members)] + [array([])] * 6)
    return header(0, document, members, mine, changes) + base + b"".join(changes)
