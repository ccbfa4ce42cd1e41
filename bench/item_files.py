"""Files in five shapes, and what `outline items` is to print of each."""

import functools

from large_files import DOCUMENT, MEMBERS, Shape
from outline_files import (
    ARRAY, LARGEST_BODY, LARGEST_FILE, MAP, TAG, array, bundle, change, head, member_file, number, octets, operation, text,
)

# What stands at the front of each file that is shown.
HEADER = 100


class Bytes(bytes):
    """A byte string, where `bytes` alone are spelled items."""


def spelled(item):
    """The bytes of an item: a number, a text, `Bytes`, a list, a dict, or a pair of a tag and an item."""
    if isinstance(item, int):
        return number(item)
    if isinstance(item, str):
        return text(item)
    if isinstance(item, Bytes):
        return octets(item)
    if isinstance(item, list):
        return array([spelled(it) for it in item])
    if isinstance(item, dict):
        return head(MAP, len(item)) + b"".join(spelled(it) for pair in item.items() for it in pair)
    tag, inner = item
    return head(TAG, tag) + spelled(inner)


def noted(item):
    """The notation of an item."""
    if isinstance(item, int):
        return str(item)
    if isinstance(item, str):
        return f'"{item}"'
    if isinstance(item, Bytes):
        return f"h'{item.hex()}'"
    if isinstance(item, list):
        return f"[{', '.join(map(noted, item))}]"
    if isinstance(item, dict):
        return f"{{{', '.join(f'{noted(key)}: {noted(it)}' for key, it in item.items())}}}"
    tag, inner = item
    return f"{tag}({noted(inner)})"


def header_noted(kind, mine, kept):
    return noted(["outline", 1, kind, Bytes(DOCUMENT), len(MEMBERS), mine, kept, 0])


def change_noted(member, count, time, width, operations):
    causes = [count - 1 if it == member else 0 for it in range(len(MEMBERS))]
    return noted([member, count, time, causes, len(operations), width, Bytes(b"".join(operations))])


def heads_alone(size):
    """A member file of acknowledgements."""
    changes, lines, room = [], [], size - HEADER
    while room > 40:
        count = len(changes) + 1
        changes.append(change(0, count, count, len(MEMBERS), []))
        lines.append(change_noted(0, count, count, 0, []))
        room -= len(changes[-1])
    row = [0, 0, [0] * len(MEMBERS)]
    front = [header_noted(0, MEMBERS, len(changes)), noted([0, [row] * len(MEMBERS)] + [[]] * 6)]
    return member_file(DOCUMENT, len(MEMBERS), MEMBERS, changes), front + lines, ["node 0 root"]


def of_all_kinds(place):
    """Nine operations, one of each kind, and how many ids they take."""
    root, row, other, right = (0, 0, 0), (1 + place % 1000, 0, place % 60000), (2, 1, place % 50000), 1
    return [
        operation(0, root, root, right),
        operation(1, row, other, root, right),
        operation(2, root, f"key {place % 100}", place),
        operation(3, root, row, right, f"text {place % 10}"),
        operation(4, root, row, 1 + place % 100),
        operation(5, root, row, 0, f"value {place}"),
        operation(6, root, row, other, right),
        operation(7, root, row, None),
        operation(8, root, row),
    ], 8 + len(f"text {place % 10}")


def all_kinds(size):
    """A bundle of changes with many operations."""
    changes, lines, room, place = [], [], size - HEADER, 0
    while room > 400:
        operations, width, body = [], 0, 0
        while width < 60_000 and body < min(room - 400, LARGEST_BODY - 400):
            more, ids = of_all_kinds(place)
            operations += more
            width += ids
            body += sum(map(len, more))
            place += 1
        count = len(changes) + 1
        changes.append(change(0, count, count, len(MEMBERS), operations, width))
        lines.append(change_noted(0, count, count, width, operations))
        room -= len(changes[-1])
    return bundle(DOCUMENT, len(MEMBERS), changes), [header_noted(1, [], len(changes))] + lines, None


def sixteen_deep(place):
    """An item of sixteen arrays, maps and tags in each other."""
    item = place
    for depth in range(16):
        item = ([item], {depth: item}, (depth + 5, item))[(place + depth) % 3]
    return item


def nested(size):
    """A thousand such items, again and again."""
    items = [sixteen_deep(place) for place in range(1_000)]
    spells, lines = b"".join(map(spelled, items)), list(map(noted, items))
    times = max(1, (size - 100) // len(spells))
    return spells * times, lines * times, None


def wide(size):
    """A map of half the size, whose keys rise, and an array of the other half."""
    pairs, numbers = (size - 100) // 2 // 6, (size - 100) // 2
    spells = [head(MAP, pairs)] + [number(65_536 + key) + number(key % 24) for key in range(pairs)]
    spells += [head(ARRAY, numbers)] + [bytes([place % 24]) for place in range(numbers)]
    entries = ", ".join(f"{65_536 + key}: {key % 24}" for key in range(pairs))
    return b"".join(spells), [f"{{{entries}}}", f"[{', '.join(str(place % 24) for place in range(numbers))}]"], None


def one_text(size):
    """One text, with a quote at each 64 bytes."""
    count = (min(size, LARGEST_FILE) - 10) // 64
    line = "x" * 63 + '"'
    return text(line * count), ['"' + ("x" * 63 + '\\"') * count + '"'], None


def make_items(shape, size, folder):
    """Makes the files `made`, `noted` and, where it is shown, `shown` in the folder."""
    made, notes, shown = shape(size)
    with open(f"{folder}/made", "wb") as file:
        file.write(made)
    with open(f"{folder}/noted", "w", encoding="utf-8") as file:
        file.writelines(line + "\n" for line in notes)
    if shown:
        with open(f"{folder}/shown", "w", encoding="utf-8") as file:
            file.writelines(line + "\n" for line in shown)


ITEM_SHAPES = [
    Shape(name, functools.partial(make_items, shape))
    for name, shape in (
        ("heads alone", heads_alone),
        ("a bundle of all kinds", all_kinds),
        ("sixteen deep", nested),
        ("very wide", wide),
        ("one text", one_text),
    )
]
