#!/usr/bin/env python3
"""Shows a file by replaying its changes as plainly as can be: cases/plain_replay.py FILE

It reads the changes out of the file's bytes, sorts them by time and member, does their operations one after the other on plain
dictionaries, walks these and prints what is in view: what `outline show FILE` is to print. It takes well-formed files with the empty
base, in which every change fits.
"""

import sys
from typing import NamedTuple

ROOT, TRASH = (0, 0, 0), (0, 0, 1)
LEFT, RIGHT = 0, 1
SIMPLE_ITEMS = {20: False, 21: True, 22: None}


def read_item(data, at):
    """The item of the encoding at this place, and the place behind it. Arrays are tuples, so that ids can be compared."""
    major, argument = data[at] >> 5, data[at] & 31
    at += 1
    if major == 7:
        return SIMPLE_ITEMS[argument], at
    if argument >= 24:
        length = 1 << argument - 24
        argument, at = int.from_bytes(data[at : at + length], "big"), at + length
    if major == 0:
        return argument, at
    if major == 1:
        return -1 - argument, at
    if major == 2:
        return data[at : at + argument], at + argument
    if major == 3:
        return data[at : at + argument].decode(), at + argument
    if major == 4:
        items = []
        for _ in range(argument):
            item, at = read_item(data, at)
            items.append(item)
        return tuple(items), at
    raise ValueError("files have neither maps nor tags")


def read_sequence(data):
    items, at = [], 0
    while at < len(data):
        item, at = read_item(data, at)
        items.append(item)
    return items


class Change(NamedTuple):
    """A change, its operations undecoded."""

    member: int
    number: int
    time: int
    causes: tuple
    count: int
    width: int
    body: bytes

    def name(self):
        return self.member, self.number

    def order(self):
        """What changes are replayed by."""
        return self.time, self.member

    def operations(self):
        """Each operation with its id."""
        index = 0
        for kind, *fields in read_sequence(self.body):
            yield (self.time, self.member, index), kind, fields
            index += len(fields[-1]) if kind == TYPE else 1


class File(NamedTuple):
    """What a file holds beside its base: how many members its document has, and changes."""

    members: int
    kept: list
    waiting: list

    def vector(self):
        """How many changes of each member are kept."""
        makers = [it.member for it in self.kept]
        return [makers.count(member) for member in range(self.members)]


def read_file(data):
    header, *items = read_sequence(data)
    _, _, kind, _, members, _, kept, waiting = header
    if kind != 1:
        horizon, *_ = items.pop(0)
        if horizon:
            raise ValueError("the base isn't empty")
    changes = [Change(*it) for it in items]
    if len(changes) != kept + waiting:
        raise ValueError("the header counts other changes")
    return File(members, changes[:kept], changes[kept:])


class Row:
    """A row of an insertion tree: the row that it hangs on, or the head, and the side."""

    def __init__(self, anchor, side):
        self.anchor, self.side = anchor, side


class Character(Row):
    def __init__(self, anchor, side, character):
        super().__init__(anchor, side)
        self.character, self.is_dead = character, False


class Element:
    def __init__(self, position, value):
        self.position, self.value, self.is_dropped = position, value, False


class Node:
    """A node, its place, and what it has: the rows of its children's positions, keys, characters, the rows of its list, elements."""

    def __init__(self, parent=None, position=None):
        self.parent, self.position = parent, position
        self.positions, self.keys, self.characters, self.places, self.elements = {}, {}, {}, {}, {}


class Document:
    """The document that changes make, which are done in their order."""

    def __init__(self, changes):
        self.nodes = {ROOT: Node(), TRASH: Node()}
        for change in sorted(changes, key=Change.order):
            for at, kind, fields in change.operations():
                OPERATIONS[kind](self, at, *fields)

    def make(self, at, parent, anchor, side):
        self.nodes[parent].positions[at] = Row(anchor, side)
        self.nodes[at] = Node(parent, at)

    def move(self, at, child, parent, anchor, side):
        self.nodes[parent].positions[at] = Row(anchor, side)
        if not self.is_above(child, parent):
            self.nodes[child].parent, self.nodes[child].position = parent, at

    def put(self, _, node, key, value):
        self.nodes[node].keys[key] = value

    def type(self, at, node, anchor, side, text):
        for character in text:
            self.nodes[node].characters[at] = Character(anchor, side, character)
            anchor, side, at = at, RIGHT, following(at)

    def erase(self, _, node, first, count):
        for _ in range(count):
            self.nodes[node].characters[first].is_dead = True
            first = following(first)

    def add(self, at, node, anchor, side, value):
        self.nodes[node].places[at] = Row(anchor, side)
        self.nodes[node].elements[at] = Element(at, value)

    def shift(self, at, node, element, anchor, side):
        self.nodes[node].places[at] = Row(anchor, side)
        self.nodes[node].elements[element].position = at

    def set(self, _, node, element, value):
        self.nodes[node].elements[element].value = value

    def drop(self, _, node, element):
        self.nodes[node].elements[element].is_dropped = True

    def is_above(self, node, other):
        """Whether a node is the other one, or above it."""
        while other not in (node, None):
            other = self.nodes[other].parent
        return other == node

    def children(self, parent):
        """The children of a node in their order."""
        at = {it.position: name for name, it in self.nodes.items() if it.parent == parent}
        return [at[row] for row in walk(self.nodes[parent].positions) if row in at]

    def in_view(self):
        """The nodes in view from the root down, each with its depth."""
        shown, open_nodes = [], [(0, ROOT)]
        while open_nodes:
            depth, node = open_nodes.pop()
            shown.append((depth, node))
            open_nodes.extend((depth + 1, child) for child in reversed(self.children(node)))
        return shown

    def keys(self, node):
        """The keys that are shown, with their values, in the order of the keys' bytes."""
        keys = self.nodes[node].keys
        return [(key, keys[key]) for key in sorted(keys, key=str.encode) if keys[key] is not None]

    def text(self, node):
        characters = self.nodes[node].characters
        return "".join(characters[row].character for row in walk(characters) if not characters[row].is_dead)

    def items(self, node):
        """The values of the list's elements in their order."""
        at = {it.position: it.value for it in self.nodes[node].elements.values() if not it.is_dropped}
        return [at[row] for row in walk(self.nodes[node].places) if row in at]

    def show(self):
        """What is printed of the document."""
        lines = []
        for depth, node in self.in_view():
            lines.append(f"node {depth} {id_text(node)}")
            lines += [f"key {quoted(key)} {value_text(value)}" for key, value in self.keys(node)]
            lines += [f"text {quoted(text)}" for text in [self.text(node)] if text]
            lines += [f"item {value_text(value)}" for value in self.items(node)]
        return "".join(line + "\n" for line in lines)


# In the order of their kinds.
OPERATIONS = (
    Document.make,
    Document.move,
    Document.put,
    Document.type,
    Document.erase,
    Document.add,
    Document.shift,
    Document.set,
    Document.drop,
)
TYPE = OPERATIONS.index(Document.type)


def following(at):
    """The next id of the same change."""
    time, member, index = at
    return time, member, index + 1


def walk(rows):
    """The ids of an insertion tree in order: of each row the walks of its left children, it, and the walks of its right children,
    children by rising ids."""
    hanging, order, stack = {}, [], [(ROOT, False)]
    for name in sorted(rows, reverse=True):
        hanging.setdefault((rows[name].anchor, rows[name].side), []).append((name, False))
    while stack:
        name, is_next = stack.pop()
        if is_next:
            order.append(name)
        else:
            stack += hanging.get((name, RIGHT), []) + [(name, True)] + hanging.get((name, LEFT), [])
    # Nothing hangs left of the head, so it comes first.
    return order[1:]


def id_text(name):
    return {ROOT: "root", TRASH: "trash"}.get(name) or ".".join(map(str, name))


def quoted(text):
    """A text between quotes, as it is printed."""
    escaped = text.replace("\\", "\\\\").replace('"', '\\"')
    return '"' + "".join(f"\\u{ord(it):04x}" if it < " " or it == "\x7f" else it for it in escaped) + '"'


def value_text(value):
    if value is None or isinstance(value, bool):
        return {None: "null", True: "true", False: "false"}[value]
    if isinstance(value, int):
        return str(value)
    return quoted(value) if isinstance(value, str) else "#" + value.hex()


def shown(data):
    """What `show` is to print of the file with these bytes."""
    return Document(read_file(data).kept).show()


if __name__ == "__main__":
    with open(sys.argv[1], "rb") as opened:
        print(shown(opened.read()), end="")
