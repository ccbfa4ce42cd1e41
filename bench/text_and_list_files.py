"""Large member files of texts and lists in four shapes: a text that is typed on and on, one that is typed character by character at
random places, one of which half is erased, and a list whose elements are shifted about."""

import itertools
import random

from large_files import LETTERS, Changes, Shape, make_operations
from outline_files import operation
from tree_files import LEFT, RIGHT, ROOT

TYPE, ERASE, ADD, SHIFT = 3, 4, 5, 6
# How many characters a change types at most, and its most bytes.
PIECE = 4_096
PIECE_BYTES = 3 * PIECE + 100
CHARACTERS = LETTERS * 8 + "éßж€你"
# How many characters are erased at once at most, and the most bytes of such a change.
RANGE = 128
RANGE_BYTES = 25 * RANGE
# The share of a file that types what is then erased by half, so that there is room for that.
TYPED_SHARE = 0.75
# A list has one element for so many bytes of its file, which leaves room to shift each about once.
ADD_BYTES = 40


class Walk:
    """Rows in the order of their walk, from the head on. What is read after a row is known of each."""

    def __init__(self):
        self.followers, self.with_right_child = {ROOT: None}, set()

    def place_after(self, row):
        """Where a row hangs that is to stand directly after this one: the row that it hangs on, and the side."""
        return (self.followers[row], LEFT) if row in self.with_right_child else (row, RIGHT)

    def put_after(self, row, new):
        """Puts a new row directly after this one, and returns where it hangs."""
        on, side = self.place_after(row)
        if side == RIGHT:
            self.with_right_child.add(on)
        self.followers[row], self.followers[new] = new, self.followers[row]
        return on, side

    def rows(self):
        row = self.followers[ROOT]
        while row:
            yield row
            row = self.followers[row]


def text_lines(characters):
    return ["node 0 root\n", f'text "{"".join(characters)}"\n']


def typed(at, characters):
    """The operation that types these characters in the text of the root."""
    return operation(TYPE, ROOT, *at, characters)


def type_on(changes, left):
    """Types pieces, each right of the last character before it, until so much room is left, and returns the text."""
    chance, pieces, last = random.Random(1), [], ROOT
    while changes.is_open(left + PIECE_BYTES):
        pieces.append("".join(chance.choices(CHARACTERS, k=PIECE)))
        changes.add([typed((last, RIGHT), pieces[-1])], PIECE)
        last = len(pieces), 0, PIECE - 1
    return "".join(pieces)


def make_typed(size, folder):
    """Pieces of a text, each typed behind the one before; and the edit that types one character more at the end."""
    changes = Changes(size)
    text = type_on(changes, 0)
    changes.write(folder, text_lines(text))
    changes.write_edit(folder, f"type edited root {len(text)} x", typed(((len(changes.made), 0, PIECE - 1), RIGHT), "x"))


def scatter(changes, most):
    """Types characters one by one, each after a random one before it or first, so many at most. Returns the walk of their ids and
    each id's character."""
    chance, walk, characters = random.Random(2), Walk(), {}
    while changes.is_open() and len(characters) < most:
        # With time 0 this is the head.
        after, new = (chance.randrange(changes.time()), 0, 0), (changes.time(), 0, 0)
        characters[new] = chance.choice(CHARACTERS)
        changes.add([typed(walk.put_after(after, new), characters[new])])
    return walk, characters


def make_scattered(size, folder):
    """Characters at random places; and the edit that types one more in the middle."""
    changes = Changes(size)
    walk, characters = scatter(changes, size)
    order = list(walk.rows())
    changes.write(folder, text_lines(characters[it] for it in order))
    middle = len(order) // 2
    changes.write_edit(folder, f"type edited root {middle} x", typed(walk.place_after(order[middle - 1]), "x"))


def live_runs(is_erased, first, count):
    """So many characters that aren't erased, or as many as there are, from this one on: the first of each run of them and the one
    behind it, where no run reaches over the end of a piece."""
    runs = []
    while count and first >= 0:
        end = min(first + count, (first // PIECE + 1) * PIECE)
        erased = is_erased.find(1, first, end)
        runs.append((first, end if erased < 0 else erased))
        count -= runs[-1][1] - first
        first = is_erased.find(0, runs[-1][1])
    return runs


def make_erased(size, folder):
    """A text of which half is erased, in ranges that begin at random characters."""
    changes, chance = Changes(size), random.Random(3)
    text = type_on(changes, int(changes.room * (1 - TYPED_SHARE)))
    is_erased, wanted = bytearray(len(text)), len(text) // 2
    while wanted and changes.is_open(RANGE_BYTES):
        first = chance.randrange(len(text))
        if is_erased[first]:
            continue
        runs = live_runs(is_erased, first, chance.randint(1, min(wanted, RANGE)))
        changes.add([operation(ERASE, ROOT, (1 + it // PIECE, 0, it % PIECE), end - it) for it, end in runs])
        for it, end in runs:
            is_erased[it:end] = b"\1" * (end - it)
            wanted -= end - it
    changes.write(folder, text_lines(itertools.compress(text, map(bytes([1, 0]).__getitem__, is_erased))))


class RandomList:
    """A list to which so many elements are added, each behind the one before, and then random ones are shifted to random places
    among the others."""

    def __init__(self, most):
        self.chance, self.most = random.Random(4), most
        self.walk, self.elements, self.positions = Walk(), [], {}

    def next_operation(self, new):
        if len(self.elements) < self.most:
            at = self.walk.put_after(self.elements[-1] if self.elements else ROOT, new)
            self.elements.append(new)
            self.positions[new] = new
            return operation(ADD, ROOT, *at, len(self.elements))
        element, other = self.chance.choice(self.elements), self.chance.choice(self.elements)
        # Behind itself stands for first.
        after = ROOT if other == element else self.positions[other]
        self.positions[element] = new
        return operation(SHIFT, ROOT, element, *self.walk.put_after(after, new))

    def lines(self):
        values = {self.positions[element]: place + 1 for place, element in enumerate(self.elements)}
        return ["node 0 root\n"] + [f"item {values[it]}\n" for it in self.walk.rows() if it in values]


def make_shifted(size, folder):
    shifted = RandomList(size // ADD_BYTES)
    make_operations(shifted.next_operation, shifted.lines, size, folder)


SCATTERED = "characters typed at random places"
TEXT_AND_LIST_SHAPES = [
    Shape("a text typed on and on", make_typed, most_memory=16, most_of_sum=15),
    Shape(SCATTERED, make_scattered),
    Shape("a text, half of it erased", make_erased),
    Shape("a list, its elements shifted about", make_shifted),
]
