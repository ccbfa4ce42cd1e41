"""Files of two members who edited apart, and the bundles that bring the changes of one to the other: all at once, in order, the last
first; and moves against moves.

Of each exchange there are `made`, the file that gets the changes; `bundle0`, `bundle1` and so on, in the order in which they are
delivered; `reports`, a line of what is printed of each; and `after`, the file that they are to leave.
"""

import functools
import random
from typing import Callable, NamedTuple

from large_files import DOCUMENT, MEMBERS, MIB
from outline_files import bundle, change, member_file, operation
from tree_files import LEFT, RIGHT, ROOT

NEW, MOVE, PUT, TYPE, ERASE, ADD, SHIFT, SET, DROP = KINDS = range(9)
# What both know from the first change on, which member 0 makes: some nodes.
COMMON = 8
SIZES = tuple(it * MIB for it in (1, 4, 16))
TYPED = "Peel the onions, slice them thinly, and let them sweat in the butter for as long as it takes. "
CHANGED = "as above, but with half of the butter and a little more salt"
# A change of the edits takes at most so many bytes, taken over a turn of all kinds.
CHANGE_BYTES = 64
IN_ORDER = 16
LAST_FIRST = 2_000
LAST_FIRST_BYTES = 2 * CHANGE_BYTES * (LAST_FIRST + COMMON)
MOVED = 1_000
MOVES_OF_EACH = 100_000
MOVES_AT_ONCE = 1_000


class Exchange(NamedTuple):
    """A name, what makes the files of a size in a folder, and the sizes to make, in bytes."""

    name: str
    make: Callable
    sizes: tuple


def common_change(nodes):
    """The first change of all: so many children of the root, each behind the one before."""
    afters = [ROOT] + [(1, 0, index) for index in range(nodes - 1)]
    return change(0, 1, 1, len(MEMBERS), [operation(NEW, ROOT, it, RIGHT) for it in afters])


def edit(member, place):
    """The operation of a member's edit at this place, from 0 on, and its width. The nine kinds come in turn, and each turn works on what
    it and the member's earlier turns made; each eighth one moves a common node below another."""
    turn, kind = divmod(place, len(KINDS))

    def made(at, made_kind):
        return (2 + at * len(KINDS) + made_kind, member, 0) if at >= 0 else ROOT

    node, element, common = made(turn, NEW), made(turn, ADD), (1, 0, turn % COMMON)
    if kind == NEW:
        return operation(NEW, ROOT, made(turn - 1, NEW) if turn else (1, 0, COMMON - 1), RIGHT), 1
    if kind == MOVE and turn % COMMON == COMMON - 1:
        other = turn // COMMON % (COMMON - 1)
        return operation(MOVE, (1, 0, other), (1, 0, (other + 1 + member) % COMMON), ROOT, RIGHT), 1
    if kind == MOVE:
        return operation(MOVE, node, common, made(turn - COMMON, MOVE), RIGHT), 1
    if kind == PUT:
        return operation(PUT, node, f"key {turn % 10}", CHANGED), 1
    if kind == TYPE:
        last = made(turn - 1, TYPE)
        return operation(TYPE, ROOT, (*last[:2], len(TYPED) - 1) if turn else ROOT, RIGHT, TYPED), len(TYPED)
    if kind == ERASE:
        return operation(ERASE, ROOT, (*made(turn, TYPE)[:2], 2), 3), 1
    if kind == ADD:
        return operation(ADD, ROOT, made(turn - 1, ADD), RIGHT, turn), 1
    if kind == SHIFT:
        return operation(SHIFT, ROOT, element, made(turn // 2, ADD), LEFT), 1
    if kind == SET:
        return operation(SET, ROOT, element, CHANGED), 1
    return operation(DROP, ROOT, made(turn // 2, ADD)), 1


def apart_changes(member, operations):
    """A member's changes behind the common one, made without the other's, at the times from 2 on: each with these operations and width."""
    first, known = (2, 0) if member == 0 else (1, 1)
    return [
        change(member, first + place, 2 + place, len(MEMBERS), made, width, known)
        for place, (made, width) in enumerate(operations)
    ]


def edits(member, count):
    return apart_changes(member, (([made], width) for made, width in (edit(member, it) for it in range(count))))


def write_exchange(folder, common, ours, theirs, bundles, reports):
    """Writes the files of an exchange in which member 1's changes come to member 0 in these bundles. Both made as many, at the same
    times."""
    merged = [it for pair in zip(ours, theirs) for it in pair]
    files = {"made": file_of([common] + ours), "after": file_of([common] + merged)}
    files.update((f"bundle{place}", bundle(DOCUMENT, len(MEMBERS), it)) for place, it in enumerate(bundles))
    for name, content in files.items():
        with open(f"{folder}/{name}", "wb") as file:
            file.write(content)
    with open(f"{folder}/reports", "w", encoding="utf-8") as file:
        file.writelines(f"accepted {accepted} known 0 same 0 waiting {waiting}\n" for accepted, waiting in reports)


def file_of(changes):
    return member_file(DOCUMENT, len(MEMBERS), [0], changes)


def make_edits(split, size, folder):
    """Edits of all kinds, in a file of this size in the end; `split` makes bundles of the changes that come, and reports of each."""
    ours, theirs = (edits(member, (size - CHANGE_BYTES * COMMON) // (2 * CHANGE_BYTES)) for member in MEMBERS)
    write_exchange(folder, common_change(COMMON), ours, theirs, *split(theirs))


def split_in_order(count, changes):
    """So many bundles, each of which is accepted."""
    ends = [len(changes) * it // count for it in range(count + 1)]
    bundles = [changes[first:end] for first, end in zip(ends, ends[1:])]
    return bundles, [(len(it), 0) for it in bundles]


def split_last_first(changes):
    """A bundle for each change, the last first: all wait for the first change."""
    waiting = len(changes) - 1
    return [[it] for it in reversed(changes)], [(0, 1 + it) for it in range(waiting)] + [(1 + waiting, 0)]


def random_moves(chance):
    """The operations of a change that moves random common nodes below random others, and its width."""
    nodes = [(1, 0, index) for index in range(MOVED)]
    moves = [operation(MOVE, *chance.sample(nodes, 2), ROOT, RIGHT) for _ in range(MOVES_AT_ONCE)]
    return moves, len(moves)


def make_moves(_, folder):
    """Moves of one member against as many of the other, all of the same nodes, many in a change."""
    chance = random.Random(5)
    ours, theirs = (
        apart_changes(member, [random_moves(chance) for _ in range(MOVES_OF_EACH // MOVES_AT_ONCE)]) for member in MEMBERS
    )
    write_exchange(folder, common_change(MOVED), ours, theirs, *split_in_order(1, theirs))


EXCHANGES = [
    Exchange("all at once", functools.partial(make_edits, functools.partial(split_in_order, 1)), SIZES),
    Exchange(f"{IN_ORDER} bundles in order", functools.partial(make_edits, functools.partial(split_in_order, IN_ORDER)), SIZES),
    Exchange(f"{LAST_FIRST} bundles, the last first", functools.partial(make_edits, split_last_first), (LAST_FIRST_BYTES,)),
    Exchange(f"{MOVES_OF_EACH} moves against as many", make_moves, (0,)),
]
