"""What shapes of large files are, and four of them: one short put per change or many, over ten keys or over keys that all differ."""

import functools
import os
import sys
from typing import Callable, NamedTuple

from outline_files import LARGEST_BODY, LARGEST_FILE, LARGEST_WIDTH, change, member_file, put

MIB = 1_048_576
DOCUMENT = bytes(range(16))
MEMBERS = [0, 1]
LETTERS = "abcdefghijklmnopqrstuvwxyzABCDEFGHIJKLMNOPQRSTUVWXYZ0123456789"


class Shape(NamedTuple):
    """A name, what makes the files of a size in a folder, and the most memory for each byte of a file and the longest time of
    `show`, in times that of `sha256sum`, that such files are to take."""

    name: str
    make: Callable
    most_memory: int = 64
    most_of_sum: float = float("inf")


def one_of_ten(place):
    return LETTERS[place * 7 % 10]


def one_of_its_own(place):
    """Four letters, others for each place: the factor and the number of such keys have no divisor in common."""
    scrambled, key = place * 9_176_023 % len(LETTERS) ** 4, ""
    for _ in range(4):
        scrambled, letter = divmod(scrambled, len(LETTERS))
        key += LETTERS[letter]
    return key


class Changes:
    """Changes of one member, to a file of at most this size, and a room for one more put."""

    def __init__(self, size):
        self.room, self.made = min(size, LARGEST_FILE) - 200, []

    def is_open(self, needed=100):
        """Whether there is room for a change of so many bytes."""
        return self.room > needed

    def fits(self, body):
        """Whether a body of this length leaves room for one more operation."""
        return body < min(self.room, LARGEST_BODY) - 100

    def time(self):
        """The time of the next change, which is its number too."""
        return len(self.made) + 1

    def next(self, operations, width=None):
        return change(0, self.time(), self.time(), len(MEMBERS), operations, width)

    def add(self, operations, width=None):
        self.made.append(self.next(operations, width))
        self.room -= len(self.made[-1])

    def write(self, folder, lines):
        """Writes `made`, and `shown`, what `show made` is to print; and the edit that puts a key on the root."""
        with open(f"{folder}/shown", "w", encoding="utf-8") as file:
            file.writelines(lines)
        write_file(f"{folder}/made", self.made)
        self.write_edit(folder, "put edited root new 1", put("new", 1))

    def write_edit(self, folder, words, made):
        """Of an edit of the file, which makes this operation: its words in `COMMAND.words`, and what it is to make of the file in
        `COMMAND.after`."""
        command = words.split()[0]
        with open(f"{folder}/{command}.words", "w", encoding="utf-8") as file:
            file.write(words)
        write_file(f"{folder}/{command}.after", self.made + [self.next([made])])


def write_file(path, changes):
    with open(path, "wb") as file:
        file.write(member_file(DOCUMENT, len(MEMBERS), MEMBERS, changes))


def make_operations(next_operation, lines, size, folder):
    """Operations that are made one after the other, each with its id, as many in a change as fit."""
    changes = Changes(size)
    while changes.is_open():
        made, body = [], 0
        while len(made) < LARGEST_WIDTH and changes.fits(body):
            made.append(next_operation((changes.time(), 0, len(made))))
            body += len(made[-1])
        changes.add(made)
    changes.write(folder, lines())


def make_puts(key_of, most, size, folder):
    """Puts over these keys, so many a change at most."""
    changes, place, shown = Changes(size), 0, {}
    while changes.is_open():
        puts, body = [], 0
        while len(puts) < most and changes.fits(body):
            key = key_of(place)
            shown[key] = place % 1000
            puts.append(put(key, shown[key]))
            body += len(puts[-1])
            place += 1
        changes.add(puts)
    changes.write(folder, ["node 0 root\n"] + [f'key "{key}" {shown[key]}\n' for key in sorted(shown)])


PUT_SHAPES = [
    Shape(f"{puts}, {keys}", functools.partial(make_puts, key_of, most))
    for keys, key_of in (("ten keys", one_of_ten), ("keys that differ", one_of_its_own))
    for puts, most in (("one put a change", 1), ("many puts a change", LARGEST_WIDTH))
]


def apart(makes, *given):
    """Makes files in a process of its own, since the memory of this one counts as that of what it starts."""
    child = os.fork()
    if not child:
        makes(*given)
        os._exit(0)
    if os.waitpid(child, 0)[1]:
        sys.exit("bench: the files could not be made")
