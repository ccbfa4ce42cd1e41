"""One text that is typed character by character at random places, as a member file and as an update of Yjs."""

import bisect
import os
import subprocess

from large_files import Changes
from outline_files import LARGEST_FILE
from text_and_list_files import scatter, text_lines

CHARACTERS = 100_000
# Where packages of the system stand that node doesn't look for itself.
os.environ.setdefault("NODE_PATH", "/usr/share/nodejs:/usr/lib/node_modules")
SCRIPT = os.path.join(os.path.dirname(os.path.realpath(__file__)), "yjs.cjs")
OPEN_IN_YJS = ["node", SCRIPT, "open", "update"]


def has_yjs():
    try:
        return not subprocess.run(["node", "--eval", "require('yjs')"], stderr=subprocess.DEVNULL).returncode
    except FileNotFoundError:
        return False


def places(order):
    """Of each row, by rising ids, its place among those before it."""
    final, held, found = {row: place for place, row in enumerate(order)}, [], []
    for row in sorted(order):
        found.append(bisect.bisect(held, final[row]))
        held.insert(found[-1], final[row])
    return found


def make_for_both(folder):
    """Makes the files `made`, `shown` and `update`."""
    changes = Changes(LARGEST_FILE)
    walk, characters = scatter(changes, CHARACTERS)
    order = list(walk.rows())
    changes.write(folder, text_lines(characters[it] for it in order))
    with open(f"{folder}/insertions", "w", encoding="utf-8") as file:
        file.writelines(f"{place} {characters[row]}\n" for place, row in zip(places(order), sorted(order)))
    subprocess.run(["node", SCRIPT, "make", "insertions", "update"], cwd=folder, check=True)
