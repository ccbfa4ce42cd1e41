"""Large member files of nodes in three shapes: a chain, one parent of all, and a tree that is built and moved about at random."""

import random

from large_files import Shape, make_operations
from outline_files import operation

ROOT = (0, 0, 0)
LEFT, RIGHT = 0, 1


def id_text(node):
    return "root" if node == ROOT else ".".join(map(str, node))


def node_lines(children):
    """The lines of the nodes from the root down, whose children these are."""
    lines, stack = [], [(0, ROOT)]
    while stack:
        depth, node = stack.pop()
        lines.append(f"node {depth} {id_text(node)}\n")
        stack.extend((depth + 1, child) for child in reversed(children.get(node, [])))
    return lines


def make_chain(size, folder):
    """Each node below the one before."""
    children, last = {}, [ROOT]

    def next_operation(node):
        parent, last[0] = last[0], node
        children[parent] = [node]
        return operation(0, parent, ROOT, RIGHT)

    make_operations(next_operation, lambda: node_lines(children), size, folder)


def make_siblings(size, folder):
    """Each node behind the one before."""
    nodes = []

    def next_operation(node):
        after = nodes[-1] if nodes else ROOT
        nodes.append(node)
        return operation(0, ROOT, after, RIGHT)

    make_operations(next_operation, lambda: node_lines({ROOT: nodes}), size, folder)


class RandomTree:
    """A tree whose nodes are made below random nodes, each third operation moving a random node to a random place."""

    def __init__(self):
        self.random = random.Random(1)
        self.nodes, self.parents, self.positions = [], {}, {}

    def is_above(self, node, other):
        while other != node and other != ROOT:
            other = self.parents[other][0]
        return other == node

    def next_operation(self, at):
        parent = self.random.choice(self.nodes) if self.nodes and self.random.random() < 0.9 else ROOT
        rows = self.positions.setdefault(parent, [])
        on, side = (self.random.choice(rows)[0], self.random.choice((LEFT, RIGHT))) if rows else (ROOT, RIGHT)
        rows.append((at, on, side))
        if len(self.nodes) < 3 or self.random.random() < 2 / 3:
            self.nodes.append(at)
            self.parents[at] = parent, at
            return operation(0, parent, on, side)
        child = self.random.choice(self.nodes)
        if not self.is_above(child, parent):
            self.parents[child] = parent, at
        return operation(1, child, parent, on, side)

    def walk(self, parent):
        """The positions below a parent in their order: the left ones of each, it, and the right ones, each by rising ids."""
        hanging, order, stack = {}, [], [(ROOT, False)]
        for row, on, side in self.positions.get(parent, []):
            hanging.setdefault((on, side), []).append(row)
        while stack:
            row, is_next = stack.pop()
            if is_next:
                order.append(row)
                continue
            stack.extend((it, False) for it in reversed(hanging.get((row, RIGHT), [])))
            stack.append((row, True))
            stack.extend((it, False) for it in reversed(hanging.get((row, LEFT), [])))
        return order

    def children(self):
        held = {}
        for node, (parent, position) in self.parents.items():
            held.setdefault(parent, {})[position] = node
        return {parent: [at[row] for row in self.walk(parent) if row in at] for parent, at in held.items()}


def make_random(size, folder):
    tree = RandomTree()
    make_operations(tree.next_operation, lambda: node_lines(tree.children()), size, folder)


TREE_SHAPES = [
    Shape("a chain of nodes", make_chain),
    Shape("one parent of all nodes", make_siblings),
    Shape("a random tree, moved about", make_random),
]
