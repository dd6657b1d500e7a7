#!/usr/bin/env python3
"""Compares the program with a plain one on random commands.

python3 bench/compare.py [RUNS] [COMMANDS] [FIRST SEED]      500 runs of 150 commands, seeds from 1, where none are given

The plain program below is the recursions of docs/MODEL.md, written once more in Python on nodes with lists of
children. Each run loads, inserts, deletes, replaces, shows and searches small random trees, and the two texts of
replies must be the same. The program must be built (./kwstore builds it). At the first difference the script
tells the seed and the line, and ends with status 1.
"""
import os, random, subprocess, sys

TOP = os.path.dirname(os.path.dirname(os.path.abspath(__file__)))
PROGRAM = os.path.join(TOP, "crates", "kwstore", "out", "kwstore")
WORDS = ["xa", "yb", "zc", "wd"]
NAMES = ["xa", "bn", "cn", "en"]


class Node:
    """A text, or an element with a name and attributes; its label is a tuple of numbers."""

    def __init__(self, name, attributes, text, children):
        self.name, self.attributes, self.text, self.children = name, attributes, text, children
        self.label = None

    def shown_name(self):
        return "#text" if self.text is not None else self.name

    def own_words(self):
        if self.text is not None:
            return set(self.text.split())
        return {self.name}.union(*({name, *value.split()} for name, value in self.attributes))

    def words(self):
        return self.own_words().union(*(child.words() for child in self.children))

    def count(self):
        return 1 + sum(child.count() for child in self.children)

    def number(self, label):
        self.label = label
        for place, child in enumerate(self.children):
            child.number(label + (2 * place + 1,))

    def written(self):
        if self.text is not None:
            return self.text
        tag = self.name + "".join(f' {name}="{value}"' for name, value in self.attributes)
        inner = "".join(child.written() for child in self.children)
        return f"<{tag}>{inner}</{self.name}>" if self.children else f"<{tag}/>"


def shown(label):
    return ".".join(map(str, label))


# ---- labels


def behind(segment):
    return (segment[0] + (2 if segment[0] % 2 else 1),)


def ahead(segment):
    return (segment[0] - (2 if segment[0] % 2 else 1),)


def between(left, right):
    if left is None and right is None:
        return (1,)
    if right is None:
        return behind(left)
    if left is None:
        return ahead(right)
    same = 0
    while left[same] == right[same]:
        same += 1
    front, a, b = left[:same], left[same], right[same]
    odd = a + 2 if a % 2 else a + 1
    if odd < b:
        return front + (odd,)
    if b == a + 2:
        return front + (a + 1, 1)
    if a % 2:
        return front + (b,) + ahead(right[same + 1 :])
    return front + (a,) + behind(left[same + 1 :])


# ---- searches


def is_full(node, query):
    return set(query) <= node.words()


def smallest(node, query):
    if not is_full(node, query):
        return []
    if any(is_full(child, query) for child in node.children):
        return [found for child in node.children for found in smallest(child, query)]
    return [node]


def exclusive(node, query):
    held = node.own_words().union(*(child.words() for child in node.children if not is_full(child, query)))
    here = [node] if set(query) <= held else []
    return here + [found for child in node.children for found in exclusive(child, query)]


def fragment(node, query):
    held = [(child, child.words() & set(query)) for child in node.children if not is_full(child, query)]
    kept = [child for child, words in held if words and not any(words < other for _, other in held)]
    line = " ".join([shown(node.label), node.shown_name()] + [word for word in query if word in node.own_words()])
    return [line] + [line for child in kept for line in fragment(child, query)]


# ---- the store


class Store:
    def __init__(self):
        self.trees = []

    def place(self, label, siblings=None, parent=None):
        """The list in which the node with the label stands, its place in it, and its parent; or None."""
        siblings = self.trees if siblings is None else siblings
        for at, node in enumerate(siblings):
            if node.label == label:
                return siblings, at, parent
            if label[: len(node.label)] == node.label:
                return self.place(label, node.children, node)
        return None

    def load(self, tree):
        last = self.trees[-1].label if self.trees else None
        tree.number(between(last, None))
        self.trees.append(tree)
        return done(tree)

    def insert(self, where, target, tree):
        found = self.place(target)
        if found is None:
            return "no 17 absent"
        siblings, at, parent = found
        if where in ("first", "last"):
            parent = siblings[at]
            if parent.text is not None:
                return "no 18 leaf"
            siblings, at = parent.children, 0 if where == "first" else len(parent.children)
        elif where == "after":
            at += 1
        if tree.text is not None and parent is None:
            return "no 20 top"
        above = parent.label if parent else ()
        left = siblings[at - 1].label[len(above) :] if at > 0 else None
        right = siblings[at].label[len(above) :] if at < len(siblings) else None
        tree.number(above + between(left, right))
        siblings.insert(at, tree)
        return done(tree)

    def delete(self, target):
        found = self.place(target)
        return "no 17 absent" if found is None else done(found[0].pop(found[1]))

    def replace(self, target, tree):
        found = self.place(target)
        if found is None:
            return "no 17 absent"
        siblings, at, parent = found
        if tree.text is not None and parent is None:
            return "no 20 top"
        tree.number(target)
        siblings[at] = tree
        return done(tree)

    def show(self, target):
        found = self.place(target)
        if found is None:
            return "no 17 absent"
        node = found[0][found[1]]
        return f"tree {shown(node.label)} {node.count()}\n{node.written()}"

    def search(self, verb, words):
        query = list(dict.fromkeys(words))
        walk = smallest if verb in ("slca", "maxmatch") else exclusive
        found = [node for tree in self.trees for node in walk(tree, query)]
        if verb in ("slca", "elca"):
            return "\n".join([f"hits {len(found)}"] + [f"{shown(node.label)} {node.shown_name()}" for node in found])
        lines = [f"fragments {len(found)}"]
        for node in found:
            kept = fragment(node, query)
            lines += [f"fragment {shown(node.label)} {len(kept)}"] + kept
        return "\n".join(lines)

    def labels(self, siblings=None):
        siblings = self.trees if siblings is None else siblings
        return [label for node in siblings for label in [node.label] + self.labels(node.children)]


def done(tree):
    return f"ok {shown(tree.label)} {tree.count()}"


# ---- random commands


def some_text(draw):
    return Node(None, None, " ".join(draw.choices(WORDS, k=draw.randint(1, 3))), [])


def some_tree(draw, level):
    attributes = [(draw.choice(["p", "yb"]), " ".join(draw.choices(WORDS, k=draw.randint(0, 2))))] if draw.random() < 0.2 else []
    children = []
    for _ in range(draw.choice([0, 1, 1, 2, 2, 3]) if level < 5 else 0):
        # Two texts side by side would be read as one.
        if draw.random() < 0.45 and not (children and children[-1].text is not None):
            children.append(some_text(draw))
        else:
            children.append(some_tree(draw, level + 1))
    return Node(draw.choice(NAMES), attributes, None, children)


def step(draw, store):
    """A command and the plain program's reply."""
    labels = store.labels()
    verbs = ["load", "insert", "delete", "replace", "show", "slca", "elca", "maxmatch", "maxmatch-elca"]
    many = len(labels) > 150
    verb = draw.choices(verbs, [0 if many else 2, 1 if many else 8, 3, 2, 1, 4, 4, 4, 4])[0]
    if verb == "load":
        tree = some_tree(draw, 1)
        return f"load\n{tree.written()}\n.", store.load(tree)
    if verb in ("slca", "elca", "maxmatch", "maxmatch-elca"):
        words = draw.choices(WORDS + NAMES, k=draw.choice([1, 2, 2, 3, 4]))
        return f"{verb} " + " ".join(draw.choice([word, word.upper()]) for word in words), store.search(verb, words)
    absent = tuple(draw.choices([1, 3, 5, 7], k=draw.randint(1, 4)))
    label = draw.choice(labels) if labels and draw.random() < 0.95 else absent
    if verb in ("delete", "show"):
        return f"{verb} {shown(label)}", getattr(store, verb)(label)
    tree = some_text(draw) if draw.random() < 0.3 else some_tree(draw, 3)
    if verb == "replace":
        return f"replace {shown(label)}\n{tree.written()}\n.", store.replace(label, tree)
    where = draw.choice(["before", "after", "first", "last"])
    return f"insert {where} {shown(label)}\n{tree.written()}\n.", store.insert(where, label, tree)


def compare(seed, commands):
    draw, store = random.Random(seed), Store()
    steps = [step(draw, store) for _ in range(commands)]
    given = "".join(line + "\n" for line, _ in steps)
    due = "".join(reply + "\n" for _, reply in steps).splitlines()
    answered = subprocess.run([PROGRAM], input=given, capture_output=True, text=True).stdout.splitlines()
    if answered != due:
        at = next((i for i, (a, b) in enumerate(zip(answered, due)) if a != b), min(len(answered), len(due)))
        sys.exit(f"seed {seed}, line {at + 1}: {answered[at:at + 1]}, and plainly {due[at:at + 1]}")


def main():
    numbers = [int(word) for word in sys.argv[1:]]
    runs, commands, first = numbers + [500, 150, 1][len(numbers) :]
    for seed in range(first, first + runs):
        compare(seed, commands)
    print(f"{runs} runs of {commands} commands: no difference")


if __name__ == "__main__":
    main()
