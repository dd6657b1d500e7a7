#!/usr/bin/env python3
"""Tells what `kwstore --sample SEED` must write, from docs/FORMATS.md and the plain store of bench/compare.py.

python3 bench/sample.py SEED ..      the summary of each seed

The script and the weights are made by the format's text alone, and the replies by the plain store.
"""
import hashlib, sys

from compare import Node, Store

WORD_COUNT = 64


class Draws:
    def __init__(self, seed):
        self.number = seed

    def below(self, bound):
        self.number = (self.number * 6364136223846793005 + 1442695040888963407) % 2**64
        return (self.number >> 33) % bound

    def words(self, count):
        return " ".join(f"w{self.below(WORD_COUNT)}" for _ in range(count))


def element(name, *children, attributes=()):
    return Node(name, list(attributes), None, list(children))


def text(words):
    return Node(None, None, words, [])


def section(draws):
    return element("sec", element("t", text(draws.words(1))), element("p", text(draws.words(3))))


def replies(draws, store):
    for document in range(200):
        sections = [section(draws) for _ in range(8)]
        yield store.load(element("doc", *sections, attributes=[("id", f"d{document}")]))
    for _ in range(300):
        edit, target = draws.below(4), (2 * draws.below(200) + 1, 2 * draws.below(8) + 1)
        if edit == 0:
            yield store.insert("after", target, element("sec", element("t", text(draws.words(1)))))
        elif edit == 1:
            yield store.delete(target)
        elif edit == 2:
            yield store.replace(target, element("sec", element("p", text(draws.words(2)))))
        else:
            yield store.insert("first", target, element("n", text(draws.words(1))))
        yield store.search(["slca", "elca", "maxmatch", "maxmatch-elca"][draws.below(4)], draws.words(2).split())
    yield f"sound {sum(tree.count() for tree in store.trees)}"


def label_size(label):
    return sum(1 if -64 <= segment < 64 else 2 if -8256 <= segment < 8256 else 5 for segment in label)


def content_size(node):
    if node.text is not None:
        return 1 + len(node.text)
    return 7 + len(node.name) + sum(6 + len(name) + len(value) for name, value in node.attributes)


def weight(trees):
    def walk(node):
        yield node
        for child in node.children:
            yield from walk(child)

    nodes = [node for tree in trees for node in walk(tree)]
    held = {word for node in nodes for word in node.own_words()}
    chunks = sum((label_size(node.label) + 6) * -(-content_size(node) // 1000) + content_size(node) for node in nodes)
    occurrences = sum(2 + len(word) + label_size(node.label) for node in nodes for word in node.own_words())
    return chunks + occurrences + sum(9 + len(word) for word in held)


def main():
    for seed in map(int, sys.argv[1:]):
        store = Store()
        told = list(replies(Draws(seed), store))
        first = [reply.split()[:2] for reply in told]
        answers = sum(int(number) for word, number in first if word in ("hits", "fragments"))
        print(f"sample {seed}\ncommands {len(told)}")
        print(f"accepted {sum(word == 'ok' for word, _ in first)}\nrefused {sum(word == 'no' for word, _ in first)}")
        print(f"answers {answers}\nnodes {first[-1][1]}\nweight {weight(store.trees)}")
        print("sha256", hashlib.sha256("".join(reply + "\n" for reply in told).encode()).hexdigest())


main()
