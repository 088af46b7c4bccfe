#!/usr/bin/env python3
"""Proofs of small knapsacks beside a walk of this script's own: what `prove` makes has to be the proof that closes each
node as soon as it may, and `verify` has to accept just the tokens that the walk accepts, with each token in turn turned,
left out, and one added before it. Its word is the program. Prints what is wrong, or nothing."""

import subprocess
import sys

ITEMS = 7


def made(kind, state):
    """Items as (weight, value) and a capacity: any value, near to the weight, a step above it, all alike, or some of no weight."""
    items = []
    for _ in range(ITEMS):
        state = (state * 6364136223846793005 + 1442695040888963407) % 2**64
        weight, other = 1 + (state >> 33) % 20, (state >> 13) % 30
        items.append([(weight, other), (weight, weight + other % 5), (weight, weight + 10), (6, 6), (weight % 3, other)][kind])
    return items, sum(weight for weight, _ in items) // 2 | 1


def best(items, capacity):
    """The best choice of all, by trying each."""
    def worth(chosen):
        weight = sum(items[i][0] for i in chosen)
        return sum(items[i][1] for i in chosen) if weight <= capacity else -1
    return max(([i for i in range(len(items)) if mask >> i & 1] for mask in range(2 ** len(items))), key=worth)


def in_order(items):
    """Items without weight first, then by falling value for weight."""
    return sorted(items, key=lambda item: (1, -item[1] / item[0]) if item[0] else (0, 0))


def bound(items, node):
    """The least value left behind under a node: how many items are decided, the room, and the value left behind so far."""
    decided, room, lost = node
    for at, (weight, value) in enumerate(items[decided:], decided):
        if weight > room:
            return lost + sum(rest for _, rest in items[at:]) - room * value // weight
        room -= weight
    return lost


def children(items, node):
    decided, room, lost = node
    weight, value = items[decided]
    taken = [(decided + 1, room - weight, lost)] if weight <= room else []
    return taken + [(decided + 1, room, lost + value)]


def accepts(items, capacity, cost, tokens):
    pending = [(0, capacity, 0)]
    for token in tokens:
        if not pending:
            return False
        node = pending.pop(0)
        if token == "c" and bound(items, node) < cost or token == "b" and node[0] == len(items):
            return False
        pending = (children(items, node) if token == "b" else []) + pending
    return not pending


def canonical(items, capacity, cost):
    pending, tokens = [(0, capacity, 0)], []
    while pending:
        node = pending.pop(0)
        tokens.append("b" if bound(items, node) < cost else "c")
        if tokens[-1] == "b":
            pending = children(items, node) + pending
    return tokens


def answer(words, text):
    return subprocess.run([sys.argv[1], *words], input=text, capture_output=True, text=True, timeout=60).stdout.splitlines()


def proof_lines(tokens):
    return ["proof %d" % len(tokens), *tokens]


for kind in range(5):
    items, capacity = made(kind, kind + 1)
    instance = ["%d %d" % (len(items), capacity)] + ["%d %d" % item for item in items]
    chosen = best(items, capacity)
    value = sum(items[i][1] for i in chosen)
    cost = sum(rest for _, rest in items) - value
    walked = in_order(items)
    tokens = canonical(walked, capacity, cost)
    if answer(["prove", "knapsack", "--queue", "plain"], "\n".join(instance) + "\n")[2:] != proof_lines(tokens):
        print("kind %d: another proof is made" % kind)
    plan = ["value %d" % value, " ".join(["items"] + [str(i) for i in chosen])]
    tried = [tokens]
    for at, token in enumerate(tokens):
        tried.append(tokens[:at] + ["c" if token == "b" else "b"] + tokens[at + 1:])
        tried.append(tokens[:at] + tokens[at + 1:])
        tried.append(tokens[:at] + ["bc"[at % 2]] + tokens[at:])
    for other in filter(None, tried):
        said = answer(["verify", "knapsack"], "\n".join(instance + plan + proof_lines(other)) + "\n")
        if (said == ["proved %d" % value]) != accepts(walked, capacity, cost, other):
            print("kind %d: %s of %s" % (kind, said, " ".join(other)))
