#!/usr/bin/env python3
"""Checks that a knapsack's plan is optimal, from the proof behind it, with nothing of the program that made them.

Reads an instance, a plan and a proof from standard input, as docs/formats.md has them, takes them as well formed, and
prints what `pq verify knapsack` prints. Ends with 0 where the plan is proved, and else with 1.
"""
import sys
from fractions import Fraction


def judge(capacity, items, stated, choice, tokens):
    weight, value = (sum(items[k][part] for k in choice) for part in (0, 1))
    if weight > capacity:
        return f"bad weight {weight}"
    if value != stated:
        return f"bad value {value}"
    # Items without weight first, then by falling value for their weight; equal ones stay in the order of their numbers.
    order = sorted(items, key=lambda item: -Fraction(item[1], item[0]) if item[0] else float("-inf"))

    def allowed(depth, room, total):
        """What a node allows: no choice under it is worth more."""
        for weight, value in order[depth:]:
            if weight > room:
                return total + room * value // weight
            room, total = room - weight, total + value
        return total

    nodes = [(0, capacity, 0)]  # depth, room and value of those that the walk still comes to, the next one last
    for place, token in enumerate(tokens):
        if not nodes:
            return f"bad token {place}"
        depth, room, taken = nodes.pop()
        if token == "c" and allowed(depth, room, taken) <= stated:
            continue
        if token == "c" or depth == len(order):
            return f"bad token {place}"
        weight, value = order[depth]
        nodes.append((depth + 1, room, taken))
        if weight <= room:
            nodes.append((depth + 1, room - weight, taken + value))
    return f"bad token {len(tokens)}" if nodes else f"proved {stated}"


lines = [line.split() for line in sys.stdin if line.split() and not line.split()[0].startswith("#")]
count, capacity = map(int, lines[0])
items = [tuple(map(int, line)) for line in lines[1 : count + 1]]
choice = [int(word) for word in lines[count + 2][1:]]
verdict = judge(capacity, items, int(lines[count + 1][1]), choice, [line[0] for line in lines[count + 4 :]])
print(verdict)
sys.exit(not verdict.startswith("proved"))
