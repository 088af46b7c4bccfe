#!/usr/bin/env python3
"""Replays a history on a sorted list, with nothing of the program: each mark has to be a step of the bounded multiset,
and what is left has to be as many entries as the history says. Prints the first thing that is wrong, or nothing."""

import bisect
import sys


def wrong(lines):
    head = lines[0].split()
    if len(head) != 4 or head[0] != "seats" or head[2] != "capacity":
        return "no head: " + lines[0]
    seats, capacity = int(head[1]), int(head[3])
    held = []
    for place, line in enumerate(lines[1:-1]):
        words = line.split()
        seat, act = int(words[1]), words[2]
        if int(words[0]) != place or not 1 <= seat <= seats:
            return "no mark of a seat at its place: " + line
        if act == "+":
            entry, reply = (int(words[3]), int(words[4])), words[5:]
            if reply == ["done"] and len(held) < capacity:
                bisect.insort(held, entry)
            elif not (reply == ["full"] and capacity < len(held) + seats):
                return "no step: " + line
            continue
        limit, reply = (int(words[3]), words[4:]) if act == "<" else (None, words[3:])
        below = bool(held) and (limit is None or held[0][0] < limit)
        if reply[0] == "got":
            if not below or held[0] != (int(reply[1]), int(reply[2])):
                return "not the least: " + line
            del held[0]
        elif not (reply == ["empty"] and not held) and not (reply == ["above"] and held and not below):
            return "no step: " + line
    return None if lines[-1] == "left %d" % len(held) else "%d entries are left: %s" % (len(held), lines[-1])


found = wrong(sys.stdin.read().splitlines())
if found is not None:
    print(found)
