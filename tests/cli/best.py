#!/usr/bin/env python3
"""Prints what a best plan of an instance is worth, found without a search: best.py KIND, the instance on standard input.

A knapsack goes by the table of R. Bellman's dynamic programming, one row an item. A shop goes by all orders in which its
operations can be dispatched, each as early as its job and its machine allow; so it has to be small.
"""
import sys


def knapsack(numbers):
    count, capacity = numbers[0], numbers[1]
    best = [0] * (capacity + 1)
    for at in range(count):
        weight, value = numbers[2 + 2 * at], numbers[3 + 2 * at]
        for room in range(capacity, weight - 1, -1):
            best[room] = max(best[room], best[room - weight] + value)
    return f'value {best[capacity]}'


def shop(lines):
    jobs = [list(zip(line[0::2], line[1::2])) for line in lines[1:]]
    least = sum(time for job in jobs for _, time in job)

    def dispatch(done, ready, free):
        nonlocal least
        if all(done[job] == len(jobs[job]) for job in range(len(jobs))):
            least = min(least, max(ready))
            return
        for job in range(len(jobs)):
            if done[job] < len(jobs[job]):
                machine, time = jobs[job][done[job]]
                end = max(ready[job], free[machine]) + time
                dispatch(done[:job] + [done[job] + 1] + done[job + 1:], ready[:job] + [end] + ready[job + 1:],
                         free[:machine] + [end] + free[machine + 1:])

    dispatch([0] * len(jobs), [0] * len(jobs), [0] * lines[0][1])
    return f'makespan {least}'


rows = [[int(word) for word in line.split()] for line in sys.stdin if line.strip()]
print(knapsack(sum(rows, [])) if sys.argv[1] == 'knapsack' else shop(rows))
