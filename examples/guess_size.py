#!/usr/bin/env python3
"""Guesses how large an index gets before it is built:  guess_size.py G.gr G.order [NODES]

Of so many random nodes (128 where it isn't said) it counts the hubs. One search of the whole graph from a node v finds for
each node h the highest-ranked node on any shortest path between the two, and h is a hub of v exactly where that is h
itself. The mean over these nodes is what a row has, and an index file has 12 + 8 N + 12 E bytes."""
import heapq
import random
import statistics
import sys


def read_graph(name):
    """The arcs from each node, from 1, of a graph text: pairs of the other end and the weight."""
    arcs = []
    with open(name) as lines:
        for line in lines:
            words = line.split()
            if words[:2] == ["p", "sp"]:
                arcs = [[] for _ in range(int(words[2]) + 1)]
            elif words[:1] == ["a"]:
                u, v, w = map(int, words[1:])
                arcs[u].append((v, w))
                arcs[v].append((u, w))
    return arcs


def read_order(name):
    """The position of each node, from 0, of an order text: node 0 is none."""
    with open(name) as lines:
        nodes = [int(line) for line in lines if line.strip() and not line.startswith("c")]
    position = [0] * (len(nodes) + 1)
    for place, node in enumerate(nodes):
        position[node] = place
    return position


def count_hubs(arcs, position, root):
    """How many hubs the row of a node has."""
    best, top, queue, hubs = {root: 0}, {root: position[root]}, [(0, root)], 0
    done = bytearray(len(arcs))
    while queue:
        far, v = heapq.heappop(queue)
        if done[v]:
            continue
        done[v] = 1
        hubs += top[v] == position[v]
        for to, w in arcs[v]:
            known = best.get(to)
            if known is None or far + w < known:
                best[to], top[to] = far + w, min(top[v], position[to])
                heapq.heappush(queue, (far + w, to))
            elif far + w == known:
                top[to] = min(top[to], top[v])
    return hubs


def main():
    if len(sys.argv) not in (3, 4):
        sys.exit(__doc__)
    arcs, position = read_graph(sys.argv[1]), read_order(sys.argv[2])
    n, dice = len(arcs) - 1, random.Random(1)
    counts = [count_hubs(arcs, position, dice.randint(1, n)) for _ in range(int(sys.argv[3]) if len(sys.argv) == 4 else 128)]
    mean = statistics.fmean(counts)
    error = statistics.stdev(counts) / len(counts) ** 0.5
    print(f"{mean:.0f} entries a node, give or take {3 * error:.0f}")
    print(f"a file of about {(12 + 8 * n + 12 * mean * n) / 1e6:.1f} MB, and {16 * mean * n / 1e6:.0f} MB for the entries in memory")


if __name__ == "__main__":
    main()
