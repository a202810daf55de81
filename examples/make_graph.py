#!/usr/bin/env python3
"""Makes a graph text to try chl on:  make_graph.py town|web|grid SIZE SEED > OUT.gr

town SIZE SEED  so many crossings at random places, each joined to its three nearest by a road of its length in meters;
                each road stands twice, as two arcs, and near crossings have near numbers, as in road files
web SIZE SEED   so many pages, each joined to three earlier ones, mostly to those that are joined to many; weights 1 to 8
grid SIZE SEED  a square of SIZE times SIZE crossings with random weights 1 to 8"""
import random
import sys

KILOMETER, JOINS = 1000, 3


def nearest(places, cells, width, i):
    """The crossings nearest to the crossing i, among those in the squares around it."""
    x, y = places[i]
    column, row = int(x / width), int(y / width)
    around = (j for a in range(column - 3, column + 4) for b in range(row - 3, row + 4) for j in cells.get((a, b), ()))
    by_distance = sorted((length(places[i], places[j]), j) for j in around if j != i)
    return [j for _, j in by_distance[:JOINS]]


def length(p, q):
    return max(1, round(((p[0] - q[0]) ** 2 + (p[1] - q[1]) ** 2) ** 0.5))


def town(size, seed):
    dice = random.Random(seed)
    side = KILOMETER * max(1, round(size ** 0.5 / 10))
    width = side * (2 / size) ** 0.5
    places = [(dice.uniform(0, side), dice.uniform(0, side)) for _ in range(size)]
    places.sort(key=lambda p: (int(p[0] / (10 * width)), p[1]))
    cells = {}
    for i, (x, y) in enumerate(places):
        cells.setdefault((int(x / width), int(y / width)), []).append(i)
    roads = {(min(i, j), max(i, j)) for i in range(size) for j in nearest(places, cells, width, i)}
    return [arc for i, j in sorted(roads) for w in [length(places[i], places[j])] for arc in [(i + 1, j + 1, w), (j + 1, i + 1, w)]]


def web(size, seed):
    dice, links, ends = random.Random(seed), [], [1]
    for page in range(2, size + 1):
        for earlier in sorted({dice.choice(ends) for _ in range(JOINS)}):
            links.append((earlier, page, dice.randint(1, 8)))
            ends += [earlier, page]
    return links


def grid(side, seed):
    dice, roads = random.Random(seed), []
    for v in range(1, side * side + 1):
        if v % side:
            roads.append((v, v + 1, dice.randint(1, 8)))
        if v <= side * (side - 1):
            roads.append((v, v + side, dice.randint(1, 8)))
    return roads


def main():
    if len(sys.argv) != 4 or sys.argv[1] not in ("town", "web", "grid"):
        sys.exit(__doc__)
    kind, size, seed = sys.argv[1], int(sys.argv[2]), int(sys.argv[3])
    edges = {"town": town, "web": web, "grid": grid}[kind](size, seed)
    nodes = size * size if kind == "grid" else size
    out = sys.stdout
    out.write(f"c {' '.join(sys.argv[1:])}\np sp {nodes} {len(edges)}\n")
    out.writelines(f"a {u} {v} {w}\n" for u, v, w in edges)


if __name__ == "__main__":
    main()
