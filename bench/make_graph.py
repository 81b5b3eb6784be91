#!/usr/bin/env python3
"""Writes a graph text of N vertices in no order of their vids: `make_graph.py N SEED`.

Each line is a vid below N and 0 to 4 edges to such vids with weights. The same N and SEED give the same text.
"""
import random
import sys

LINES_AT_ONCE = 10_000


def line(rng, vid, vertices):
    edges = (f"{rng.randrange(vertices)}:{1 + rng.randrange(100)}" for _ in range(rng.randrange(5)))
    return " ".join((str(vid), *edges))


def main():
    if len(sys.argv) != 3:
        sys.exit("usage: make_graph.py N SEED")
    vertices = int(sys.argv[1])
    rng = random.Random(int(sys.argv[2]))
    order = list(range(vertices))
    rng.shuffle(order)
    for first in range(0, vertices, LINES_AT_ONCE):
        lines = (line(rng, vid, vertices) for vid in order[first : first + LINES_AT_ONCE])
        sys.stdout.write("\n".join(lines) + "\n")


if __name__ == "__main__":
    main()
