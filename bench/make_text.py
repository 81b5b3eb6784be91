#!/usr/bin/env python3
"""Writes about N megabytes of graph text: `make_text.py N SEED [mixed]`.

Each line is a vid, which ascend, and 0 to 8 edges, about one in four of them with a weight.
With `mixed` the vids, no two of them the same, are in no order, and each line has 0 to 6 edges.
The same words give the same text.
"""
import random
import sys

MEGABYTE = 1_000_000
LINES_AT_ONCE = 10_000
MIXED_VIDS = 1 << 28
SPREAD = 2_654_435_761


def edge(rng, target):
    """A target, and now and then a weight."""
    if rng.random() < 0.25:
        return f"{target}:{rng.randrange(1 << rng.randrange(1, 33))}"
    return str(target)


def near(rng, vid):
    """A target, mostly near the vid."""
    if rng.random() < 0.8:
        return rng.randrange(2 * vid + 16)
    return rng.randrange(1 << 48)


def lines(rng):
    """Lines without end."""
    vid = 0
    while True:
        vid += 1 + rng.randrange(4)
        edges = (edge(rng, near(rng, vid)) for _ in range(rng.randrange(9)))
        yield " ".join((str(vid), *edges))


def mixed_lines(rng):
    """Lines of mixed vids, as many as there are."""
    # A factor that is odd takes each number below a power of two to another one.
    for i in range(MIXED_VIDS):
        vid = i * SPREAD % MIXED_VIDS
        edges = (edge(rng, rng.randrange(MIXED_VIDS)) for _ in range(rng.randrange(7)))
        yield " ".join((str(vid), *edges))


def main():
    if len(sys.argv) < 3 or sys.argv[3:] not in ([], ["mixed"]):
        sys.exit("usage: make_text.py N SEED [mixed]")
    left = int(sys.argv[1]) * MEGABYTE
    make = mixed_lines if sys.argv[3:] else lines
    source = make(random.Random(int(sys.argv[2])))
    while left > 0:
        text = "\n".join(next(source) for _ in range(LINES_AT_ONCE)) + "\n"
        sys.stdout.write(text)
        left -= len(text)


if __name__ == "__main__":
    main()
