#!/usr/bin/env python3
"""How many ways lead from each crate down through crates.txt.

    tools/crate_ways.py [CRATES.TXT]

`rt` goes down each of these ways when it asks what is below a crate, before the first proof too
(docs/PROVING.md). A crate that names each crate below it doubles the ways of those above, so crates.txt names
only what a crate's files name. Prints the ten crates with the most ways, and the sum over all.
"""
import sys


def read(path):
    """Each crate's libraries, by its name."""
    with open(path, encoding="utf-8") as file:
        lines = [line.split("#")[0].strip() for line in file]
    return {line.partition(":")[0]: line.partition(":")[2].split() for line in lines if line}


def main(path="crates.txt"):
    below, ways = read(path), {}

    def count(name):
        if name not in ways:
            ways[name] = 1 + sum(count(it) for it in below[name] if it in below)
        return ways[name]

    most = sorted(below, key=count, reverse=True)
    for name in most[:10]:
        print(f"{ways[name]:9} {name}")
    print(f"{sum(ways.values()):9} in all, of {len(ways)} crates")


if __name__ == "__main__":
    main(*sys.argv[1:])
