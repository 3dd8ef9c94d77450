#!/usr/bin/env python3
"""Prints how many crates crates.txt has, how many edges (a crate that names another of them), how many ways there are from
each crate down to one that names none, summed over all, and how many crates the longest way has.

    bench/tools/count_map.py [CRATES.TXT]

With --most CRATES EDGES WAYS the status is 1 where one of the three is larger."""
import argparse
import functools
import sys


def named(path):
    """The crates of a map, each with those of the map that it names."""
    lines = (line.split("#")[0] for line in open(path, encoding="utf-8"))
    halves = [line.split(":", 1) for line in lines if ":" in line]
    deps = {half[0].split()[0]: half[1].replace(",", " ").split() for half in halves}
    return {name: [dep for dep in list_ if dep in deps] for name, list_ in deps.items()}


def counted(deps):
    @functools.lru_cache(None)
    def ways(name):
        return sum(map(ways, deps[name])) or 1

    @functools.lru_cache(None)
    def height(name):
        return 1 + max(map(height, deps[name]), default=0)

    return len(deps), sum(map(len, deps.values())), sum(map(ways, deps)), max(map(height, deps))


def main():
    words = argparse.ArgumentParser(description=__doc__, formatter_class=argparse.RawDescriptionHelpFormatter)
    words.add_argument("path", nargs="?", default="crates.txt")
    words.add_argument("--most", nargs=3, type=int, metavar=("CRATES", "EDGES", "WAYS"))
    given = words.parse_args()
    crates, edges, ways, height = counted(named(given.path))
    print(f"crates={crates} edges={edges} ways={ways} longest={height}")
    if given.most:
        sys.exit(any(count > most for count, most in zip((crates, edges, ways), given.most)))


if __name__ == "__main__":
    main()
