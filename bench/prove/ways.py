#!/usr/bin/env python3
"""Counts the ways from each crate down through crates.txt, which the kit's older lines (up to rattle-kit-13b) go along one by one
before a check: minutes of one thread at some ten thousand.

    bench/prove/ways.py [NAME..]

A line for each crate that is named, or for the ten with most: how many ways there are, and of how many crates.
"""
import functools
import os
import sys

TOP = os.path.abspath(os.path.join(os.path.dirname(__file__), "..", ".."))


def below():
    """The crates of the repository that each stands on by itself."""
    with open(os.path.join(TOP, "crates.txt"), encoding="utf-8") as file:
        lines = [line.split("#")[0].partition(":") for line in file]
    names = {name.split()[0] for name, _, _ in lines if name.strip()}
    return {name.split()[0]: [it for it in rest.split() if it in names] for name, _, rest in lines if name.strip()}


def main():
    stands = below()

    @functools.cache
    def ways(name):
        return 1 + sum(ways(it) for it in stands[name])

    @functools.cache
    def crates(name):
        return frozenset([name]).union(*(crates(it) for it in stands[name]))

    for name in sys.argv[1:] or sorted(stands, key=ways)[-10:]:
        print(f"{ways(name):7} ways through {len(crates(name)):3} crates from {name}")


if __name__ == "__main__":
    main()
