#!/usr/bin/env python3
"""Lists the pairs of parameters, by name, that stand in three functions of a crate or more.

Run at the top of the repository. What it prints is where to look for parameters that always travel together.
"""
import collections
import glob
import itertools
import re

# generics may hold `F: Fn(u16) -> bool`; the parameters are what stands between the next parentheses after them
SIGNATURE = re.compile(r"fn (\w+)(?:<(?:[^<>]|->|<[^<>]*>)*>)?\(([^)]*)\)", re.S)


def names(parameters):
    """The names of the parameters of a signature, without `mut` and types."""
    parts = re.sub(r"\s+", " ", parameters).split(",")
    return [p.split(":")[0].strip().removeprefix("mut ") for p in parts if ":" in p]


def main():
    found = collections.defaultdict(list)
    for path in sorted(glob.glob("crates/*/src/*.rt")):
        crate = path.split("/")[1]
        with open(path, encoding="utf-8") as file:
            text = file.read()
        for function, parameters in SIGNATURE.findall(text):
            for pair in itertools.combinations(names(parameters), 2):
                found[crate, pair].append(function)
    for (crate, pair), functions in sorted(found.items()):
        if len(functions) > 2:
            print(f"{crate}: {', '.join(pair)} in {', '.join(functions)}")


main()
