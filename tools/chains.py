#!/usr/bin/env python3
"""Prints how many chains of libraries lead down from each library of crates.txt, the most first, and the seconds that the
gate takes to sum the texts along them.

    tools/chains.py [COUNT]

Some kits sum a library's texts, and those of all below it, twice when they build it, along every chain anew. A line of
crates.txt that names what lies far above costs most. The seconds were fitted on a loaded Xeon of 2.5 GHz.
"""
import functools
import os
import sys

FILE_SECONDS, BYTE_SECONDS = 35e-6, 25.5e-9


def main():
    os.chdir(os.path.dirname(os.path.dirname(os.path.abspath(__file__))))
    below = {}
    with open("crates.txt", encoding="utf-8") as file:
        for line in file:
            name, colon, libraries = line.partition("#")[0].partition(":")
            if colon:
                below[name.split()[0]] = libraries.split()
    below = {name: [it for it in libraries if it in below] for name, libraries in below.items()}

    @functools.lru_cache(None)
    def once(name):
        files = [
            os.path.join(at, it)
            for part in ("src", "specs", "proofs")
            for at, _, names in os.walk(f"crates/{name}/{part}")
            for it in names
        ]
        return FILE_SECONDS * len(files) + BYTE_SECONDS * sum(os.path.getsize(it) for it in files)

    @functools.lru_cache(None)
    def chains(name):
        return 1 + sum(chains(it) for it in below[name])

    @functools.lru_cache(None)
    def seconds(name):
        return once(name) + sum(seconds(it) for it in below[name])

    libraries = [it for it in below if not os.path.isfile(f"crates/{it}/src/main.rt")]
    print(f"{sum(map(chains, libraries)):9} chains {2 * sum(map(seconds, libraries)):7.0f} s, all libraries")
    count = int(sys.argv[1]) if len(sys.argv) > 1 else 12
    for name in sorted(libraries, key=seconds, reverse=True)[:count]:
        print(f"{chains(name):9} chains {2 * seconds(name):7.0f} s, {name}")


main()
