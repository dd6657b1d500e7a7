#!/usr/bin/env python3
"""Times searches with one answer that has many matches below it, and tells how the time grows.

python3 bench/search.py [MATCHES ..]      25000, 50000 and 100000 matches where none are given

The program must be built (./kwstore builds it). Each time is the least of five runs with the search line,
less the least of five runs without it.
"""
import os, subprocess, sys, tempfile, time

TOP = os.path.dirname(os.path.dirname(os.path.abspath(__file__)))
PROGRAM = os.path.join(TOP, "crates", "kwstore", "out", "kwstore")
SEARCHES = ["slca x y", "elca x y", "maxmatch x y", "maxmatch-elca x y"]


def seconds(path):
    """The least of five runs with that file as standard input."""
    spent = []
    for _ in range(5):
        with open(path, "rb") as given, open(os.devnull, "wb") as nowhere:
            start = time.perf_counter()
            subprocess.run([PROGRAM], stdin=given, stdout=nowhere, check=True)
            spent.append(time.perf_counter() - start)
    return min(spent)


def timed(folder, document, lines):
    path = os.path.join(folder, "commands")
    with open(path, "w") as file:
        file.write("load\n" + document + "\n.\n" + "".join(line + "\n" for line in lines))
    return seconds(path)


def main():
    with tempfile.TemporaryDirectory() as folder:
        for matches in [int(word) for word in sys.argv[1:]] or [25_000, 50_000, 100_000]:
            document = "<r><q>y</q>" + "<a>x</a>" * matches + "</r>"
            alone = timed(folder, document, [])
            told = [f"{search} {timed(folder, document, [search]) - alone:.3f} s" for search in SEARCHES]
            print(f"{matches} matches: load {alone:.3f} s; " + "; ".join(told))


main()
