#!/usr/bin/env python3
"""Times loads, searches and edits of one run, each from its line to its reply, and tells the ratios.

python3 bench/store.py [PROGRAM ..]      the built program where none is given (./kwstore builds it)

In one run: three loads of 20,000 records each, searches with a rare word, and replacements of one record; in
another the same replacements in a store of 20 records. Each time of a search or an edit is the least of 20.
"""
import os, subprocess, sys, time

TOP = os.path.dirname(os.path.dirname(os.path.abspath(__file__)))
PROGRAM = os.path.join(TOP, "crates", "kwstore", "out", "kwstore")
SYLLABLES = [c + v for c in "bdfgklmnprst" for v in "aeiou"]
RECORDS = 20_000


def word(number):
    return SYLLABLES[number % 60] + SYLLABLES[number // 60 % 60]


def record(i):
    title = " ".join(word(i * 31 + j * j * 7) for j in range(2 + i % 8))
    return f"<book><title>{title}</title><author>{word(i * 17)} n{i}</author><year>{1900 + i % 120}</year></book>"


def document(records):
    return "<library>" + "\n".join(record(i) for i in range(records)) + "</library>"


class Run:
    """A run of the program that is asked one command after the other."""

    def __init__(self, program):
        self.child = subprocess.Popen([program], stdin=subprocess.PIPE, stdout=subprocess.PIPE)

    def ask(self, command):
        """Seconds from the command to its whole reply, and the reply's first line."""
        start = time.perf_counter()
        self.child.stdin.write(command.encode() + b"\n")
        self.child.stdin.flush()
        first = self.child.stdout.readline().decode().rstrip("\n")
        for _ in range(int(first.split()[1]) if first.startswith("hits ") else 0):
            self.child.stdout.readline()
        return time.perf_counter() - start, first

    def least(self, commands, due):
        spent = []
        for command in commands:
            seconds, first = self.ask(command)
            if not first.startswith(due):
                sys.exit(f"{command[:60]!r} is answered {first!r}")
            spent.append(seconds)
        return min(spent)

    def end(self):
        self.child.stdin.close()
        self.child.wait()


def load(records):
    return f"load\n{document(records)}\n."


def replacements(records, count=20):
    return [f"replace 1.{2 * (i * 7 % records) + 1}\n{record(i)}\n." for i in range(count)]


def main():
    for program in sys.argv[1:] or [PROGRAM]:
        large, small = Run(program), Run(program)
        loads = [large.least([load(RECORDS)], "ok ") for _ in range(3)]
        search = large.least([f"slca n{RECORDS - 1 - i} {word((RECORDS - 1 - i) * 17)}" for i in range(20)], "hits 3")
        edit = large.least(replacements(RECORDS), "ok ")
        small.least([load(20)], "ok ")
        few = small.least(replacements(20), "ok ")
        large.end()
        small.end()
        print(f"{program}: three loads {', '.join(f'{spent:.2f}' for spent in loads)} s; a search {search * 1e6:.0f} microseconds; "
              f"an edit of one record {edit * 1e3:.2f} ms, in a store of 20 records {few * 1e3:.2f} ms")


if __name__ == "__main__":
    main()
