#!/usr/bin/env python3
"""Times `load` beside `xmllint --noout` on the same document, and tells the ratios of time and memory.

python3 bench/load.py [RECORDS ..]      20000 and 160000 records where none are given

The program must be built (./kwstore builds it), and xmllint is of the package libxml2-utils.
Each time is the least of five runs.
"""
import os, subprocess, sys, tempfile, time

TOP = os.path.dirname(os.path.dirname(os.path.abspath(__file__)))
PROGRAM = os.path.join(TOP, "crates", "kwstore", "out", "kwstore")
SYLLABLES = [c + v for c in "bdfgklmnprst" for v in "aeiou"]


def word(number):
    """A made-up word of four letters, another one for each of the first 3,600 numbers."""
    return SYLLABLES[number % 60] + SYLLABLES[number // 60 % 60]


def document(records):
    lines = ["<library>"]
    for i in range(records):
        title = " ".join(word(i * 31 + j * j * 7) for j in range(2 + i % 8))
        author = word(i * 17).capitalize() + " " + word(i * 13 + 5).capitalize()
        lines.append(f"<book><title>{title}</title><author>{author}</author><year>{1900 + i % 120}</year></book>")
    lines.append("</library>")
    return "\n".join(lines)


def measured(words, path):
    """Seconds and peak memory in bytes of one run with that file as standard input."""
    with open(path, "rb") as given, open(os.devnull, "wb") as nowhere:
        start = time.perf_counter()
        child = subprocess.Popen(words, stdin=given, stdout=nowhere)
        _, status, used = os.wait4(child.pid, 0)
        spent = time.perf_counter() - start
    if status != 0:
        sys.exit(f"{words[0]} ended with status {status}")
    return spent, used.ru_maxrss * 1024


def best(words, path):
    runs = [measured(words, path) for _ in range(5)]
    return min(run[0] for run in runs), max(run[1] for run in runs)


def main():
    sizes = [int(word) for word in sys.argv[1:]] or [20000, 160000]
    times = []
    with tempfile.TemporaryDirectory() as folder:
        for records in sizes:
            text = document(records)
            plain, script = os.path.join(folder, "plain.xml"), os.path.join(folder, "plain.load")
            with open(plain, "w") as file:
                file.write(text + "\n")
            with open(script, "w") as file:
                file.write("load\n" + text + "\n.\n")
            lint = best(["xmllint", "--noout", plain], os.devnull)
            ours = best([PROGRAM], script)
            times.append(ours[0])
            print(f"{records} records, {len(text)} bytes: kwstore {ours[0]:.3f} s, xmllint {lint[0]:.3f} s, "
                  f"ratio {ours[0] / lint[0]:.2f}; memory {ours[1] / len(text):.1f} times the document")
    for records, spent in zip(sizes[1:], times[1:]):
        print(f"{records} records take {spent / times[0]:.1f} times as long as {sizes[0]}")


main()
