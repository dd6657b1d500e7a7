#!/usr/bin/env python3
"""Loads XML files that lie on this machine, and compares what is taken with `xmllint --noout`.

python3 bench/local_files.py [FOLDER ..]      /usr and /etc where none are given

The program must be built (./kwstore builds it), and xmllint is of the package libxml2-utils. A file that
both take or both refuse is right. A file that xmllint alone takes must be outside the profile of
docs/FORMATS.md: it has an internal subset or another encoding than UTF-8. Where there are no files, or no
xmllint, nothing is compared. The status is 1 where a file is judged in another way.
"""
import os, re, shutil, subprocess, sys

TOP = os.path.dirname(os.path.dirname(os.path.abspath(__file__)))
PROGRAM = os.path.join(TOP, "crates", "kwstore", "out", "kwstore")
NAMES = (".xml", ".svg", ".xsl", ".xsd", ".rng", ".xhtml")
MOST_BYTES, MOST_FILES = 16_000_000, 2_000


def files(folders):
    found = []
    for folder in folders:
        for place, _, names in os.walk(folder):
            for name in sorted(names):
                path = os.path.join(place, name)
                if name.endswith(NAMES) and os.path.isfile(path) and os.path.getsize(path) <= MOST_BYTES:
                    found.append(path)
    return found[:MOST_FILES]


def outside_the_profile(data):
    """An internal subset, or bytes that aren't UTF-8 or are declared as something else."""
    if re.search(rb"<!DOCTYPE[^>\[]*\[", data):
        return True
    encoding = re.match(rb"\s*<\?xml[^>]*encoding\s*=\s*[\"']([^\"']*)", data)
    if encoding and encoding.group(1).lower() not in (b"utf-8", b"us-ascii"):
        return True
    if encoding and encoding.group(1).lower() == b"us-ascii":
        return True
    try:
        data.decode("utf-8")
    except UnicodeDecodeError:
        return True
    return False


def reply(data):
    lines = [b"." + line if line.startswith(b".") else line for line in data.split(b"\n")]
    given = b"load\n" + b"\n".join(lines) + b"\n.\n"
    done = subprocess.run([PROGRAM], input=given, stdout=subprocess.PIPE, check=True)
    return done.stdout.split(b"\n")[0].decode()


def main():
    if not shutil.which("xmllint"):
        print("no xmllint: nothing is compared")
        return 0
    taken = refused = outside = wrong = 0
    for path in files(sys.argv[1:] or ["/usr", "/etc"]):
        with open(path, "rb") as file:
            data = file.read()
        ours = reply(data)
        theirs = subprocess.run(["xmllint", "--noout", "--nonet", path], stderr=subprocess.DEVNULL).returncode == 0
        if ours.startswith("ok") and theirs:
            taken += 1
        elif not ours.startswith("ok") and not theirs:
            refused += 1
        elif theirs and outside_the_profile(data):
            outside += 1
        else:
            wrong += 1
            print(f"{path}: {ours}, and xmllint {'takes' if theirs else 'refuses'} it")
    print(f"taken by both {taken}, refused by both {refused}, outside the profile {outside}, otherwise {wrong}")
    return 1 if wrong else 0


sys.exit(main())
