#!/usr/bin/env python3
"""Whether the claim stands apart from the scaffolding, and docs/READING.md names what there is.

The claim is what a reader must believe: the files of each crate's specs/ outside Inside, Facts and Examples.
None of them may import a file of Inside or of Facts. docs/READING.md lists files of the claim with names, and
so does the table of terms in docs/MODEL.md; each name must be defined in its file, and what a listed definition
rests on must be listed too. Prints what is wrong, and how many lines the definitions have that
docs/READING.md lists.
Run it at the top of the repository: python3 bench/claim.py
"""

import pathlib
import re
import sys

APART = ("Inside", "Facts", "Examples")
ROW = re.compile(r"^- `(crates/[^`]+)`: (.*)$")
TERM = re.compile(r"^\| [^|]+ \| (`[^`]+`) \| `(crates/[^`]+)` \|$")


def is_apart(path):
    below_specs = path.parts[path.parts.index("specs") + 1 :]
    return any(part.removesuffix(".antt") in APART for part in below_specs)


def breaches():
    for path in sorted(pathlib.Path("crates").glob("*/specs/**/*.antt")):
        if is_apart(path):
            continue
        for number, line in enumerate(path.read_text().splitlines(), 1):
            if re.search(r"\.specs\.(Inside|Facts)\b", line):
                yield f"{path}:{number}: a file of the claim imports {line.strip()}"


def antt_lines(text, name):
    """The lines of a definition: from its signature to the next blank line."""
    pattern = re.compile(
        rf"^(?:abbrev pub|unfoldable pub|pub data|pub record|pub) {re.escape(name)}(?=[\s:({{])"
    )
    lines = text.splitlines()
    for start, line in enumerate(lines):
        if pattern.match(line):
            end = start
            while end < len(lines) and lines[end].strip():
                end += 1
            return [line for line in lines[start:end] if not line.strip().startswith("--")]
    return None


def rust_lines(text, name):
    """The lines of an item, of a function its contract alone."""
    match = re.search(rf"^(?:pub )?(?:fn|struct|enum|trait) {re.escape(name)}\b", text, re.M)
    if match is None:
        return None
    rest = text[match.start() :].split("\n}\n", 1)[0].splitlines()
    if re.match(r"(?:pub )?fn ", rest[0]):
        for end, line in enumerate(rest):
            if line.startswith("{"):
                return rest[:end]
    return rest


def named_in(document, pattern, order):
    """The files and names that rows of a document list."""
    for row in pathlib.Path(document).read_text().splitlines():
        match = pattern.match(row)
        if match is not None:
            path, names = match.group(order[0]), match.group(order[1])
            yield pathlib.Path(path), re.findall(r"`([^`]+)`", names)


def listed(document, pattern, order):
    files, total, wrong = set(), 0, []
    for path, names in named_in(document, pattern, order):
        if not path.exists():
            wrong.append(f"{document}: no file {path}")
            continue
        if path.suffix == ".antt" and is_apart(path):
            wrong.append(f"{document}: {path} is no part of the claim")
        text = path.read_text()
        find = antt_lines if path.suffix == ".antt" else rust_lines
        for name in names:
            lines = find(text, name)
            if lines is None:
                wrong.append(f"{document}: {path} defines no {name}")
            else:
                total += len([line for line in lines if line.strip()])
        files.add(path)
    return files, total, wrong


IMPORT = re.compile(r"^use Rattle\.(\w+)\.specs\.([\w.]+?)\.\{([^}]*)\}", re.M)
ALIAS = re.compile(r"^use Rattle\.(\w+)\.specs\.([\w.]+?) as (\w+)$", re.M)


def rests_on(path, lines):
    """The definitions of the claim, as (path, name), that these lines of a file name."""
    text = path.read_text()
    known, aliases = {}, {}
    for crate, module, names in IMPORT.findall(text):
        target = pathlib.Path("crates", crate, "specs", module.replace(".", "/") + ".antt")
        for name in names.split(","):
            known[name.strip()] = target
    for crate, module, alias in ALIAS.findall(text):
        aliases[alias] = pathlib.Path("crates", crate, "specs", module.replace(".", "/") + ".antt")
    body = "\n".join(line for line in lines if not line.strip().startswith("--"))
    for alias, name in re.findall(r"\b(\w+)\.([A-Za-z_][\w'-]*)", body):
        if alias in aliases and aliases[alias].exists():
            yield aliases[alias], name
    for name in sorted(set(re.findall(r"(?<![\w.'-])[A-Za-z_][\w'-]*", body)) - {"record", "data"}):
        target = known.get(name, path)
        if target.exists() and antt_lines(target.read_text(), name) is not None:
            yield target, name


def unlisted():
    """What a definition that docs/READING.md lists rests on, at whatever depth, and that it doesn't list."""
    rows = named_in("docs/READING.md", ROW, (1, 2))
    open_ones = [(path, name) for path, names in rows if path.exists() for name in names]
    found = set(open_ones)
    while open_ones:
        path, name = open_ones.pop()
        if path.suffix != ".antt":
            continue
        for needed in rests_on(path, antt_lines(path.read_text(), name) or []):
            if needed not in found:
                found.add(needed)
                open_ones.append(needed)
                yield f"docs/READING.md: {name} of {path} rests on {needed[1]} of {needed[0]}, which isn't listed"


def main():
    files, total, missing = listed("docs/READING.md", ROW, (1, 2))
    wrong = list(breaches()) + missing + list(unlisted()) + listed("docs/MODEL.md", TERM, (2, 1))[2]
    for line in wrong:
        print(line)
    print(f"{total} lines of definitions and contracts in {len(files)} files are listed in docs/READING.md")
    return 1 if wrong else 0


if __name__ == "__main__":
    sys.exit(main())
