#!/usr/bin/env python3
"""Times puts, gets and goings on to the next entry in mm_keeper's keeper in memory beside Rust's BTreeMap.

python3 bench/keeper.py [ENTRIES]      1000000 where none is given

Keys have 20 bytes and come in no order, values have 8. The program over the keeper is proved and built in a
temporary folder, which takes some minutes, and the one over BTreeMap by rustc. Both run in turns; each time is
the least of three runs, of the processor alone. It tells the ratios, and the peak memory an entry.
"""
import os, shutil, subprocess, sys, tempfile

HERE = os.path.dirname(os.path.abspath(__file__))
TOP = os.path.dirname(HERE)
NAME = "keeper_speed"
BELOW = ["mm_host", "mm_steps", "mm_keeper"]
PARTS = ["puts", "gets", "afters"]

ROOM = """\
-- What a put adds to the weight, and that what is found stands at a place of the map.
use Rattle.std.proofs.Common.{◌≡◌, ℕ, ◌+◌, ◌≤◌, ◌<◌, List, length, Some}
use Rattle.mm_keeper.specs.Entries.{Entries, put, index_of, weight_of}
use Rattle.mm_keeper.specs.Facts.InRange.{put_weighs, index_in_range}

pub weighs : (m : Entries) (k v : List ℕ) → weight_of (put m k v) ≤ weight_of m + length k + length v
weighs m k v = put_weighs m k v

pub in_range : (m : Entries) (k : List ℕ) (i : ℕ) → Some i ≡ index_of m k → i < length m
in_range m k i e = index_in_range m k i e
"""

KEEPS = """\
use Rattle.std.proofs.Common.{◌↔◌}
use Rattle.keeper_speed.proofs.FUNCTION.Given as goal

abbrev pub invariant-keys : goal.invariant-keys
invariant-keys g l = record {
  sound : g.K.Keeper.is_sound l.keeper;
  maps : g.K.Keeper.has_maps l.fn.keeper ↔ g.K.Keeper.has_maps l.keeper;
}
"""

GHOSTS = """\
use Rattle.keeper_speed.proofs.timed_uncounted.Given as goal

abbrev pub ghosts-timed : goal.ghosts-timed
ghosts-timed a = record { name = a.blank.name; parts = a.blank.parts }
"""


def write(text, *path):
    path = os.path.join(*path)
    os.makedirs(os.path.dirname(path), exist_ok=True)
    with open(path, "w") as file:
        file.write(text)


def lay_out(folder):
    """A repository of the keeper's crates and the program; the program's folder."""
    with open(os.path.join(TOP, "crates.txt")) as file:
        lines = [line for line in file if line.split(":")[0] in BELOW]
    write("".join(lines) + f"{NAME}: {' '.join(BELOW)}\n", folder, "crates.txt")
    for crate in BELOW:
        shutil.copytree(os.path.join(TOP, "crates", crate), os.path.join(folder, "crates", crate),
                        ignore=shutil.ignore_patterns("out"))
    program = os.path.join(folder, "crates", NAME)
    with open(os.path.join(HERE, "keeper", "main.rt.txt")) as file:
        write(file.read(), program, "src", "main.rt")
    write("pub mod Room\n", program, "proofs", "Lib.antt")
    write(ROOM, program, "proofs", "Room.antt")
    for function in ["put_all", "get_all", "after_all"]:
        write(KEEPS.replace("FUNCTION", function), program, "proofs", function, "Invariants.antt")
    write(GHOSTS, program, "proofs", "timed_uncounted", "Invariants.antt")
    return program


def programs_in(folder):
    """The program over the keeper, and the one over BTreeMap."""
    program = lay_out(folder)
    built = subprocess.run(["rt", "run", "--", "1000", "3"], cwd=program, capture_output=True, text=True)
    if built.returncode != 0:
        sys.exit(built.stderr)
    beside = os.path.join(folder, "btree")
    subprocess.run(["rustc", "-O", "-o", beside, os.path.join(HERE, "keeper", "btree.rs")], check=True)
    return [os.path.join(program, "out", NAME), beside]


def measured(words):
    """Seconds of the processor and peak memory in bytes of one run, and what it printed."""
    child = subprocess.Popen(words, stdout=subprocess.PIPE)
    told = child.stdout.read()
    _, status, used = os.wait4(child.pid, 0)
    if status != 0:
        sys.exit(f"{words[0]} ended with status {status}")
    return used.ru_utime, used.ru_maxrss * 1024, told


def main():
    entries = int(sys.argv[1]) if len(sys.argv) > 1 else 1_000_000
    with tempfile.TemporaryDirectory() as folder:
        programs = programs_in(folder)
        best = {}
        for _ in range(3):
            for parts in [1, 2, 3]:
                runs = [measured([program, str(entries), str(parts)]) for program in programs]
                if runs[0][2] != runs[1][2]:
                    sys.exit(f"they find {runs[0][2]} and {runs[1][2]}")
                best[parts] = [min(run[:2], old) for run, old in zip(runs, best.get(parts, [run[:2] for run in runs]))]
        before = [0, 0]
        for parts, name in enumerate(PARTS, 1):
            spent = [one[0] - earlier for one, earlier in zip(best[parts], before)]
            print(f"{name}: keeper {spent[0]:.2f} s, BTreeMap {spent[1]:.2f} s, ratio {spent[0] / spent[1]:.2f}")
            before = [one[0] for one in best[parts]]
        keeper, beside = best[3]
        print(f"all: keeper {keeper[0]:.2f} s, BTreeMap {beside[0]:.2f} s, ratio {keeper[0] / beside[0]:.2f}; "
              f"memory an entry {keeper[1] / entries:.0f} bytes, BTreeMap {beside[1] / entries:.0f}")


main()
