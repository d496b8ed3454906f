#!/usr/bin/env bash
# Reads drug-like structures, fullerene C60, a ring of 999 atoms, and graphs of boron atoms of three ring bonds each, none of
# whose cycles is Hückel, so that no search ends early: a sheet closed to a tube and that to a ring, copies of a generalized
# Petersen graph, and copies of the worst graph that an annealing search over cubic graphs and orders of their atoms found.
# Worse ones may exist. Prints the time for each register line, more than perception alone takes, and how many
# times that of the ring it is. All lines name one identifier: the structure of each is worked out, and all but the first are
# `refused known`.
# Usage: bench/aromatic.sh [LINES]
set -euo pipefail
cd "$(dirname "${BASH_SOURCE[0]}")/.."
./build
python3 - "${1:-20000}" <<'PY'
import subprocess
import sys
import time

DRUGS = [
    "CN1C=NC2=C1C(=O)N(C)C(=O)N2C",  # caffeine
    "CC(=O)Oc1ccccc1C(=O)O",  # aspirin
    "CC(C)Cc1ccc(cc1)C(C)C(=O)O",  # ibuprofen
    "Cc1ccc(NC(=O)c2ccc(CN3CCN(C)CC3)cc2)cc1Nc1nccc(-c2cccnc2)n1",  # imatinib
    "CCCc1nn(C)c2c1nc([nH]c2=O)-c1cc(ccc1OCC)S(=O)(=O)N1CCN(C)CC1",  # sildenafil
    "CC(C)c1c(C(=O)Nc2ccccc2)c(-c2ccccc2)c(-c2ccc(F)cc2)n1CCC(O)CC(O)CC(=O)O",  # atorvastatin
]
C60 = (
    "C12=C3C4=C5C6=C1C7=C8C9=C1C%10=C%11C(=C29)C3=C2C3=C4C4=C5C5=C9C6=C7C6=C7C8=C1C1=C8C%10=C%10C%11=C2C2=C3C3=C4C4=C5"
    "C5=C%11C%12=C(C6=C95)C7=C1C1=C%12C5=C%11C4=C3C3=C5C(=C81)C%10=C23"
)


# 46 atoms; each of its 69 searches takes some 2,400 steps.
WORST = (
    "B123.B456.B789.B%10%11%12.B%13%14%15.B%16%17%18.B%19%20%21.B%22%23%24.B%25%26%27.B%10%221.B1%10%22.B%28%29%30."
    "B%31%32%33.B%34%35%36.B%37%38%39.B%40%41%42.B%23%40%19.B%19%23%40.B7%201.B17%20.B%43%44%45.B%24%34%31."
    "B%21%11%11.B%16%11%37.B%28%12%43.B4%381.B14%11.B%39%25%12.B%12%41%12.B%12%195.B1%13%42.B615.B12%14.B%325%10."
    "B%2948.B%3512.B%17%264.B%44%155.B171.B%20%236.B%30%367.B%11%334.B2%275.B391.B7%40%18.B%456%22"
)


def spelled(count, bonds):
    """The SMILES of a graph, its atoms in order and no bond written but by ring numbers."""
    free, held, atoms = list(range(1, 100)), {}, []
    for a in range(count):
        ends = sorted(bond for bond in bonds if a in bond)
        numbers = [held.pop(bond) for bond in ends if bond[1] == a]
        free = sorted(free + numbers)
        for bond in ends:
            if bond[0] == a:
                held[bond] = free.pop(0)
                numbers.append(held[bond])
        atoms.append("B" + "".join(str(n) if n < 10 else f"%{n}" for n in numbers))
    return ".".join(atoms)


def sheet(around=18, rows=37):
    """Hexagons, as rows of atoms closed to rings, each row joined to the next, and the last to the first."""
    place, start = {}, 1
    for row in range(rows):
        for step in range(around):
            place[row, (start + step) % around] = row * around + step
        start -= 1
    bonds = set()
    for (row, column), a in place.items():
        near = [place[row, (column + 1) % around]]
        if (row + column) % 2 == 0:
            near.append(place[row + 1, column] if row + 1 < rows else place[0, (column + 1) % around])
        bonds.update((min(a, b), max(a, b)) for b in near)
    return spelled(around * rows, bonds)


def petersen(half=24, step=9):
    """The generalized Petersen graph: a ring, a star of the given step, and a bond from each atom of the one to the other."""
    bonds = set()
    for i in range(half):
        for a, b in ((i, (i + 1) % half), (i, half + i), (half + i, half + (i + step) % half)):
            bonds.add((min(a, b), max(a, b)))
    return spelled(2 * half, bonds)


def seconds(texts):
    script = "".join(f"register 1 {text}\n" for text in texts).encode()
    start = time.monotonic()
    done = subprocess.run(["crates/chemdb/out/chemdb", "mem"], input=script, capture_output=True)
    taken = time.monotonic() - start
    answers = b"ok 1\n" + b"refused known\n" * (len(texts) - 1)
    assert done.returncode == 0 and done.stdout == answers, done.stdout[-80:]
    return taken


lines = int(sys.argv[1])
few = max(2, lines // 1000)
measured = {}
for name, texts, count in (
    ("drug-like", DRUGS, lines),
    ("C60", [C60], max(1, lines // 100)),
    ("ring of 999", ["C1" + "C" * 997 + "C1"], few),
    ("sheet of 666", [sheet()], few),
    ("GP(24,9) x 13", [".".join([petersen()] * 13)], few),
    ("worst x 14", [".".join([WORST] * 14)], few),
):
    measured[name] = seconds([texts[i % len(texts)] for i in range(count)]) / count
for name, taken in measured.items():
    print(f"{name:14} {taken * 1e6:12.2f} us a line {taken / measured['ring of 999']:9.3f} rings")
PY
