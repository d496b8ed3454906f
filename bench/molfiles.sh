#!/usr/bin/env bash
# Registers 10,000 V2000 molfiles of 25 atoms each, a benzene ring and 19 atoms that hang on it, and prints records per
# second. Each has an identifier of its own, so that each is stored.
# Usage: bench/molfiles.sh [RECORDS]
set -euo pipefail
cd "$(dirname "${BASH_SOURCE[0]}")/.."
./build
python3 - "${1:-10000}" <<'PY'
import random
import subprocess
import sys
import time

ATOMS = 25
RING = [(0, 1, 2), (1, 2, 1), (2, 3, 2), (3, 4, 1), (4, 5, 2), (0, 5, 1)]


def molfile(draw):
    """The lines of one molfile: a hexagon, and atoms that are each joined to one of the four before, which has at most three
    neighbours then."""
    symbols = ["C"] * 6 + [draw.choice(["C", "C", "C", "N"]) for _ in range(ATOMS - 6)]
    bonds, neighbours = list(RING), [2] * 6
    for a in range(6, ATOMS):
        near = draw.choice([b for b in range(a - 4, a) if neighbours[b] < 3])
        neighbours[near] += 1
        neighbours.append(1)
        bonds.append((near, a, 1))
    lines = ["generated", "", "", f"{ATOMS:3}{len(bonds):3}  0  0  0  0  0  0  0  0999 V2000"]
    for symbol in symbols:
        x, y = draw.uniform(-9, 9), draw.uniform(-9, 9)
        lines.append(f"{x:10.4f}{y:10.4f}{0:10.4f} {symbol:3}" + " 0" + "  0" * 11)
    lines.extend(f"{a + 1:3}{b + 1:3}{order:3}  0" for a, b, order in bonds)
    lines.append("M  END")
    return lines


count = int(sys.argv[1])
draw = random.Random(1)
lines = []
for identifier in range(1, count + 1):
    lines.append(f"register-mol {identifier}")
    lines.extend(molfile(draw))
script = "".join(line + "\n" for line in lines).encode()
start = time.monotonic()
done = subprocess.run(["crates/chemdb/out/chemdb", "mem"], input=script, capture_output=True)
taken = time.monotonic() - start
answers = "".join(f"ok {version}\n" for version in range(1, count + 1)).encode()
assert done.returncode == 0 and done.stdout == answers, done.stdout[-80:]
print(f"{count} records of {ATOMS} atoms, {len(script) / 1e6:.1f} MB, in {taken:.3f} s: {count / taken:,.0f} records per second")
PY
