#!/usr/bin/env bash
# Reads structures of about 10, 40 and 900 atoms, chains and such with rings, and prints the time for each structure and each atom.
# All lines name one identifier: the structure of each is worked out, and all but the first are `refused known`, so that no store grows.
# Usage: bench/structures.sh [ATOMS_IN_ALL]
set -euo pipefail
cd "$(dirname "${BASH_SOURCE[0]}")/.."
all=${1:-400000}
./build
python3 - "$all" <<'PY'
import subprocess
import sys
import time

RINGS = "c1ccccc1C(=O)NCCN"  # 12 atoms, a benzene ring among them


def chain(atoms):
    return "CCOCCNCCSC" * (atoms // 10) + "CCOCCNCCSC"[: atoms % 10]


def with_rings(atoms):
    return RINGS * (atoms // 12) + "C" * (atoms % 12)


def seconds(script):
    start = time.monotonic()
    done = subprocess.run(["crates/chemdb/out/chemdb", "mem"], input=script, capture_output=True)
    taken = time.monotonic() - start
    answers = b"ok 1\n" + b"refused known\n" * (script.count(b"\n") - 1)
    assert done.returncode == 0 and done.stdout == answers, done.stdout[-80:]
    return taken


for name, text_of, sizes in (("chain", chain, (10, 40, 900)), ("with rings", with_rings, (12, 36, 900))):
    for atoms in sizes:
        count = max(1, int(sys.argv[1]) // atoms)
        text = text_of(atoms)
        script = (f"register 1 {text}\n" * count).encode()
        taken = seconds(script)
        print(f"{name:10} {atoms:4} atoms: {taken / count * 1e6:9.2f} us a structure, {taken / count / atoms * 1e6:6.3f} us an atom")
PY
