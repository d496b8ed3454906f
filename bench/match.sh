#!/usr/bin/env bash
# Registers some drug-like structures and hydrocarbons in memory and searches them many times for one pattern each; prints
# nanoseconds for each pair of a pattern and a structure, more than the same script takes without the searches, and how
# many structures are hits. Then come hopeless patterns, of more places than atoms in many parts that no bond joins, then
# patterns with groups, in structures of many components that are alike, and at last dense patterns, which have many paths:
# their time is that of a search, and no structure is tried.
# Usage: bench/match.sh [SEARCHES]
set -euo pipefail
cd "$(dirname "${BASH_SOURCE[0]}")/.."
./build
python3 - "${1:-200}" <<'PY'
import subprocess
import sys
import time

DRUGS = [
    "CC(C)Cc1ccc(cc1)C(C)C(=O)NCCN1CCOCC1",
    "Cc1ccc(NC(=O)c2ccc(CN3CCN(C)CC3)cc2)cc1Nc1nccc(-c2cccnc2)n1",  # imatinib
    "CCCc1nn(C)c2c1nc([nH]c2=O)-c1cc(ccc1OCC)S(=O)(=O)N1CCN(C)CC1",  # sildenafil
    "CC(C)c1c(C(=O)Nc2ccccc2)c(-c2ccccc2)c(-c2ccc(F)cc2)n1CCC(O)CC(O)CC(=O)O",  # atorvastatin
    "CN(C)CCCN1c2ccccc2Sc2ccc(Cl)cc21",  # chlorpromazine
    "COc1ccc2nc(S(=O)Cc3ncc(C)c(OC)c3C)[nH]c2c1",  # omeprazole
    "CC1(C)SC2C(NC(=O)C(N)c3ccccc3)C(=O)N2C1C(=O)O",  # ampicillin
    "OC(=O)COCCN1CCN(CC1)C(c1ccccc1)c1ccc(Cl)cc1",  # cetirizine
    "Fc1ccc(cc1)C(=O)C1CCN(CCN2C(=O)Nc3ccccc3C2=O)CC1",  # ketanserin
    "CN1CCC(=C2c3ccccc3CCc3cccnc32)CC1",  # azatadine
    "COc1cc(Cc2cnc(N)nc2N)cc(OC)c1OC",  # trimethoprim
    "O=C(O)c1cn(C2CC2)c2cc(N3CCNCC3)c(F)cc2c1=O",  # ciprofloxacin
]
GROUPS = [
    "C(=O)[OX2H]",
    "[CX3](=O)[NX3]",
    "[NX3;H2]",
    "[OX2H]",
    "C#N",
    "C=C",
    "S(=O)(=O)N",
    "[F]",
    "[Cl,Br,I]",
    "C(F)(F)F",
    "[#7;+]",
    "c1ccccc1",
    "c1ccncc1",
    "c1ccccc1-c1ccccc1",
    "n1cc[nH]c1",
    "N1CCNCC1",
    "N1CCOCC1",
    "C1CC1",
    "[$(c[OX2H])]",
    "CCCCCCCCCCCCCCCCCCCC",
]


def parts(part, count):
    return ".".join([part] * count)


HOPELESS = [
    (parts("C", 30), ["C" * 29]),
    (parts("CC", 30), ["C" * 59]),
    (parts("[#6]", 60) + ".[#9]", ["C" * 60]),
    (parts("CC", 29) + ".CF", ["C" * 60]),
]

GROUPED = [
    (parts("([C])", 20), [parts("C", 30)]),
    (parts("([C])", 21), [parts("CC", 20)]),
    (parts("(CC)", 20), [parts("CCC", 30)]),
    (parts("(C.C)", 12) + ".(O)", [parts("CCO", 12)]),
]


def dense(atoms, near):
    """Each atom is joined to those that stand so near in the text, by ring numbers but for the next one."""
    free, held, text = list(range(100)), {}, []
    for place in range(atoms):
        closed = [held.pop((other, place)) for other in range(max(0, place - near), place - 1)]
        free = sorted(free + closed)
        opened = []
        for other in range(place + 2, min(atoms, place + near + 1)):
            held[place, other] = free.pop(0)
            opened.append(held[place, other])
        text.append("C" + "".join(str(n) if n < 10 else f"%{n}" for n in closed + opened))
    return "".join(text)


DENSE = [dense(20, 19), dense(256, 5), dense(141, 8), dense(76, 13)]


def seconds(structures, pattern, searches):
    script = "".join(f"register {i + 1} {text}\n" for i, text in enumerate(structures)) + f"search {pattern}\n" * searches
    start = time.monotonic()
    done = subprocess.run(["crates/chemdb/out/chemdb", "mem"], input=script.encode(), capture_output=True)
    taken = time.monotonic() - start
    assert done.returncode in (0, 1), done.stderr
    return taken, done.stdout.decode().splitlines()[-1]


def measure(structures, pattern, searches):
    many, answer = min(seconds(structures, pattern, searches) for _ in range(3))
    one, _ = min(seconds(structures, pattern, 1) for _ in range(3))
    name = pattern if len(pattern) <= 24 else pattern[:21] + "..."
    each = (many - one) / (searches - 1) / len(structures)
    print(f"{name:24} {each * 1e9:12,.0f} ns a pair   {answer[:40]}")


searches = int(sys.argv[1])
copies = [DRUGS[i % len(DRUGS)] for i in range(1200)]
for pattern in GROUPS:
    measure(copies, pattern, searches)
for pattern, structures in HOPELESS + GROUPED:
    measure(structures * 10, pattern, max(2, searches // 10))
for pattern in DENSE:
    measure(["C"], pattern, max(2, searches // 50))
PY
