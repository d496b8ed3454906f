#!/usr/bin/env bash
# Serves a catalogue of drug-like structures in 1, 2 and 4 parts, each a store of its own behind a worker of
# dask.distributed, and beside it as one store with as many threads (--workers). Prints for each the seconds to load it,
# to search 34 patterns, and to find 20 structures by `same`: of searches and lookups the least of three rounds. The
# stores are in FOLDER (/dev/shm, a disk in memory, if left out). PROGRAM names another program than that of ./build.
# Usage: bench/parts.sh [STRUCTURES [FOLDER]]
set -euo pipefail
cd "$(dirname "${BASH_SOURCE[0]}")/.."
[ -n "${PROGRAM-}" ] || ./build
export CHEMDB=${PROGRAM:-$PWD/crates/chemdb/out/chemdb} PYTHONPATH=$PWD/clients/python PYTHONDONTWRITEBYTECODE=1
for python in python3 /usr/bin/python3; do
  ! "$python" -c 'import distributed' 2>/dev/null || break
done
script=$(mktemp --suffix .py)
trap 'rm -f "$script"' EXIT
cat >"$script" <<'PY'
import os
import random
import sys
import tempfile
import time

from distributed import Client, LocalCluster

import chemdb
import chemdb_dask

PATTERNS = """
c1ccc2ccccc2c1  [$([CX4]);!$(C[!#6])]~[#6]~[$([#6]=[#6]),c]  [$([NX3;H2]),$([NX3;H1]);!$(NC=O);!$(NS(=O)=O)]
CCCCCCCCCCCC
c1ccc(cc1)-c1ccccc1  c1ccccc1  *~*~*~*~*~*~*~*  C=O  C1CCC2C(C1)CCC1C2CCC2CCCC12  [$(C(=O)N)]  [r7]  c1ccncc1
[!#6;!#1]1~*~*~*~1  [#6]  [#6]-[#6](=O)-[#8]-[#6]  [U]  [N;H1]  N1CCNCC1  [Cl,Br,I][CX4;CH,CH2]  [CX3](=O)[OX2H1]
Clc1ccccc1Cl  F  [N+](=O)[O-]  S(=O)(=O)N  B(O)O  [Se]  [Na+]  OCC1OC(O)C(O)C(O)C1O  O=C1NC(=O)c2ccccc12  O=C1CC2SCCN12
c1ccc2[nH]ccc2c1  C#N  c:1:c:c(:c(:c:c:1)-[#6]=[#7]-[#7])-[#8]  c1nc(N)nc(N)n1
""".split()
CORES = [
    "CC(C)Cc1ccc(cc1)C(C)C(=O)N{}",
    "Cc1ccc(NC(=O)c2ccc(CN3CCN({})CC3)cc2)cc1Nc1nccc(-c2cccnc2)n1",
    "CCCc1nn(C)c2c1nc([nH]c2=O)-c1cc(ccc1OCC)S(=O)(=O)N1CCN({})CC1",
    "CN({})CCCN1c2ccccc2Sc2ccc(Cl)cc21",
    "COc1ccc2nc(S(=O)Cc3ncc(C)c(O{})c3C)[nH]c2c1",
    "OC(=O)COCCN1CCN(CC1)C({})c1ccc(Cl)cc1",
    "Fc1ccc(cc1)C(=O)C1CCN({})CC1",
    "COc1cc(C{})cc(OC)c1OC",
]
PARTS = "C CC CCO c9ccccc9 CC(=O)O CCN(C)C C9CC9 CC(F)(F)F Cc9ccncc9 CCC#N CS(C)(=O)=O CCBr".split()


def rows(count):
    draw = random.Random(1)
    return ((number, draw.choice(CORES).format(draw.choice(PARTS))) for number in range(1, count + 1))


def least(call):
    """The seconds of the quickest of three rounds, and what it gives."""
    best = None
    for _ in range(3):
        start = time.monotonic()
        given = call()
        seconds = time.monotonic() - start
        best = (seconds, given) if best is None or seconds < best[0] else best
    return best


def measure(name, catalogue, load, hits_of, same_of):
    start = time.monotonic()
    loaded = load(catalogue)
    loading = time.monotonic() - start
    assert not loaded.refused and not loaded.faults, loaded
    searching, hits = least(lambda: sum(len(hits_of(pattern)) for pattern in PATTERNS))
    asked = [text for _, text in rows(20)]
    looking, same = least(lambda: sum(len(same_of(text)) for text in asked))
    print(f"{name}: loaded in {loading:.1f} s, 34 searches in {searching:.2f} s, 20 lookups in {looking:.3f} s")
    return hits, same


def main(count, folder):
    answers = set()
    for number in (1, 2, 4):
        with tempfile.TemporaryDirectory(dir=folder) as room:
            chemdb.init(os.path.join(room, "one"))
            with chemdb.run(os.path.join(room, "one"), workers=number) as db:
                answers.add(measure(
                    f"one store, {number} workers", rows(count), lambda some: db.load(some, progress=None),
                    lambda pattern: db.search(pattern).as_array(), lambda text: db.same(text).as_array()
                ))
        with tempfile.TemporaryDirectory(dir=folder) as room, LocalCluster(
            n_workers=number, threads_per_worker=1, dashboard_address=None
        ) as cluster, Client(cluster) as client:
            files = chemdb_dask.part_files(os.path.join(room, "part"), number)
            chemdb_dask.make(client, files)
            with chemdb_dask.Parts(client, files) as parts:
                answers.add(measure(
                    f"{number} parts", rows(count), lambda some: parts.load(some, progress=None),
                    lambda pattern: parts.search(pattern).hits, lambda text: parts.same(text).hits
                ))
    assert len(answers) == 1, "the answers differ"
    hits, same = answers.pop()
    print(f"{count} structures, {hits} hits of searches and {same} of lookups in each round")


if __name__ == "__main__":
    main(int(sys.argv[1]), sys.argv[2])
PY
"$python" "$script" "${1:-100000}" "${2:-/dev/shm}"
