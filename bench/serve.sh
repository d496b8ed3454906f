#!/usr/bin/env bash
# Serves scripts at the same time over one store, in a file of FOLDER (/dev/shm, a disk in memory, if left out), and prints:
# searches a second of four ends, without and with a fifth end that commits durably all the while, how many structures they
# try a second, since a store that grows has more for each search to try, and how long each end waits for its first reply
# after the store was loaded; searches with one and with four workers; registrations a second of one end and of four, and how
# many processors these use. Each is the quickest of three runs, but for the loading. The program is called as users call it,
# by ./chemdb.
# Usage: bench/serve.sh [STRUCTURES [FOLDER]]
set -euo pipefail
cd "$(dirname "${BASH_SOURCE[0]}")/.."
./build
python3 - "${1:-100000}" "${2:-/dev/shm}" <<'PY'
import os
import random
import resource
import shutil
import subprocess
import sys
import tempfile
import time
from typing import NamedTuple

PROGRAM = os.path.abspath("chemdb")
PATTERNS = """
c1ccc2ccccc2c1  [$([CX4]);!$(C[!#6])]~[#6]~[$([#6]=[#6]),c]  [$([NX3;H2]),$([NX3;H1]);!$(NC=O);!$(NS(=O)=O)]  CCCCCCCCCCCC
c1ccc(cc1)-c1ccccc1  c1ccccc1  *~*~*~*~*~*~*~*  C=O  C1CCC2C(C1)CCC1C2CCC2CCCC12  [$(C(=O)N)]  [r7]  c1ccncc1
[!#6;!#1]1~*~*~*~1  [#6]  [#6]-[#6](=O)-[#8]-[#6]  [U]  [N;H1]  N1CCNCC1  [Cl,Br,I][CX4;CH,CH2]  [CX3](=O)[OX2H1]
Clc1ccccc1Cl  F  [N+](=O)[O-]  S(=O)(=O)N  B(O)O  [Se]  [Na+]  OCC1OC(O)C(O)C(O)C1O  O=C1NC(=O)c2ccccc12  O=C1CC2SCCN12
c1ccc2[nH]ccc2c1  C#N  c:1:c:c(:c(:c:c:1)-[#6]=[#7]-[#7])-[#8]  c1nc(N)nc(N)n1
""".split()
assert len(PATTERNS) == 34
CORES = [
    "CC(C)Cc1ccc(cc1)C(C)C(=O)N{}",
    "Cc1ccc(NC(=O)c2ccc(CN3CCN({})CC3)cc2)cc1Nc1nccc(-c2cccnc2)n1",
    "CCCc1nn(C)c2c1nc([nH]c2=O)-c1cc(ccc1OCC)S(=O)(=O)N1CCN({})CC1",
    "CN({})CCCN1c2ccccc2Sc2ccc(Cl)cc21",
    "COc1ccc2nc(S(=O)Cc3ncc(C)c(O{})c3C)[nH]c2c1",
    "OC(=O)COCCN1CCN(CC1)C({})c1ccc(Cl)cc1",
    "Fc1ccc(cc1)C(=O)C1CCN({})CC1",
    "COc1cc(C{})cc(OC)c1OC",
]
PARTS = ["C", "CC", "CCO", "c9ccccc9", "CC(=O)O", "CCN(C)C", "C9CC9", "CC(F)(F)F", "Cc9ccncc9", "CCC#N", "CS(C)(=O)=O", "CCBr"]
COUNT, FOLDER = int(sys.argv[1]), sys.argv[2]
# more than one end registers while four search
WRITES = 100000


def texts(count, seed):
    draw = random.Random(seed)
    return [draw.choice(CORES).format(draw.choice(PARTS)) for _ in range(count)]


class Served(NamedTuple):
    """Of each end the seconds from the first reply of any end to its own first and last one, and how many structures it
    tried; how many replies the last end had when the others had all of theirs; and how many processors were used."""

    firsts: list
    lasts: list
    tried: list
    then: int
    used: float


def tried_by(name):
    """How many structures the searches of an end tried, by its replies: "end at VERSION tried COUNT hits COUNT"."""
    with open(name + ".out", encoding="utf-8") as replies:
        return sum(int(line.split()[4]) for line in replies if line.startswith("end at "))


def serve(folder, scripts, *words):
    """Serves the scripts."""
    names = []
    for number, lines in enumerate(scripts):
        name = f"{folder}/script{number}"
        with open(name, "w", encoding="utf-8") as script:
            script.write("".join(line + "\n" for line in lines))
        names.append(name)
        if os.path.exists(name + ".out"):
            os.remove(name + ".out")
    before, start = resource.getrusage(resource.RUSAGE_CHILDREN), time.monotonic()
    process = subprocess.Popen([PROGRAM, "serve", f"{folder}/store", *names, *words])
    firsts, lasts, sizes, size_then = {}, {}, dict.fromkeys(names, 0), 0
    ended = False
    while not ended:
        ended = process.poll() is not None
        for name in names:
            size = os.path.getsize(name + ".out") if os.path.exists(name + ".out") else 0
            if size > sizes[name]:
                sizes[name], lasts[name] = size, time.monotonic()
                firsts.setdefault(name, lasts[name])
                size_then = size_then if name == names[-1] else sizes[names[-1]]
        time.sleep(0.001)
    after, seconds = resource.getrusage(resource.RUSAGE_CHILDREN), time.monotonic() - start
    assert process.returncode == 0, process.returncode
    with open(names[-1] + ".out", "rb") as replies:
        then = replies.read(size_then).count(b"\n")
    begin = min(firsts.values())
    used = (after.ru_utime + after.ru_stime - before.ru_utime - before.ru_stime) / seconds
    return Served([firsts[name] - begin for name in names], [lasts[name] - begin for name in names],
                  [tried_by(name) for name in names], then, used)


def best(ends, run):
    """Of three runs the one in which so many ends had their replies soonest: how long that took, and the run."""
    return min((max(done.lasts[:ends]), done) for done in (run() for _ in range(3)))


def searches(rounds):
    return ["stats"] + [f"search {pattern}" for pattern in PATTERNS] * rounds


with tempfile.TemporaryDirectory(dir=FOLDER) as folder:
    store = f"{folder}/store"
    subprocess.run([PROGRAM, "init", store], check=True)
    fill = "".join(f"register {i + 1} {text}\n" for i, text in enumerate(texts(COUNT, 1)))
    start = time.monotonic()
    loaded = subprocess.run([PROGRAM, "run", store], input=fill.encode(), stdout=subprocess.PIPE, check=True)
    assert loaded.stdout.endswith(f"ok {COUNT}\n".encode()), "a text was refused"
    print(f"one end, loading {COUNT} structures: {COUNT / (time.monotonic() - start):,.0f} registrations a second")

    one, _ = best(1, lambda: serve(folder, [searches(1)]))
    four, _ = best(1, lambda: serve(folder, [searches(1)], "--workers", "4"))
    print(f"34 searches, one end: {one:.2f} s with one worker, {four:.2f} s with four")

    alone, done = best(4, lambda: serve(folder, [searches(2)] * 4))
    print(f"four ends: {4 * 2 * 34 / alone:,.0f} searches a second, which try {sum(done.tried) / alone:,.0f} structures; "
          f"first replies within {max(done.firsts) * 1000:.0f} ms")
    shutil.copy(store, f"{folder}/full")
    writes = [f"register {COUNT + i + 1} {text}" for i, text in enumerate(texts(WRITES, 2))]

    def serve_beside():
        shutil.copy(f"{folder}/full", store)
        return serve(folder, [searches(2)] * 4 + [writes])

    beside, done = best(4, serve_beside)
    assert done.then < WRITES, "the end that registers ended too soon"
    print(f"beside an end that registers: {4 * 2 * 34 / beside:,.0f} searches a second, which try "
          f"{sum(done.tried) / beside:,.0f} structures, and {done.then / beside:,.0f} registrations; "
          f"first replies within {max(done.firsts) * 1000:.0f} ms")
    lines = [f"register {i + 1} {text}" for i, text in enumerate(texts(40000, 3))]

    def serve_new(parts):
        os.remove(store)
        subprocess.run([PROGRAM, "init", store], check=True)
        return serve(folder, [lines[part::parts] for part in range(parts)])

    one, _ = best(1, lambda: serve_new(1))
    four, done = best(4, lambda: serve_new(4))
    print(f"40,000 registrations: {40000 / one:,.0f} a second by one end, {40000 / four:,.0f} by four; "
          f"these used {done.used:.1f} processors")
PY
