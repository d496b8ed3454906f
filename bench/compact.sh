#!/usr/bin/env bash
# Registers drug-like structures in a store in a file of FOLDER (/dev/shm, a disk in memory, if left out), revises half of
# them, and compacts it. Prints the milliseconds of a step, asked for by itself, and of all steps, asked for at once, beside
# writing and syncing as many bytes; of opening the store before it and after; and of a commit, alone and beside a running
# copy.
# Usage: bench/compact.sh [STRUCTURES [FOLDER]]
set -euo pipefail
cd "$(dirname "${BASH_SOURCE[0]}")/.."
./build
python3 - "${1:-100000}" "${2:-/dev/shm}" <<'PY'
import os
import shutil
import subprocess
import sys
import tempfile
import time

PROGRAM = os.path.abspath("crates/chemdb/out/chemdb")
DRUGS = [
    "CC(C)Cc1ccc(cc1)C(C)C(=O)NCCN1CCOCC1",
    "Cc1ccc(NC(=O)c2ccc(CN3CCN(C)CC3)cc2)cc1Nc1nccc(-c2cccnc2)n1",
    "CCCc1nn(C)c2c1nc([nH]c2=O)-c1cc(ccc1OCC)S(=O)(=O)N1CCN(C)CC1",
    "CN(C)CCCN1c2ccccc2Sc2ccc(Cl)cc21",
    "COc1ccc2nc(S(=O)Cc3ncc(C)c(OC)c3C)[nH]c2c1",
    "OC(=O)COCCN1CCN(CC1)C(c1ccccc1)c1ccc(Cl)cc1",
]


class Session:
    """A session whose replies are read one by one."""

    def __init__(self, store):
        self.process = subprocess.Popen([PROGRAM, "run", store], stdin=subprocess.PIPE, stdout=subprocess.PIPE)

    def ask(self, line):
        """Milliseconds until a line is answered, and the reply."""
        start = time.monotonic()
        self.process.stdin.write(line.encode() + b"\n")
        self.process.stdin.flush()
        reply = self.process.stdout.readline().decode().strip()
        return (time.monotonic() - start) * 1000, reply

    def ask_all(self, lines):
        """Milliseconds until so many lines are answered that are sent together, and the last reply."""
        start = time.monotonic()
        self.process.stdin.write("".join(line + "\n" for line in lines).encode())
        self.process.stdin.flush()
        for _ in lines:
            reply = self.process.stdout.readline().decode().strip()
        return (time.monotonic() - start) * 1000, reply

    def end(self):
        self.process.stdin.close()
        assert self.process.wait() == 0


def run(words, script):
    start = time.monotonic()
    done = subprocess.run([PROGRAM, *words], input=script.encode(), capture_output=True)
    assert done.returncode == 0, (words, done.returncode, done.stderr)
    return (time.monotonic() - start) * 1000


def compacted(session):
    """The milliseconds of each step of a compaction."""
    steps = []
    while True:
        millis, reply = session.ask("compact")
        steps.append(millis)
        if reply.startswith("compacted "):
            return steps
        assert reply.startswith("compacting "), reply


def middle(values):
    return sorted(values)[len(values) // 2]


def commits(session, count):
    """The milliseconds of a commit, the middle of as many."""
    found = []
    for number in range(count):
        millis, reply = session.ask(f"revise {number + 1} {DRUGS[number % len(DRUGS)]}")
        assert reply.startswith("ok "), reply
        found.append(millis)
    return middle(found)


count, folder = int(sys.argv[1]), sys.argv[2]
script = "".join(f"register {i + 1} {DRUGS[i % len(DRUGS)]}\n" for i in range(count))
script += "".join(f"revise {2 * i + 1} {DRUGS[i % len(DRUGS)]}C\n" for i in range(count // 2))
with tempfile.TemporaryDirectory(dir=folder) as room:
    store = os.path.join(room, "store")
    run(["init", store], "")
    run(["run", store], script)
    opening = min(run(["run", store], "") for _ in range(3))
    other = os.path.join(room, "other")
    for part in ("", ".2"):
        shutil.copy(store + part, other + part)
    session = Session(store)
    session.ask("stats")
    steps = compacted(session)
    session.end()
    session = Session(other)
    session.ask("stats")
    together, reply = session.ask_all(["compact"] * len(steps))
    assert reply.startswith("compacted "), reply
    session.end()
    size = os.path.getsize(store + ".2")
    start = time.monotonic()
    with open(os.path.join(room, "bytes"), "wb") as file:
        for at in range(0, size, 16384):
            file.write(bytes(min(16384, size - at)))
        file.flush()
        os.fsync(file.fileno())
    alone = (time.monotonic() - start) * 1000
    after = min(run(["run", store], "") for _ in range(3))
    session = Session(store)
    session.ask("stats")
    before = commits(session, 400)
    session.ask("compact")
    beside = commits(session, 400)
    session.end()
print(f"a step: {middle(steps):.2f} ms, at most {max(steps):.2f}; {len(steps)} steps at once: {together:.0f} ms; writing {size:,} bytes: {alone:.0f} ms")
print(f"opening before it: {opening:.0f} ms, and after: {after:.0f} ms")
print(f"a commit: {before:.3f} ms, and beside a copy: {beside:.3f} ms")
PY
