#!/usr/bin/env bash
# Commits drug-like structures to a store in a file, and opens it again; prints durable commits per second beside what
# the disk does by itself (two writes with a sync each), and the time of opening beside that of registering the
# same texts in memory. Then it makes a store of many revisions of 1,000 structures on a disk in memory (/dev/shm), and
# prints the most memory that its opening takes, beside the bytes of the file.
# Usage: bench/disk.sh [COMMITS [FOLDER [REVISIONS]]]; PROGRAM=FILE measures another program than the one of ./build
set -euo pipefail
cd "$(dirname "${BASH_SOURCE[0]}")/.."
[ -n "${PROGRAM-}" ] || ./build
PROGRAM=$(realpath "${PROGRAM:-crates/chemdb/out/chemdb}")
export PROGRAM
python3 - "${1:-20000}" "${2:-.}" "${3:-1000000}" <<'PY'
import os
import subprocess
import sys
import tempfile
import time

PROGRAM = os.environ["PROGRAM"]
DRUGS = [
    "CC(C)Cc1ccc(cc1)C(C)C(=O)NCCN1CCOCC1",
    "Cc1ccc(NC(=O)c2ccc(CN3CCN(C)CC3)cc2)cc1Nc1nccc(-c2cccnc2)n1",
    "CCCc1nn(C)c2c1nc([nH]c2=O)-c1cc(ccc1OCC)S(=O)(=O)N1CCN(C)CC1",
    "CN(C)CCCN1c2ccccc2Sc2ccc(Cl)cc21",
    "COc1ccc2nc(S(=O)Cc3ncc(C)c(OC)c3C)[nH]c2c1",
    "OC(=O)COCCN1CCN(CC1)C(c1ccccc1)c1ccc(Cl)cc1",
]


def run(words, script):
    start = time.monotonic()
    done = subprocess.run([PROGRAM, *words], input=script.encode(), capture_output=True)
    assert done.returncode == 0, (words, done.returncode, done.stderr)
    return time.monotonic() - start


def syncs(path, count):
    """Seconds for as many pairs of a write and a sync as commits make, twice each."""
    file = os.open(path, os.O_RDWR | os.O_CREAT)
    start = time.monotonic()
    at = 9
    for _ in range(count):
        os.pwrite(file, b"x" * 50, at)
        os.fsync(file)
        os.pwrite(file, b"Z", at - 1)
        os.fsync(file)
        at += 50
    os.close(file)
    return time.monotonic() - start


def opened(path):
    """The most memory, in kB, of a program that opened a store and waits for its next line, and the seconds it took."""
    start = time.monotonic()
    process = subprocess.Popen([PROGRAM, "run", path], stdin=subprocess.PIPE, stdout=subprocess.PIPE)
    process.stdin.write(b"stats\n")
    process.stdin.flush()
    reply = process.stdout.readline().decode().strip()
    seconds = time.monotonic() - start
    with open(f"/proc/{process.pid}/status") as status:
        most = next(int(line.split()[1]) for line in status if line.startswith("VmHWM:"))
    process.stdin.close()
    assert process.wait() == 0 and reply.startswith("stats "), reply
    return most, seconds, reply


count, revisions = int(sys.argv[1]), int(sys.argv[3])
script = "".join(f"register {i + 1} {DRUGS[i % len(DRUGS)]}\n" for i in range(count))
with tempfile.TemporaryDirectory(dir=sys.argv[2]) as folder:
    store = os.path.join(folder, "store")
    run(["init", store], "")
    durable = run(["run", store], script)
    alone = syncs(os.path.join(folder, "syncs"), count)
    opening = min(run(["run", store], "") for _ in range(3))
    size = os.path.getsize(store)
memory = min(run(["mem"], script) for _ in range(3))
alone = f"the disk alone, two writes with a sync each: {count / alone:,.0f}"
print(f"{count} commits: {count / durable:,.0f} a second; {alone}")
print(f"opening {size:,} bytes: {opening:.3f} s; registering the same texts in memory: {memory:.3f} s")
with tempfile.TemporaryDirectory(dir="/dev/shm") as folder:
    store = os.path.join(folder, "store")
    run(["init", store], "")
    empty, _, _ = opened(store)
    lines = [f"register {i + 1} {DRUGS[i % len(DRUGS)]}\n" for i in range(1000)]
    lines += [f"revise {i % 1000 + 1} {DRUGS[i % len(DRUGS)]}\n" for i in range(revisions)]
    run(["run", store], "".join(lines))
    size = os.path.getsize(store)
    most, seconds, reply = opened(store)
print(
    f"{revisions} revisions of 1000 structures, {size / 1e6:.1f} MB: opened in {seconds:.1f} s, with at most"
    f" {most / 1000:.1f} MB of memory; an empty store: {empty / 1000:.1f} MB; {reply}"
)
PY
