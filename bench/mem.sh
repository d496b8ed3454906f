#!/usr/bin/env bash
# Registers drug-like structures in memory and searches them; prints registrations per second, memory for each record,
# and nanoseconds for each record of a search, the least of ten runs each. Script and replies are files: through a pipe
# each reply wakes the reader, which costs a few microseconds more. Memory is the most that the program itself had in use
# (VmHWM of /proc/PID/status), read while its input is still open, less that of a store without records.
# Usage: bench/mem.sh [STRUCTURES [PROGRAM]]; without PROGRAM, ./build builds it where it is not built
set -euo pipefail
cd "$(dirname "${BASH_SOURCE[0]}")/.."
[ -n "${2-}" ] || ./build
python3 - "${1:-20000}" "${2:-crates/chemdb/out/chemdb}" <<'PY'
import subprocess
import sys
import tempfile
import threading
import time

PROGRAM = sys.argv[2]
DRUGS = [
    "CC(C)Cc1ccc(cc1)C(C)C(=O)NCCN1CCOCC1",
    "Cc1ccc(NC(=O)c2ccc(CN3CCN(C)CC3)cc2)cc1Nc1nccc(-c2cccnc2)n1",
    "CCCc1nn(C)c2c1nc([nH]c2=O)-c1cc(ccc1OCC)S(=O)(=O)N1CCN(C)CC1",
    "CN(C)CCCN1c2ccccc2Sc2ccc(Cl)cc21",
    "COc1ccc2nc(S(=O)Cc3ncc(C)c(OC)c3C)[nH]c2c1",
    "CC1(C)SC2C(NC(=O)C(N)c3ccccc3)C(=O)N2C1C(=O)O",
    "OC(=O)COCCN1CCN(CC1)C(c1ccccc1)c1ccc(Cl)cc1",
    "Fc1ccc(cc1)C(=O)C1CCN(CCN2C(=O)Nc3ccccc3C2=O)CC1",
    "COc1cc(Cc2cnc(N)nc2N)cc(OC)c1OC",
    "O=C(O)c1cn(C2CC2)c2cc(N3CCNCC3)c(F)cc2c1=O",
]
SEARCHES = 20
RUNS = 10


def run(script):
    """Seconds, and the last line."""
    with tempfile.TemporaryFile() as lines, tempfile.TemporaryFile() as replies:
        lines.write(script.encode())
        lines.seek(0)
        start = time.monotonic()
        done = subprocess.run([PROGRAM, "mem"], stdin=lines, stdout=replies)
        seconds = time.monotonic() - start
        assert done.returncode == 0, done.returncode
        replies.seek(0)
        return seconds, (replies.read().decode().splitlines() or [""])[-1]


def write(process, script):
    process.stdin.write(script)
    process.stdin.flush()


def peak(script):
    """The most memory in bytes that the program had in use, once it has answered each line with one line."""
    process = subprocess.Popen([PROGRAM, "mem"], stdin=subprocess.PIPE, stdout=subprocess.PIPE)
    writer = threading.Thread(target=write, args=(process, (script + "stats\n").encode()))
    writer.start()
    while not process.stdout.readline().startswith(b"stats "):
        pass
    writer.join()
    with open(f"/proc/{process.pid}/status", encoding="utf-8") as status:
        kibibytes = next(int(line.split()[1]) for line in status if line.startswith("VmHWM"))
    process.stdin.close()
    assert process.wait() == 0
    return kibibytes * 1024


count = int(sys.argv[1])
registers = "".join(f"register {i + 1} {DRUGS[i % len(DRUGS)]}\n" for i in range(count))
alone = min(run(registers)[0] for _ in range(RUNS))
most = peak(registers)
record = (most - peak("")) / count
print(f"{count} structures of 17 to 37 atoms: {count / alone:,.0f} registrations per second")
print(f"memory: {most / 2**20:.1f} MiB, {record:,.0f} bytes for each record")
for pattern in ["C(=O)[OX2H]", "[NX3;H2]", "c1ccccc1"]:
    with_searches = min(run(registers + f"search {pattern}\n" * SEARCHES) for _ in range(RUNS))
    each = (with_searches[0] - alone) / SEARCHES / count
    print(f"search {pattern}: {each * 1e9:,.0f} ns for each record; {with_searches[1]}")
PY
