#!/usr/bin/env bash
# Memory and seconds that opening a store takes, by its number of structures. Fills a store in FOLDER with the structures of
# CATALOGUE (a SMILES at the start of each line), under new identifiers where they are fewer than asked, and opens it five
# times with no line to serve. Prints the median of the seconds, and the greatest memory of one opening.
# Usage: bench/open.sh CATALOGUE [PROGRAM [FOLDER [STRUCTURES..]]]
set -euo pipefail
root=$(cd "$(dirname "${BASH_SOURCE[0]}")/.." && pwd)
[ -n "${2-}" ] || "$root/build"
exec python3 - "$1" "${2:-$root/crates/chemdb/out/chemdb}" "${3:-/dev/shm}" "${@:4}" <<'PY'
import os
import statistics
import subprocess
import sys
import tempfile
import time

CATALOGUE, PROGRAM, FOLDER = sys.argv[1:4]
COUNTS = [int(count) for count in sys.argv[4:]] or [1_000, 10_000, 100_000, 1_000_000]
RUNS = 5
# as the script ./chemdb sets it
TUNED = {**os.environ, "GLIBC_TUNABLES": "glibc.malloc.hugetlb=1"}


def fill(store, texts, count):
    """A store of `count` structures; a text that is refused is passed over."""
    subprocess.run([PROGRAM, "init", store], check=True)
    replies = subprocess.PIPE
    with subprocess.Popen([PROGRAM, "run", store], stdin=subprocess.PIPE, stdout=replies, env=TUNED) as session:
        done = tried = 0
        while done < count:
            some = min(count - done, 10_000)
            lines = [f"register {tried + i + 1} {texts[(tried + i) % len(texts)]}\n" for i in range(some)]
            tried += some
            for line in lines:
                session.stdin.write(line.encode())
                session.stdin.flush()
                done += session.stdout.readline().startswith(b"ok ")
        session.stdin.close()
        assert session.wait() == 0


def opened(store):
    """Seconds until a first line is answered, and the most memory until then, in MiB."""
    start = time.monotonic()
    with subprocess.Popen([PROGRAM, "run", store], stdin=subprocess.PIPE, stdout=subprocess.PIPE, env=TUNED) as session:
        session.stdin.write(b"stats\n")
        session.stdin.flush()
        reply = session.stdout.readline().decode().strip()
        seconds = time.monotonic() - start
        with open(f"/proc/{session.pid}/status", encoding="utf-8") as status:
            most, now = (
                next(int(line.split()[1]) for line in lines if line.startswith(name))
                for name, lines in zip(("VmHWM", "VmRSS"), [status.readlines()] * 2)
            )
        session.stdin.close()
        assert session.wait() == 0
    return seconds, most / 1024, now / 1024, reply


with open(CATALOGUE, encoding="utf-8") as file:
    texts = [line.split()[0] for line in file if line.strip()]
for count in COUNTS:
    with tempfile.TemporaryDirectory(dir=FOLDER) as folder:
        store = os.path.join(folder, "store")
        fill(store, texts, count)
        runs = [opened(store) for _ in range(RUNS)]
        seconds = [run[0] for run in runs]
        print(
            f"{count:,} structures, {os.path.getsize(store) / 2**20:.1f} MiB: {statistics.median(seconds):.3f} s"
            f" ({min(seconds):.3f} to {max(seconds):.3f}), at most {max(run[1] for run in runs):.0f} MiB,"
            f" then {runs[-1][2]:.0f} ({runs[-1][3]})",
            flush=True,
        )
PY
