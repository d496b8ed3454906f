#!/usr/bin/env bash
# Registers and searches generated structures in memory; prints the summary, registrations per second with and without the
# searches, and peak memory.
# Usage: bench/bulk.sh [STRUCTURES]
set -euo pipefail
cd "$(dirname "${BASH_SOURCE[0]}")/.."
./build
python3 - "${1:-100000}" <<'PY'
import resource
import subprocess
import sys
import time

PROGRAM = "crates/chemdb/out/chemdb"
count = int(sys.argv[1])
start = time.monotonic()
done = subprocess.run([PROGRAM, "bulk", "1", str(count)], capture_output=True)
seconds = time.monotonic() - start
peak = resource.getrusage(resource.RUSAGE_CHILDREN).ru_maxrss / 1024
assert done.returncode == 0, done
print(done.stdout.decode(), end="")
print(f"{count} structures registered and searched in {seconds:.2f} s; peak memory {peak:.0f} MiB")
PY
