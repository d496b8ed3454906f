#!/usr/bin/env bash
# Runs a script of bench/ five times, and prints each line that it prints once, with the median of each number that
# differed and, in brackets, the least and the greatest. So the figures of docs/costs.md are read.
# Usage: bench/five.sh SCRIPT [WORD..]
#
# Exit status: that of the script, if it failed; 1 if the runs print different lines; 2 without a SCRIPT.
set -euo pipefail
if [ $# -eq 0 ] || [ "$1" = --help ]; then
  sed -n '2,/^set /{ /^set /d; s/^# \{0,1\}//; p; }' "${BASH_SOURCE[0]}"
  [ $# -gt 0 ] || exit 2
  exit
fi
exec python3 - "$@" <<'PY'
import re
import subprocess
import sys

RUNS = 5
NUMBER = re.compile(r"(?<![\w.])\d(?:[\d,]*\d)?(?:\.\d+)?(?!\w)")


def value(text):
    return float(text.replace(",", ""))


def shown(texts):
    """The number itself, or the median of several with their range, each as it was printed."""
    if len(set(texts)) == 1:
        return texts[0]
    ordered = sorted(texts, key=value)
    return f"{ordered[RUNS // 2]} ({ordered[0]} to {ordered[-1]})"


runs = []
for _ in range(RUNS):
    done = subprocess.run(sys.argv[1:], stdout=subprocess.PIPE, text=True)
    if done.returncode:
        sys.exit(done.returncode)
    runs.append(done.stdout.splitlines())
if len({tuple(NUMBER.sub("#", line) for line in lines) for lines in runs}) > 1:
    print("five.sh: the runs print different lines", file=sys.stderr)
    sys.exit(1)
for lines in zip(*runs):
    numbers = iter([shown(texts) for texts in zip(*map(NUMBER.findall, lines))])
    print(NUMBER.sub(lambda _: next(numbers), lines[0]))
PY
