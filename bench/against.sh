#!/usr/bin/env bash
# Runs two programs in turn, and prints for each row the medians of both, their ratio (new to old), its range over the
# rounds, and whether all replies are equal, byte for byte.
#
# Usage: bench/against.sh [OPTIONS] OLD NEW [CATALOGUE]
#
# OLD and NEW are programs, as `./build` leaves one in crates/chemdb/out/chemdb. CATALOGUE is a .smi or .smi.gz file: a
# SMILES at the start of each line; what OLD refuses is left out. Without it structures are made, by a fixed seed:
# rings, chains, groups, halogens and other elements, of 15 to 45 atoms, no two the same by the `register-new` of OLD.
#
#   --count N        structures; 100000 if left out
#   --rounds N       5 if left out
#   --patterns FILE  for `pains` and `filters`: a SMARTS and its kind in each line, with a tab between; hydrogens that
#                    are written as atoms are made counts by tools/counts
#   --hostile FILE   for `hostile`: a name and a SMILES in each line, with a tab between
#   --only ROWS      these rows alone, by a word of the list below; may be given several times
#   --folder PATH    where stores are put; /dev/shm, a disk in memory, if left out
#
# Rows:
#   searches   the 34 searches of bench/serve.sh, one worker
#   workers    these with four workers
#   pains      searches for the first 240 patterns of kind PAINS; left out, and said so, without --patterns
#   filters    and for the first 400 of kind filter
#   same       200 lookups by `same`
#   similar    20 lookups by `similar 7 10 20`
#   register   registrations, identifiers in ascending and in random order, and VmHWM while the input is open
#   prune      a prune of what a third of revisions superseded, without and with 34 cursors that hold a page each
#   open       opening a store in a file, each structure a commit, plain and with --workers 4
#   compact    all steps of a compaction of it, half of the structures revised before
#   serve      searches a second of four ends, without and with one beside them that commits all the while
#   hostile    dear patterns, those of bench/match.sh among them, and structures of --hostile: the sum, and the line
#              whose ratio is the greatest
#
# Time is that of the processor, of all threads of the process and of those that ended, so it depends little on what
# else runs. Of `workers`, `open` and `serve` it is the clock's, since they use several processors: let nothing run
# beside it. With 100,000 structures all rows take some ten minutes (reckoned, not timed); `--count 1000 --rounds 2` is
# a quick try. OLD against itself shows what chance alone gives; of the greatest ratio of `hostile` that is most. It
# needs Python 3.10.
#
# Exit status: 0 all replies are equal; 1 some differ, or a program ended; 2 the command line is not understood.
set -euo pipefail
if [ $# -eq 0 ] || [ "$1" = --help ]; then
  sed -n '2,/^set /{ /^set /d; s/^# \{0,1\}//; p; }' "${BASH_SOURCE[0]}"
  exit
fi
exec python3 "$(dirname "${BASH_SOURCE[0]}")/against.py" "$@"
