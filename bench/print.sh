#!/usr/bin/env bash
# Times single calls of the screen, each by itself, in a small program beside a copy of the crates; prints nanoseconds
# for a call, the least of so many rounds: `print` of drug-like molecules (the mean of a thousand different ones, one
# after the other) and of the densest graph, `need` of a pattern of twenty atoms, and `Print::holds` where all is held
# and where the first bit is lacking.
# Usage: bench/print.sh [ROUNDS]
set -euo pipefail
cd "$(dirname "${BASH_SOURCE[0]}")/.."
place=$(mktemp -d)
trap 'rm -rf "$place"' EXIT

crates="aromatic chem_core chem_text line_walk mol_finish molfile_read path_print ring_find smarts_parse smarts_words smiles_read smiles_words valence"
mkdir -p "$place/crates/print_time/src"
for crate in $crates; do
  cp -a "crates/$crate" "$place/crates/"
done
grep -E "^(${crates// /|}):" crates.txt >"$place/crates.txt"
echo "print_time: chem_core mol_finish smarts_parse path_print" >>"$place/crates.txt"

cat >"$place/crates/print_time/src/main.rt" <<RT
//! Times calls: each line of standard input is a word, which says what is called, and a text.
#![tactic(auto)]

use chem_core::{Mol, Print};
use mol_finish::{Format, structure};
use path_print::{need, print};
use smarts_parse::parse;
use std::io;
use std::time::{Clock, Instant};

/// The least time of so many rounds is printed.
const ROUNDS: u32 = ${1:-300};

/// The calls of a round, but for prints.
const CALLS: u32 = 100;

fn main(rt: HostRuntime) -> io::Result<()> {
    let mut mols = Vec::new(rt.alloc());
    for line in rt.lines(rt.alloc()) {
        let line = line?;
        let nanos = match line.as_str().split_once(' ') {
            Some(("need", smarts)) => time_need(&rt, smarts)?,
            Some((word, smiles)) => match structure(rt.alloc(), Format::Smiles, smiles.as_bytes()) {
                Ok(mol) => match word {
                    "print" => {
                        mols.push(mol)?;
                        continue;
                    }
                    "all" => time_print(&rt, &mols)?,
                    "dense" => {
                        let mut one = Vec::new(rt.alloc());
                        one.push(mol)?;
                        time_print(&rt, &one)?
                    }
                    "holds" => time_holds(&rt, &print(&mol), &print(&mol))?,
                    _ => time_holds(&rt, &Print::empty(), &print(&mol))?,
                },
                Err(_) => u128::MAX,
            },
            None => u128::MAX,
        };
        println!(rt; "{nanos}")?;
    }
    Ok(())
}

// Of each answer one bit is read, so that no call is left out.
fn time_print(clock: &impl Clock, mols: &[Mol]) -> io::Result<u128> {
    let mut least = u128::MAX;
    for _ in 0..ROUNDS {
        let start = Instant::now(clock)?;
        let mut all = true;
        for mol in mols {
            all = all && !print(mol).has(1024);
        }
        if all {
            least = least.min(start.elapsed(clock)?.as_nanos());
        }
    }
    Ok(least)
}

fn time_need<R: Clock + AllocGlobal>(rt: &R, smarts: &str) -> io::Result<u128> {
    let mut least = u128::MAX;
    if let Ok(pattern) = parse(rt.alloc(), smarts.as_bytes()) {
        for _ in 0..ROUNDS {
            let start = Instant::now(rt)?;
            let mut all = true;
            for _ in 0..CALLS {
                all = all && !need(&pattern).has(1024);
            }
            if all {
                least = least.min(start.elapsed(rt)?.as_nanos());
            }
        }
    }
    Ok(least)
}

fn time_holds(clock: &impl Clock, have: &Print, want: &Print) -> io::Result<u128> {
    let mut least = u128::MAX;
    let first = have.holds(want);
    for _ in 0..ROUNDS {
        let start = Instant::now(clock)?;
        let mut same = true;
        for _ in 0..CALLS {
            same = same && have.holds(want) == first;
        }
        if same {
            least = least.min(start.elapsed(clock)?.as_nanos());
        }
    }
    Ok(least)
}
RT

(cd "$place/crates/print_time" && rt run </dev/null >"$place/log" 2>&1) || { cat "$place/log" >&2; exit 1; }

python3 - "$place/crates/print_time/out/print_time" <<'PY'
import random
import re
import subprocess
import sys

DRUGS = re.findall(r'^    "(.*)",$', open("bench/mem.sh").read(), re.M)
PATTERN = "CC(C)Cc1ccc(cc1)C(C)C(=O)NCCNCC"
MOST_BONDS, MOST_NEIGHBOURS = 999, 12
# Each goes on behind its last atom that is not in parentheses.
PIECES = ["c1ccc(cc1)", "C(=O)N", "CC(C)", "N1CCN(CC1)", "S(=O)(=O)N", "c1cnc(nc1)", "OCC", "C1CCN(CC1)", "C(F)", "c1cc(Cl)cc(c1)"]


def drugs(count):
    """Chains of pieces, of 20 atoms or a few more, and ten drugs."""
    chance, found = random.Random(2), list(DRUGS)
    while len(found) < count:
        text = "C"
        while sum(letter in "CNOSFcn" for letter in text) < 20:
            text += chance.choice(PIECES)
        found.append(text + "C")
    return found



def densest():
    """As many bonds as may be, with as many neighbours as may be, between atoms that stand near in the text."""
    chance, near, atoms = random.Random(1), 24, 1 + 2 * MOST_BONDS // MOST_NEIGHBOURS
    joined, bonds = [set() for _ in range(atoms)], 0
    for place in range(atoms):
        free = [to for to in range(place + 2, min(place + near, atoms)) if len(joined[to]) < MOST_NEIGHBOURS]
        chance.shuffle(free)
        for to in [place + 1][: atoms - 1 - place] + free:
            if len(joined[place]) < MOST_NEIGHBOURS and bonds < MOST_BONDS and len(joined[to]) < MOST_NEIGHBOURS:
                joined[place].add(to)
                joined[to].add(place)
                bonds += 1
    numbers, text, free = {}, [], [f"%{n}" for n in range(99, 9, -1)] + [str(n) for n in range(9, 0, -1)]
    for place in range(atoms):
        closed = [numbers[to, place] for to in sorted(joined[place]) if to < place - 1]
        opened = [to for to in sorted(joined[place]) if to > place + 1]
        for to in opened:
            numbers[place, to] = free.pop()
        chain = "" if place == 0 or place - 1 in joined[place] else "."
        text.append(chain + "[U]" + "".join(closed + [numbers[place, to] for to in opened]))
        free += closed
    return "".join(text), bonds


dense, bonds = densest()
count = 1000
lines = [f"print {drug}" for drug in drugs(count)] + ["all C", f"dense {dense}", f"need {PATTERN}", f"holds {DRUGS[1]}", f"lacks {DRUGS[1]}"]
run = subprocess.run([sys.argv[1]], input="".join(line + "\n" for line in lines), capture_output=True, text=True, check=True)
times = [int(line) for line in run.stdout.split()]
assert len(times) == 5 and max(times) < 10**12, "a text is refused"
each, graph, need, holds, lacks = times
print(f"print of a drug-like molecule of 20 to 37 atoms: {each / count:,.0f} ns")
print(f"print of a graph of {bonds} bonds: {graph:,.0f} ns")
print(f"need of a pattern of twenty atoms: {need / 100:,.0f} ns")
print(f"holds: {holds / 100:,.1f} ns where all is held, {lacks / 100:,.1f} ns where none is")
PY
