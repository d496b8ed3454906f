#!/usr/bin/env bash
# Fills a store in memory with structures whose identifiers ascend, descend, and come in random order; prints registrations
# per second of each order. Then, over the last: the milliseconds of a prune that drops nothing, of a prune that drops half
# of the entries, and of a page of a cursor that was opened before all revisions; the memory after one round of revisions
# with a prune and after four rounds more; and the milliseconds of a search whose pattern one record in each 256 can hold,
# so that each record's print is looked at.
# Usage: bench/store.sh [STRUCTURES]
set -euo pipefail
cd "$(dirname "${BASH_SOURCE[0]}")/.."
./build
python3 - "${1:-100000}" <<'PY'
import random
import subprocess
import sys
import threading
import time

PROGRAM = "crates/chemdb/out/chemdb"
DRUGS = [
    "CC(C)Cc1ccc(cc1)C(C)C(=O)NCCN1CCOCC1",
    "Cc1ccc(NC(=O)c2ccc(CN3CCN(C)CC3)cc2)cc1Nc1nccc(-c2cccnc2)n1",
    "CCCc1nn(C)c2c1nc([nH]c2=O)-c1cc(ccc1OCC)S(=O)(=O)N1CCN(C)CC1",
    "CN(C)CCCN1c2ccccc2Sc2ccc(Cl)cc21",
    "COc1ccc2nc(S(=O)Cc3ncc(C)c(OC)c3C)[nH]c2c1",
    "CC1(C)SC2C(NC(=O)C(N)c3ccccc3)C(=O)N2C1C(=O)O",
    "OC(=O)COCCN1CCN(CC1)C(c1ccccc1)c1ccc(Cl)cc1",
    "CC(=O)c1ccc(F)cc1C1CCN(CCN2C(=O)Nc3ccccc3C2=O)CC1",
]
COUNT = int(sys.argv[1])
# one bromine in each block of the index
TEXTS = [("Br" if i % 256 == 0 else "C") + DRUGS[i % len(DRUGS)] for i in range(COUNT)]


class Session:
    """A session whose replies are read one by one."""

    def __init__(self):
        self.process = subprocess.Popen([PROGRAM, "mem"], stdin=subprocess.PIPE, stdout=subprocess.PIPE)

    def say(self, lines):
        """Seconds until the last of the lines is answered, each with one line, and that reply."""
        text = "".join(line + "\n" for line in lines).encode()
        start = time.monotonic()
        writer = threading.Thread(target=self.write, args=(text,))
        writer.start()
        for _ in lines:
            reply = self.process.stdout.readline()
        writer.join()
        return time.monotonic() - start, reply.decode().strip()

    def write(self, text):
        self.process.stdin.write(text)
        self.process.stdin.flush()

    def ask(self, line):
        """Milliseconds until the last line of a reply, and that line."""
        start = time.monotonic()
        self.write(line.encode() + b"\n")
        while True:
            reply = self.process.stdout.readline()
            if not reply.startswith(b"hit "):
                return (time.monotonic() - start) * 1000, reply.decode().strip()

    def memory(self):
        with open(f"/proc/{self.process.pid}/status", encoding="utf-8") as status:
            return next(int(line.split()[1]) for line in status if line.startswith("VmRSS")) / 1024

    def end(self):
        self.process.stdin.close()
        assert self.process.wait() == 0


def registered(ids):
    session = Session()
    seconds, reply = session.say([f"register {id} {text}" for id, text in zip(ids, TEXTS)])
    assert reply == f"ok {COUNT}", reply
    return session, seconds


ascending = list(range(1, COUNT + 1))
shuffled = ascending[:]
random.Random(1).shuffle(shuffled)
for name, ids in (("ascending", ascending), ("descending", ascending[::-1]), ("random", shuffled)):
    session, seconds = registered(ids)
    print(f"{name:>10}: {COUNT / seconds:,.0f} registrations a second")
    if name != "random":
        session.end()

millis, reply = session.ask("search Br")
print(f"a search that looks at each print: {millis:.2f} ms ({reply})")
millis, reply = session.ask("prune")
print(f"a prune that drops nothing: {millis:.2f} ms ({reply})")
session.ask("open held *")
half = [f"revise {id} {text}C" for id, text in zip(shuffled[: COUNT // 2], TEXTS)]
session.say(half)
millis, reply = session.ask("next held")
print(f"a page of a cursor from before {COUNT // 2} revisions: {millis:.2f} ms ({reply})")
session.ask("close held")
millis, reply = session.ask("prune")
print(f"a prune that drops half of the entries: {millis:.2f} ms ({reply})")
once = session.memory()
for _ in range(4):
    session.say(half)
    session.ask("prune")
print(f"memory after one round of revisions and a prune {once:.0f} MiB, after five {session.memory():.0f} MiB")
session.end()
PY
