"""A program that is asked line by line, and the table of what two programs took in turn."""
import os
import re
import statistics
import subprocess
import sys
import threading
import time
from typing import NamedTuple

# as the script ./chemdb sets it
TUNED = {**os.environ, "GLIBC_TUNABLES": "glibc.malloc.hugetlb=1"}
PIPE = 1 << 20
# The reply to `stats`, behind others, and more bytes than it has.
LAST = re.compile(rb"(\A|\n)stats version [^\n]*\n\Z")
LONGEST_LAST = 300


class Answer(NamedTuple):
    """What was replied, and how long it took by the processor and by the clock."""

    replies: bytes
    used: float
    passed: float


class Session:
    """A program that reads lines from a pipe, and is killed behind its `with`."""

    def __init__(self, program, *words):
        self.start = time.monotonic()
        self.process = subprocess.Popen([program, *words], stdin=subprocess.PIPE, stdout=subprocess.PIPE, env=TUNED,
                                        bufsize=0, pipesize=PIPE)
        # the number that clock_getcpuclockid gives: the time of all threads of the process, those that ended too
        self.clock = ~self.process.pid << 3 | 2

    def __enter__(self):
        return self

    def __exit__(self, *_):
        self.process.kill()
        self.process.wait()
        self.process.stdin.close()
        self.process.stdout.close()

    def used(self):
        """Seconds of the processor until now."""
        return time.clock_gettime(self.clock)

    def ask(self, lines, pause=0.0005):
        """Sends the lines, and `stats` behind them, whose reply is the last. A reader that pauses is not woken by each
        reply, which the program would wait for."""
        text, replies, last = "".join(line + "\n" for line in [*lines, "stats"]).encode(), [], b""
        used, start = self.used(), time.monotonic()
        if len(text) > PIPE:
            threading.Thread(target=self.process.stdin.write, args=(text,), daemon=True).start()
        else:
            self.process.stdin.write(text)
        while not LAST.search(last):
            if pause:
                time.sleep(pause)
            some = os.read(self.process.stdout.fileno(), PIPE)
            if not some:
                raise SystemExit(f"against: {self.process.args} ended")
            replies.append(some)
            last = (last + some)[-LONGEST_LAST:]
        return Answer(b"".join(replies), self.used() - used, time.monotonic() - start)

    def peak(self):
        """The most memory that was in use, in MiB."""
        with open(f"/proc/{self.process.pid}/status", encoding="utf-8") as status:
            return next(int(line.split()[1]) for line in status if line.startswith("VmHWM")) / 1024


class Table:
    """The values of each row, a pair for each round, and whether all its replies were equal."""

    def __init__(self, rounds):
        self.rounds, self.values, self.equal = rounds, {}, {}

    def measure(self, once, steps=(None,)):
        """Calls `once(side, step)` for each step and for each program in turn. It yields rows: a name and a unit, a
        value, and the replies, or None where these need not be equal. The values of a round are summed."""
        for number in range(self.rounds):
            sums = {}
            for at, step in enumerate(steps):
                replies = {}
                for side in (0, 1) if (number + at) % 2 == 0 else (1, 0):
                    for row, value, reply in once(side, step):
                        sums.setdefault(row, [0.0, 0.0])[side] += value
                        replies.setdefault(row, []).append(reply)
                for row, (one, other) in replies.items():
                    if one is not None:
                        self.equal[row] = self.equal.get(row, True) and one == other
                    if one != other:
                        print(f"against: {row[0]}: replies differ: {str(step)[:100]}", file=sys.stderr)
            for row, pair in sums.items():
                self.values.setdefault(row, []).append(pair)
                print(f"against: round {number + 1}, {row[0]}: {shown(pair[0], row[1])}, {shown(pair[1], row[1])}",
                      file=sys.stderr, flush=True)

    def medians(self, row):
        """Of the old program and of the new one."""
        return [statistics.median(pair[side] for pair in self.values[row]) for side in (0, 1)]

    def ratio(self, row):
        """Of the medians, new to old."""
        old, new = self.medians(row)
        return new / old

    def gather(self, kind):
        """Puts in the place of all rows of a kind their sum, and the one whose ratio is the greatest."""
        rows = [row for row in self.values if row[0].startswith(kind)]
        if rows:
            worst = max(rows, key=self.ratio)
            values, equal = [self.values.pop(row) for row in rows], [self.equal.pop(row) for row in rows]
            sums = [[sum(pair[side] for pair in pairs) for side in (0, 1)] for pairs in zip(*values)]
            total, worst_row = (f"{len(rows)} {kind}s", "s"), (f"worst of these: {worst[0]}", "s")
            self.values[total], self.equal[total] = sums, all(equal)
            self.values[worst_row], self.equal[worst_row] = values[rows.index(worst)], equal[rows.index(worst)]

    def put(self):
        """Prints the table."""
        print("\n| Row | Old | New | Ratio | Its range | Replies |\n|---|---|---|---|---|---|")
        for row, pairs in self.values.items():
            ratios = [new / old for old, new in pairs]
            values = [shown(value, row[1]) for value in self.medians(row)]
            ratio = [f"{self.ratio(row):.3f}", f"{min(ratios):.2f} to {max(ratios):.2f}"]
            equal = {True: "equal", False: "DIFFER", None: "-"}[self.equal.get(row)]
            print("|", " | ".join([row[0], *values, *ratio, equal]), "|")


def shown(value, unit):
    """A value as the table has it."""
    if unit == "s" and value < 1:
        value, unit = value * 1000, "ms"
    return f"{value:,.0f} {unit}" if value >= 1000 else f"{value:.3g} {unit}"
