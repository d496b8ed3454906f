"""The rows of bench/against.sh, which calls this; its head says what is measured and how."""
import argparse
import contextlib
import gzip
import os
import random
import re
import shutil
import subprocess
import sys
import tempfile
import time

sys.dont_write_bytecode = True
import made
from turn import LONGEST_LAST, TUNED, Session, Table

BENCH = os.path.dirname(os.path.abspath(__file__))
FOUR = ("--workers", "4")
# How many lines an end commits at most beside four ends that search.
COMMITS = 200_000
# Seconds that a hostile line is repeated for.
REPEATED = 0.05
# The replies to a script of `serve` whose last line is `stats`.
ENDED = re.compile(rb"\nstats [^\n]*\n\Z")


def of_script(script, first, behind):
    """The names that the Python of a script beside this one makes, from a line that begins with `first` on to one that
    begins with `behind`."""
    with open(os.path.join(BENCH, script), encoding="utf-8") as file:
        text = file.read()
    names = {}
    exec(text[text.index("\n" + first):text.index("\n" + behind)], names)
    return names


PATTERNS = of_script("serve.sh", "PATTERNS =", "assert")["PATTERNS"]
LONG = ["~".join(["*"] * 40), "".join(["[#6]"] * 24), "".join(["[R]"] * 20), "C1CCCCCCCCCCC1", "*1" + "~*" * 15 + "~1"]


def accepted(program, shelves, word):
    """Of numbered texts those that the program registers, a session for each shelf; in order of their numbers."""
    found = []
    for shelf in shelves:
        with Session(program, "mem") as session:
            lines = [f"{word} {at + 1} {text}" for at, (_, text) in enumerate(shelf)]
            replies = session.ask(lines).replies.splitlines()
            found += [numbered for numbered, reply in zip(shelf, replies) if reply.startswith(b"ok ")]
    return [text for _, text in sorted(found)]


def read(catalogue, count, program):
    """The first structures of a file that the program accepts."""
    with (gzip.open if catalogue.endswith(".gz") else open)(catalogue, "rt", encoding="utf-8") as file:
        texts = [line.split()[0] for line in file if line.strip()]
    return accepted(program, [list(enumerate(texts[:count + count // 20 + 50]))], "register")[:count]


class Bench:
    """The programs, the structures, and what several rows share: loaded sessions and filled stores."""

    def __init__(self, options, room, held):
        self.programs, self.room, self.table = [options.old, options.new], room, Table(options.rounds)
        self.options, self.held, self.filled = options, held, {}
        if options.catalogue:
            self.texts = read(options.catalogue, options.count, options.old)
        else:
            self.texts = accepted(options.old, made.shelves(options.count), "register-new")[:options.count]
        self.count = len(self.texts)
        self.registers = [f"register {at + 1} {text}" for at, text in enumerate(self.texts)]
        draw = random.Random(1)
        self.shuffled = draw.sample(self.registers, self.count)
        self.drawn = draw.sample(range(1, self.count + 1), self.count)

    def revisions(self, share):
        """Lines that put another structure into the place of a share of all."""
        return [f"revise {at} {self.texts[at - 2]}" for at in self.drawn[:int(self.count * share)]]

    def some(self, count):
        """As many structures, from all places of the catalogue."""
        return [self.texts[at * self.count // count] for at in range(count)]

    def loaded(self, words):
        """A session of each program that has all structures."""
        if words not in self.filled:
            both = [self.held.enter_context(Session(program, "mem", *words)) for program in self.programs]
            for session in both:
                session.ask(self.registers)
            self.filled[words] = both
        return self.filled[words]

    def asked(self, name, lines, words=()):
        """Lines, each asked of both programs in turn; with more workers the clock's time, else the processor's."""
        both = self.loaded(words)

        def once(side, line):
            answer = both[side].ask([line], 0 if words else 0.0005)
            yield (f"{len(lines)} {name}", "s"), answer.passed if words else answer.used, answer.replies

        self.table.measure(once, lines)

    def searches(self):
        self.asked("searches, one worker", [f"search {pattern}" for pattern in PATTERNS])

    def workers(self):
        self.asked("searches, four workers", [f"search {pattern}" for pattern in PATTERNS], FOUR)

    def of_kind(self, kind, most):
        """Searches for the patterns of a kind."""
        if not self.options.patterns:
            print(f"left out, for want of --patterns: searches of kind {kind}")
            return
        with open(self.options.patterns, encoding="utf-8") as file:
            found = [line.split("\t")[0] for line in file if line.rstrip("\n").split("\t")[1:] == [kind]][:most]
        counted = subprocess.run([sys.executable, os.path.join(BENCH, "../tools/counts")], encoding="utf-8",
                                 input="\n".join(found) + "\n", stdout=subprocess.PIPE, stderr=subprocess.DEVNULL)
        self.asked(f"searches of kind {kind}", [f"search {pattern}" for pattern in counted.stdout.splitlines()])

    def pains(self):
        self.of_kind("PAINS", 240)

    def filters(self):
        self.of_kind("filter", 400)

    def same(self):
        self.asked("lookups by `same`", [f"same {text}" for text in self.some(200)])

    def similar(self):
        self.asked("lookups by `similar`", [f"similar 7 10 20 {text}" for text in self.some(20)])

    def register(self):
        """Registrations a second of the processor, and the memory behind them."""

        def once(side, step):
            order, lines = step
            with Session(self.programs[side], "mem") as session:
                session.ask([])
                answer = session.ask(lines, 0.002)
                yield (f"registrations, {order} order", "a second"), self.count / answer.used, answer.replies
                yield (f"VmHWM after these, {order} order", "MiB"), session.peak(), None

        self.table.measure(once, [("ascending", self.registers), ("random", self.shuffled)])

    def prune(self):
        """A prune of what a third of revisions superseded. Cursors that were opened behind these do not hold it."""
        cursors = [line for at, pattern in enumerate(PATTERNS) for line in (f"open c{at} {pattern}", f"next c{at}")]

        def once(side, step):
            name, held = step
            with Session(self.programs[side], "mem") as session:
                session.ask([*self.registers, *self.revisions(1 / 3), *held])
                answer = session.ask(["prune"])
                yield (f"a prune of a third, {name}", "s"), answer.used, answer.replies

        self.table.measure(once, [("no page held", []), (f"{len(PATTERNS)} pages held", cursors)])

    def store(self, side, revised=False):
        """A new copy of a program's store with all structures, in the folder `copy`, which has nothing else."""
        kept, copy = (os.path.join(self.room, name) for name in (f"store-{side}-{revised}", "copy"))
        if not os.path.exists(kept):
            os.mkdir(kept)
            subprocess.run([self.programs[side], "init", f"{kept}/store"], check=True)
            with Session(self.programs[side], "run", f"{kept}/store") as session:
                session.ask([*self.registers, *(self.revisions(1 / 2) if revised else [])], 0.002)
        shutil.rmtree(copy, ignore_errors=True)
        shutil.copytree(kept, copy)
        return f"{copy}/store"

    def open(self):
        """The time until a first line is answered."""

        def once(side, words):
            with Session(self.programs[side], "run", self.store(side), *words) as session:
                replies = session.ask([], 0).replies
                passed, name = time.monotonic() - session.start, " ".join([f"opening {self.count:,} commits", *words])
                yield (name, "s"), passed, replies
                yield (f"{name}, the processor's time", "s"), session.used(), None
                yield (f"{name}, VmHWM", "MiB"), session.peak(), None

        for words in ((), FOUR):
            self.table.measure(once, [words])

    def compact(self):
        """All steps of a compaction, asked for at once. How many there are is counted before."""
        steps = [0, 0]
        for side in (0, 1):
            with Session(self.programs[side], "run", self.store(side, True)) as session:
                replies = b"compacting"
                while replies.startswith(b"compacting"):
                    replies, steps[side] = session.ask(["compact"], 0).replies, steps[side] + 1

        def once(side, _):
            with Session(self.programs[side], "run", self.store(side, True)) as session:
                session.ask([])
                answer = session.ask(["compact"] * steps[side])
                yield ("a whole compaction", "s"), answer.used, answer.replies

        self.table.measure(once)

    def serve(self):
        """Four ends search, with an end beside them that commits all the while, and without."""
        searches = ["stats", *[f"search {pattern}" for pattern in PATTERNS] * 2, "stats"]
        commits = ["stats", *[f"register {self.count + at + 1} {self.texts[at % self.count]}" for at in range(COMMITS)]]

        def once(side, step):
            name, beside = step
            store = self.store(side)
            scripts = [f"{store}-{at}" for at in range(4 + beside)]
            for at, script in enumerate(scripts):
                with open(script, "w", encoding="utf-8") as file:
                    file.write("".join(line + "\n" for line in (searches if at < 4 else [*commits, "stats"])))
            passed, committed = served([self.programs[side], "serve", store, *scripts], scripts)
            # `stats` counts the versions that other ends hold
            replies = None if beside else re.sub(rb"(?m)^stats .*\n", b"", b"".join(map(replies_to, scripts)))
            yield (f"four ends{name}", "searches a second"), 4 * 2 * len(PATTERNS) / passed, replies
            if beside:
                yield ("commits beside them", "a second"), committed / passed, None

        self.table.measure(once, [(" that search", False), (" beside one that commits", True)])

    def hostile(self):
        """Lines that are dear for their length, each repeated and in a session of its own."""
        some, cases = self.registers[:1000], []
        for pattern in LONG:
            cases.append(("hostile pattern", pattern, some, f"search {pattern}"))
        names = of_script("match.sh", "def parts", "def seconds")
        dense = [(pattern, ["C"]) for pattern in names["DENSE"]]
        for pattern, texts in [*names["HOPELESS"], *names["GROUPED"], *dense]:
            fill = [f"register {at + 1} {text}" for at, text in enumerate(texts * 10)]
            cases.append(("hostile pattern", pattern, fill, f"search {pattern}"))
        if self.options.hostile:
            with open(self.options.hostile, encoding="utf-8") as file:
                for name, text in (line.rstrip("\n").split("\t") for line in file):
                    cases.append(("hostile structure", name, [f"register 1 {text}"], f"register 1 {text}"))
        else:
            print("left out, for want of --hostile: hostile structures")

        def answered(side, fill, lines):
            with Session(self.programs[side], "mem") as session:
                session.ask(fill)
                return session.ask(lines)

        steps = []
        for at, (kind, name, fill, line) in enumerate(cases):
            times = min(1000, max(1, int(REPEATED / answered(0, fill, [line]).used)))
            steps.append((f"{kind}: {name if len(name) < 30 else name[:30] + '..'} ({at + 1})", fill, [line] * times))

        def once(side, step):
            name, fill, lines = step
            answer = answered(side, fill, lines)
            yield (name, "s"), answer.used, answer.replies

        self.table.measure(once, steps)
        self.table.gather("hostile pattern")
        self.table.gather("hostile structure")


def replies_to(script, most=None):
    """The replies to a script of `serve` so far, or the last bytes of them."""
    if not os.path.exists(script + ".out"):
        return b""
    with open(script + ".out", "rb") as file:
        if most:
            file.seek(max(0, os.path.getsize(script + ".out") - most))
        return file.read()


def wait_for(process, is_done):
    """Waits until something is done by a program."""
    while not is_done():
        if process.poll() is not None and not is_done():
            raise SystemExit(f"against: {process.args} ended with status {process.returncode}")
        time.sleep(0.002)


def served(words, scripts):
    """Serves scripts, each with `stats` as its first and last line, until the first four are answered. Returns the
    seconds from the first reply on, and how many lines of a fifth are answered then."""
    process = subprocess.Popen(words, env=TUNED)
    wait_for(process, lambda: any(map(replies_to, scripts)))
    begin = time.monotonic()
    wait_for(process, lambda: all(ENDED.search(replies_to(script, LONGEST_LAST)) for script in scripts[:4]))
    passed = time.monotonic() - begin
    process.kill()
    process.wait()
    if len(scripts) == 4:
        return passed, 0
    lines = replies_to(scripts[4]).count(b"\n")
    if lines > COMMITS:
        print("against: the end that commits ended before the others", file=sys.stderr)
    return passed, lines - 1


def main():
    rows = "searches workers pains filters same similar register prune open compact serve hostile".split()
    parser = argparse.ArgumentParser(prog="bench/against.sh", usage="bench/against.sh --help", add_help=False)
    parser.add_argument("old")
    parser.add_argument("new")
    parser.add_argument("catalogue", nargs="?")
    parser.add_argument("--count", type=int, default=100_000)
    parser.add_argument("--rounds", type=int, default=5)
    parser.add_argument("--patterns")
    parser.add_argument("--hostile")
    parser.add_argument("--only", action="append", choices=rows)
    parser.add_argument("--folder", default="/dev/shm")
    options = parser.parse_args()
    for program in (options.old, options.new):
        if not os.access(program, os.X_OK):
            parser.error(f"{program} is no program")
    options.old, options.new = os.path.abspath(options.old), os.path.abspath(options.new)
    with tempfile.TemporaryDirectory(dir=options.folder) as room, contextlib.ExitStack() as held:
        bench = Bench(options, room, held)
        print(f"{bench.count:,} structures, {options.catalogue or 'made by the script'}; {options.rounds} rounds; "
              f"{os.cpu_count()} processors", flush=True)
        for row in options.only or rows:
            getattr(bench, row)()
    bench.table.put()
    sys.exit(False in bench.table.equal.values())


main()
