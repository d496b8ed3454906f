"""Makes a catalogue of four parts, ends workers in the middle, goes on, and compares every answer with one store.

Usage: CHEMDB=PROGRAM python3 parts_example.py FOLDER [CATALOGUE]. A line of the catalogue is a SMILES, a blank or tab,
and an identifier; without one, 2,000 generated structures are taken.
"""

import logging
import os
import random
import signal
import sys

from distributed import Client, LocalCluster

import chemdb
import chemdb_dask

PATTERNS = ["C=O", "c1ccccc1", "[N;H1]", "[$(C(=O)N)]", "F", "[U]", "*"]


def generated(count):
    pick = random.Random(1).choice
    pieces = ["C", "N", "O", "C(=O)", "C(C)", "c1ccc(cc1)", "C(F)", "S"]
    return [(number, "C" + "".join(pick(pieces) for _ in range(pick(range(2, 8))))) for number in range(1, count + 1)]


def catalogue(path):
    with open(path) as file:
        return [(int(line.split()[1]), line.split()[0]) for line in file]


def end_worker(parts, part):
    """Ends the worker that has the part, as a machine without power does."""
    os.kill(parts._ask(part, "pid"), signal.SIGKILL)


def interrupted(rows, parts):
    """The rows; two thirds of the way the worker of part 1 ends."""
    for number, row in enumerate(rows):
        if number == 2 * len(rows) // 3:
            end_worker(parts, 1)
        yield row


def equal(what, ours, theirs):
    if ours != theirs:
        sys.exit(f"{what}: {ours} by parts, and {theirs} by one store")


def answer(call, *words):
    """What a call gives; of a record all but its version, which is that of its own store; of a refusal its reply."""
    try:
        given = call(*words)
    except chemdb.Refused as refused:
        return refused.reply
    return given._replace(version=0) if isinstance(given, chemdb.Record) else given


def compare(parts, one, rows):
    for pattern in PATTERNS:
        found = parts.search(pattern)
        hits = one.search(pattern)
        equal(pattern, found.hits, hits.as_array())
        equal(f"what was tried for {pattern}", found.tried, hits.end.tried)
    for identifier, text in rows[:: max(1, len(rows) // 10)]:
        equal(f"show {identifier}", answer(parts.show, identifier), answer(one.show, identifier))
        equal(f"same {text}", answer(lambda: parts.same(text).hits), answer(lambda: one.same(text).as_array()))
        similar = answer(lambda: parts.similar(text, 1, 2, 20).likes)
        equal(f"similar {text}", similar, answer(lambda: one.similar(text, 1, 2, 20)[0]))


def main(folder, rows):
    files = chemdb_dask.part_files(os.path.join(folder, "part"), 4)
    one_file = os.path.join(folder, "one")
    chemdb.init(one_file)
    with LocalCluster(n_workers=4, threads_per_worker=1, dashboard_address=None) as cluster, Client(cluster) as client:
        chemdb_dask.make(client, files)
        with chemdb_dask.Parts(client, files) as parts, chemdb.run(one_file) as one:
            expected = one.load(rows, progress=None)
            try:
                parts.load(interrupted(rows, parts), progress=None)
                sys.exit("a worker ended in the middle of a load, and no error came")
            except chemdb_dask.PartFailed as error:
                print("the load stopped, since the worker of part", error.part, "was ended")
            loaded = parts.load(rows, again=True, progress=None)
            equal("registered", loaded.registered, expected.registered)
            equal("refused", [failed[:3] for failed in loaded.refused], [failed[:3] for failed in expected.refused])
            print("loaded again:", loaded.registered, "registered,", len(loaded.refused), "refused")
            compare(parts, one, rows)
            print("each answer of four parts is that of one store")

            end_worker(parts, 2)
            try:
                parts.search("C=O")
                sys.exit("a worker ended, and a search was answered by the other parts")
            except chemdb_dask.PartFailed as error:
                print("a search was an error, since the worker of part", error.part, "was ended")
            parts._ask(3, "call", "kill")
            try:
                parts.same("C")
                sys.exit("a program ended, and a lookup was answered by the other parts")
            except chemdb_dask.PartFailed as error:
                print("a lookup was an error, since the program of part", error.part, "was ended")
            compare(parts, one, rows)
            print("the next ones are answered as before")

            try:
                parts.register_new(999_999_998, rows[0][1])
                sys.exit("a structure was registered twice")
            except chemdb.RefusedSame as error:
                equal("the same structure", error.identifier, one.same(rows[0][1]).as_array()[0])
            parts.register_new(999_999_998, "C1CC1C1CC1C1CC1[Hg]")
            equal("a new structure", list(parts.same("[Hg]C1CC1C1CC1C1CC1").hits), [999_999_998])
            for call, kind in ((lambda: parts.search("C("), chemdb.RefusedSmartsSyntax),
                               (lambda: parts.show(999_999_999), chemdb.RefusedAbsent)):
                try:
                    call()
                    sys.exit(f"{kind.__name__} was not raised")
                except kind:
                    pass
        with chemdb_dask.Parts(client, files) as parts:
            equal("after a restart", sum(stats.live for stats in parts.stats()), expected.registered + 1)
        print("opened again, all are there")


if __name__ == "__main__":
    logging.disable(logging.CRITICAL)  # dask's words on the workers that are ended here
    main(sys.argv[1], catalogue(sys.argv[2]) if len(sys.argv) > 2 else generated(2000))
