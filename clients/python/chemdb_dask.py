"""A catalogue in parts: one store on each worker of a dask cluster (dask.distributed, Debian's python3-distributed).

    from distributed import Client
    import chemdb_dask

    files = chemdb_dask.part_files("/srv/catalogue", 4)
    with Client("scheduler:8786") as client:
        chemdb_dask.make(client, files)
        with chemdb_dask.Parts(client, files) as parts:
            parts.load([(101, "CC(=O)Cl"), (102, "CCO")])
            print(parts.search("C=O").hits)

A structure is in part identifier % N of N. A search goes to all parts, and each answers exactly for its own version.
If a part fails, the whole search is an error. A part whose worker is lost is opened again by the next call, on another
worker; what was answered as registered is there.
"""

from __future__ import annotations

import os
import pickle
import threading
import time
import uuid
from array import array
from collections import deque
from fractions import Fraction
from itertools import chain, islice
from typing import Any, Deque, Dict, Iterable, Iterator, List, NamedTuple, Optional, Sequence, Tuple

from distributed import Client

import chemdb

PATIENCE = 30.0  # seconds for a worker to come, and for the program of a lost one to end
BATCH = 5000  # rows that a part is sent at once

Rows = List[Tuple[int, int, str]]  # number in the load, identifier, SMILES


class PartFailed(chemdb.ChemDBError):
    """A part did not answer: `part` is its number, `cause` is the reason. The next call opens it again."""

    def __init__(self, part: int, file: str, cause: str) -> None:
        super().__init__(part, file, cause)
        self.part, self.file, self.cause = part, file, cause

    def __str__(self) -> str:
        return f"part {self.part}, {self.file}: {self.cause}"


class Found(NamedTuple):
    """The hits of all parts, ascending, four bytes each, and the version of each part that they are exact for."""

    hits: array[int]
    versions: List[int]
    tried: int


class Similar(NamedTuple):
    """The most similar structures of all parts, and the version of each part that they are exact for."""

    likes: List[chemdb.Like]
    versions: List[int]
    scored: int


def part_files(stem: str, count: int) -> List[str]:
    """The names of `count` parts: STEM-0-of-4, STEM-1-of-4 and so on. They have the number of parts, which is fixed."""
    return [f"{stem}-{part}-of-{count}" for part in range(count)]


class Part:
    """A store that is open on a worker. It stays there: an actor."""

    def __init__(self, file: str, program: Optional[str], options: Dict[str, int]) -> None:
        latest = time.monotonic() + PATIENCE
        while True:
            try:
                self.db = chemdb.run(file, program, **options)
                return
            except chemdb.Ended as error:
                # Perhaps the program of a worker that was lost has the store open, and is about to end.
                if error.status != 5 or not os.path.exists(file) or time.monotonic() > latest:
                    raise
            time.sleep(0.2)

    def pid(self) -> int:
        """The process of the worker."""
        return os.getpid()

    def close(self) -> None:
        self.db.close()

    def load(self, pickled: bytes, again: bool) -> chemdb.Loaded:
        """Registers rows. They come as bytes, since dask hands a list on element by element."""
        rows: Rows = pickle.loads(pickled)
        registered, refused, faults = self.db.load([row[1:] for row in rows], progress=None)
        left = []
        for failed in refused:
            _, identifier, text, error = failed
            if again and isinstance(error, chemdb.RefusedKnown) and self.db.show(identifier).text == text:
                registered += 1
            else:
                left.append(failed)
        # The numbers are those of the whole load.
        for some in (left, faults):
            some[:] = [failed._replace(number=rows[failed.number - 1][0]) for failed in some]
        return chemdb.Loaded(registered, left, faults)

    def look(self, kind: str, text: str) -> Tuple[array[int], chemdb.End]:
        """The hits of `search` or `same`."""
        hits = self.db.search(text) if kind == "search" else self.db.same(text)
        return hits.as_array(), hits.end

    def call(self, method: str, *words: Any) -> Any:
        """A method of the session whose answer is small."""
        return getattr(self.db, method)(*words)


def make(client: Client, files: Sequence[str], program: Optional[str] = None, hosts: Sequence[str] = ()) -> None:
    """Makes the empty stores, each on its host if these are given. Raises chemdb.Ended for a file that has bytes."""
    _upload(client)
    made = [client.submit(chemdb.init, file, program, pure=False, key=f"make-{uuid.uuid4()}",
                          workers=[hosts[part]] if hosts else None) for part, file in enumerate(files)]
    for future in made:
        future.result()


def _upload(client: Client) -> None:
    """Gives the workers, and those that come later, this module and the client."""
    for module in (chemdb.__file__, __file__):
        client.upload_file(module)


class Parts:
    """The stores of a catalogue, each open on a worker. Only this has them open, so all changes go through it.

    `hosts` names the machine of each file, if not each worker can reach all files. `timeout` is how many seconds an
    answer may take. Threads may share it.
    """

    def __init__(self, client: Client, files: Sequence[str], program: Optional[str] = None, hosts: Sequence[str] = (),
                 timeout: Optional[float] = None, **options: int) -> None:
        self.client, self.files, self.program, self.hosts = client, list(files), program, list(hosts)
        self.timeout, self.options = timeout, options
        self._actors: List[Any] = [None] * len(self.files)
        self._workers: List[str] = [""] * len(self.files)
        self._opening = threading.RLock()
        self._changing = threading.RLock()
        _upload(client)
        try:
            self.versions()
        except BaseException:
            self.close()
            raise

    # -- parts and workers

    def __len__(self) -> int:
        return len(self.files)

    def part_of(self, identifier: int) -> int:
        return identifier % len(self.files)

    def _worker(self, part: int) -> str:
        """The worker with the fewest parts, of those on the part's host; waits until there is one."""
        latest = time.monotonic() + PATIENCE
        while True:
            workers = self.client.scheduler_info()["workers"]
            there = [address for address, it in workers.items() if not self.hosts or it["host"] == self.hosts[part]]
            if there:
                return min(there, key=lambda address: (self._workers.count(address), address))
            if time.monotonic() > latest:
                raise PartFailed(part, self.files[part], "there is no worker for it")
            time.sleep(0.2)

    def _actor(self, part: int) -> Any:
        """The part's actor, which is made if there is none."""
        with self._opening:
            if self._actors[part] is None:
                worker = self._worker(part)
                future = self.client.submit(Part, self.files[part], self.program, self.options, actor=True, pure=False,
                                            workers=[worker], key=f"part-{part}-{uuid.uuid4()}")
                try:
                    self._actors[part] = future.result(2 * PATIENCE)
                except Exception as error:
                    raise PartFailed(part, self.files[part], f"it could not be opened at {worker}: {error}") from error
                self._workers[part] = worker
            return self._actors[part]

    def _lose(self, part: int, actor: Any) -> None:
        with self._opening:
            if self._actors[part] is actor:
                self._actors[part], self._workers[part] = None, ""

    def _send(self, part: int, method: str, *words: Any) -> Tuple[int, Any, Any]:
        actor = self._actor(part)
        try:
            return part, actor, getattr(actor, method)(*words)
        except (OSError, ValueError) as error:
            self._lose(part, actor)
            raise PartFailed(part, self.files[part], f"its worker is lost: {error}") from error

    def _receive(self, part: int, actor: Any, future: Any) -> Any:
        try:
            return future.result(self.timeout)
        except chemdb.Ended as error:
            self._lose(part, actor)
            raise PartFailed(part, self.files[part], str(error)) from error
        except chemdb.ChemDBError:
            raise
        except Exception as error:  # of dask: the worker, its machine or the way to it is lost, or the time is over
            self._lose(part, actor)
            raise PartFailed(part, self.files[part], f"its worker is lost: {error}") from error

    def _ask(self, part: int, method: str, *words: Any) -> Any:
        return self._receive(*self._send(part, method, *words))

    def _all(self, method: str, *words: Any) -> List[Any]:
        """What each part answers. If one fails or refuses, its error is raised when all have answered."""
        return self._together([(part, method, words) for part in range(len(self.files))])

    def _together(self, calls: Sequence[Tuple[int, str, Sequence[Any]]]) -> List[Any]:
        sent, answers, errors = [], [], []
        for part, method, words in calls:
            try:
                sent.append(self._send(part, method, *words))
            except chemdb.ChemDBError as error:
                errors.append(error)
        for one in sent:
            try:
                answers.append(self._receive(*one))
            except chemdb.ChemDBError as error:
                errors.append(error)
        if errors:
            raise errors[0]
        return answers

    # -- changes

    def load(self, rows: Iterable[Tuple[int, str]], again: bool = False,
             progress: Optional[chemdb.Progress] = chemdb.bar) -> chemdb.Loaded:
        """Registers rows of identifier and SMILES.

        After PartFailed the rows may be sent once more with `again`: what is there with the text is then registered.
        """
        registered, done = 0, 0
        refused: List[chemdb.Failed] = []
        faults: List[chemdb.Failed] = []
        total = len(rows) if isinstance(rows, Sequence) else None
        with self._changing:
            for some in self._batches(rows, again):
                registered += some.registered
                refused += some.refused
                faults += some.faults
                done = registered + len(refused) + len(faults)
                if progress:
                    progress(chemdb.Step(done, total, len(refused) + len(faults), False))
        if progress:
            progress(chemdb.Step(done, total, len(refused) + len(faults), True))
        return chemdb.Loaded(registered, sorted(refused, key=_number), sorted(faults, key=_number))

    def _batches(self, rows: Iterable[Tuple[int, str]], again: bool) -> Iterator[chemdb.Loaded]:
        """Sends rows in batches, one more than is waited for, so that no part is idle."""
        source = ((number, identifier, text) for number, (identifier, text) in enumerate(rows, 1))
        sent: Deque[Tuple[int, Any, Any]] = deque()
        while True:
            batch = list(islice(source, BATCH * len(self.files)))
            waiting = len(sent)
            for part in range(len(self.files)):
                mine = [row for row in batch if self.part_of(row[1]) == part]
                if mine:
                    sent.append(self._send(part, "load", pickle.dumps(mine), again))
            for _ in range(waiting if batch else len(sent)):
                yield self._receive(*sent.popleft())
            if not batch:
                return

    def register(self, identifier: int, smiles: str) -> int:
        """Registers a structure; returns the version of its part."""
        return self._change(identifier, "register", smiles)

    def revise(self, identifier: int, smiles: str) -> int:
        return self._change(identifier, "revise", smiles)

    def withdraw(self, identifier: int) -> int:
        return self._change(identifier, "withdraw")

    def register_mol(self, identifier: int, molfile: str) -> int:
        return self._change(identifier, "register_mol", molfile)

    def register_new(self, identifier: int, smiles: str) -> int:
        """Registers the structure if no part has it. All changes go through this object, one at a time, so none has."""
        with self._changing:
            found = self.same(smiles).hits
            if found:
                raise chemdb.RefusedSame(f"refused same {found[0]}", f"register-new {identifier} {smiles}")
            return self._change(identifier, "register_new", smiles)

    def _change(self, identifier: int, method: str, *words: Any) -> int:
        with self._changing:
            version: int = self._ask(self.part_of(identifier), "call", method, identifier, *words)
            return version

    # -- looks

    def search(self, smarts: str) -> Found:
        return self._found("search", smarts)

    def same(self, smiles: str) -> Found:
        return self._found("same", smiles)

    def _found(self, kind: str, text: str) -> Found:
        answers = self._all("look", kind, text)
        # Each part's hits ascend, and sorting finds the runs and merges them.
        hits = array("I", sorted(chain.from_iterable(hits for hits, _ in answers)))
        return Found(hits, [end.version for _, end in answers], sum(end.tried for _, end in answers))

    def similar(self, smiles: str, p: int = 7, q: int = 10, most: int = 256) -> Similar:
        """At most `most` structures, the most similar first; at equal similarity the smaller identifier first."""
        answers = self._all("call", "similar", smiles, p, q, most)
        likes = sorted(chain.from_iterable(likes for likes, _ in answers),
                       key=lambda like: (-Fraction(like.common, like.all), like.identifier))
        return Similar(likes[:most], [end.version for _, end in answers], sum(end.scored for _, end in answers))

    def show(self, identifier: int) -> chemdb.Record:
        record: chemdb.Record = self._ask(self.part_of(identifier), "call", "show", identifier)
        return record

    def data(self, identifier: int, name: str) -> List[str]:
        lines: List[str] = self._ask(self.part_of(identifier), "call", "data", identifier, name)
        return lines

    def stats(self) -> List[chemdb.Stats]:
        """Those of each part."""
        return self._all("call", "stats")

    def versions(self) -> List[int]:
        return [stats.version for stats in self.stats()]

    # -- upkeep and the end

    def prune(self) -> List[int]:
        return self._all("call", "prune")

    def compact(self) -> List[int]:
        """Compacts each part to the end; returns their generations."""
        return self._all("call", "compact")

    def close(self) -> None:
        """Closes each part that is open."""
        with self._opening:
            actors, self._actors = self._actors, [None] * len(self.files)
        for actor in actors:
            if actor is not None:
                try:
                    actor.close().result(PATIENCE)
                except Exception:  # a worker that is lost has closed its store
                    pass

    def __enter__(self) -> Parts:
        return self

    def __exit__(self, *why: object) -> None:
        self.close()


def _number(failed: chemdb.Failed) -> int:
    return failed.number
