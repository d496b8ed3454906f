"""A client of chemdb in one file, of the standard library alone, for Python 3.8 and later on Linux.

    import chemdb

    with chemdb.run("reagents.db") as db:
        db.register(101, "CC(=O)Cl")
        for identifier in db.search("C=O"):
            print(identifier, db.show(identifier).text)

`run`, `mem`, `serve` and `connect` each begin sessions. A method is a line of a script (docs/formats.md of chemdb), and
returns when its reply is whole; hits come one by one. A refusal raises an exception that is named like the reply.
Threads may share a session: their lines are answered one after another.
"""

from __future__ import annotations

import contextlib
import os
import re
import secrets
import select
import signal
import socket
import subprocess
import sys
import tempfile
import threading
import time
from array import array
from collections import deque
from itertools import chain
from types import TracebackType
from typing import (
    IO, Callable, ClassVar, Deque, Dict, Iterable, Iterator, List, NamedTuple, Optional, Sequence, Tuple, Type, Union
)

Text = Union[str, bytes]
LONGEST_LINE = 65_536  # bytes of a line, without its end
MOST_RECORDS = 4096  # records of one register-sd
SENT_AHEAD = 1 << 18  # bytes of a load that wait to be sent
SD_BATCH = 1 << 24  # bytes of records that one register-sd takes from load_sd

STATUS = {
    0: "every line was answered",
    1: "the program is not built, and a store in a file is touched by the built one alone; run ./build",
    2: "the command line is not understood",
    3: "the input could not be read on; what was answered before stands",
    4: "the output could not be written; what was answered before stands",
    5: "the file could not be opened, read or written: it is missing, no regular file, may not be read or written, "
       "is open in another program, or the disk is full",
    6: "neither FILE nor FILE.2 is a store that this program reads",
    7: "the file is damaged from the byte on that is named; the records before it can be saved",
    8: "memory ran out; what was answered before stands",
    9: "the input has 4,294,967,296 bytes or more",
    10: "FILE or FILE.2 has bytes already, and was left as it is",
    11: "the store has given all its turns; start it again",
}


class ChemDBError(Exception):
    """Any error of a session."""


class Ended(ChemDBError):
    """The program ended, or the other side closed the connection; what was answered before stands.

    `status` is its exit status, negative for a signal, and None where it cannot be known. `said` is what it wrote to
    standard error.
    """

    def __init__(self, status: Optional[int], said: str = "") -> None:
        super().__init__(status, said)
        self.status, self.said = status, said

    def __str__(self) -> str:
        if self.status is None:
            return "the other side closed the connection"
        if self.status < 0:
            sentence = f"the program was ended by signal {-self.status}; what was answered before stands"
        else:
            meaning = STATUS.get(self.status, "a status without a meaning")
            sentence = f"the program ended with status {self.status}: {meaning}"
        return sentence + (f" ({self.said.splitlines()[0]})" if self.said else "")


class Answered(ChemDBError):
    """A line was answered by a refusal or a fault. `reply` is its text, `line` the line that was sent."""

    named: ClassVar[Dict[str, Type[Answered]]] = {}

    def __init_subclass__(cls) -> None:
        cls.named[re.sub("(?<=[a-z])(?=[A-Z])", " ", cls.__name__).lower()] = cls

    def __init__(self, reply: str, line: str = "") -> None:
        super().__init__(reply, line)
        self.reply, self.line = reply, line

    @property
    def number(self) -> Optional[int]:
        """The number at the reply's end: an atom as written, a molfile's line, an identifier; None without one."""
        word = self.reply.rpartition(" ")[2]
        return int(word) if word.isdigit() else None

    @property
    def code(self) -> str:
        """The reply's words without `refused` or `fault` and without a number: `smiles aromatic`."""
        return " ".join(word for word in self.reply.split(" ")[1:] if not word.isdigit())

    def __str__(self) -> str:
        line = self.line if len(self.line) <= 80 else self.line[:77] + "..."
        return f"{self.reply}, at {line!r}: {self.__doc__}"


class Refused(Answered):
    """The line was refused whole, and nothing of it is kept."""

    @property
    def position(self) -> Optional[int]:
        """The atom as written, from 0, or the molfile's line, from 1; None where the reply names none."""
        return None if isinstance(self, RefusedSame) else self.number


# fmt: off
class RefusedSyntax(Refused): "No line of a script is written so."
class RefusedId(Refused): "An identifier is a number of 1 to 999,999,999."
class RefusedLong(Refused): "A line, or a line of its molfile or record, has more than 65,536 bytes."
class RefusedSmiles(Refused): "The structure's text is no SMILES."
class RefusedSmilesSyntax(RefusedSmiles): "An unclosed bracket or branch, a blank, an unknown symbol, or no text."
class RefusedSmilesRing(RefusedSmiles): "A ring number does not pair, or joins one atom, or two that have a bond."
class RefusedSmilesLimit(RefusedSmiles): "More than 999 atoms or bonds, 12 neighbours, 256 branches, 65,536 bytes."
class RefusedSmilesAromatic(RefusedSmiles): "The atom at this place, from 0, is not aromatic; write the double bonds."
class RefusedSmarts(Refused): "The pattern is no SMARTS that is searched."
class RefusedSmartsSyntax(RefusedSmarts): "An unclosed bracket or branch, a missing operand, a blank, or no text."
class RefusedSmartsRing(RefusedSmarts): "A ring number is open at the end, or its two bond expressions differ."
class RefusedSmartsRingset(RefusedSmarts): "`R` with a count asks for a chosen set of rings; write `[R]` or `[x2]`."
class RefusedSmartsStereo(RefusedSmarts): "Structures have no configurations: leave out `@` at atoms, `/` and `\\`."
class RefusedSmartsReaction(RefusedSmarts): "Reactions are not searched."
class RefusedSmartsLimit(RefusedSmarts): "More than 4,096 bytes, 256 atoms or branches, 64 recursive parts, 8 nested."
class RefusedMolfile(Refused): "The molfile is not read."
class RefusedMolfileHeader(RefusedMolfile): "The counts line has another version, or no counts in their columns."
class RefusedMolfileQuery(RefusedMolfile): "This line, from 1, asks for a query feature, as bond types 4 to 8 do."
class RefusedMolfileColumns(RefusedMolfile): "A field of this line, from 1, is in other columns, or has no such value."
class RefusedMolfileBond(RefusedMolfile): "The bond of this line, from 1, joins no atoms, one, or two that have a bond."
class RefusedMolfileCut(RefusedMolfile): "The lines end before M  END."
class RefusedMolfileLimit(RefusedMolfile): "More than 262,144 bytes, or 12 neighbours of an atom."
class RefusedSd(Refused): "A record of an SD file is not registered."
class RefusedSdCut(RefusedSd): "The input ended before this record."
class RefusedSdLimit(RefusedSd): "The records of the line are over 67,108,864 bytes from this one on."
class RefusedKnown(Refused): "The identifier is taken, or was."
class RefusedAbsent(Refused): "Nothing was registered under the identifier."
class RefusedWithdrawn(Refused): "The identifier was withdrawn."
class RefusedData(Refused): "The record is no molfile, or has no data item of this name."
class RefusedCursor(Refused): "The cursor's name is in use (open), or no cursor has it (next, close)."
class RefusedWatch(Refused): "The watch's name is in use (watch), or no watch has it (hits, unwatch)."
class RefusedWatches(Refused): "The session watches 16 patterns."
class RefusedPins(Refused): "64 cursors are open; close one."
class RefusedFull(Refused): "The store has as many commits as it may."
class RefusedGeneration(Refused): "The store was compacted 4,294,967,295 times; load its records into a new one."


class RefusedSame(Refused):
    """A structure that is registered already has another identifier: `identifier`."""

    @property
    def identifier(self) -> int:
        return int(self.reply.rpartition(" ")[2])


class Fault(Answered): "Something that the line needs failed."
class FaultMemory(Fault): "Memory ran out; nothing was changed, and hits that came before are not all."
class FaultDisk(Fault): "The disk failed."
class FaultDiskSure(FaultDisk): "The disk failed; the change was not made, and will not appear."
class FaultDiskDoubt(FaultDisk): "The disk failed at the last step; after a crash the change may or may not be there."
# fmt: on


class End(NamedTuple):
    """The last line of an answer. A count that it does not have is None."""

    version: int
    hits: int
    tried: Optional[int] = None
    rebuilt: Optional[int] = None
    scored: Optional[int] = None


class Like(NamedTuple):
    """A structure that shares `common` of `all` bits with the given one: its similarity is common / all."""

    identifier: int
    common: int
    all: int


class Record(NamedTuple):
    """What `show` gives. `format` is `smiles`, `molfile` or `withdrawn`; a withdrawn record has no text."""

    identifier: int
    version: int
    format: str
    text: Optional[str]


class Stats(NamedTuple):
    """The version, the identifiers that are live and withdrawn, the states that are kept, and the pins."""

    version: int
    live: int
    withdrawn: int
    kept: int
    pins: int


class Failed(NamedTuple):
    """A row or record of a load that was not registered: its number, from 1, its identifier, its text, and why."""

    number: int
    identifier: int
    text: str
    error: Answered


class Loaded(NamedTuple):
    """How many were registered, and what was refused or failed."""

    registered: int
    refused: List[Failed]
    faults: List[Failed]


class Step(NamedTuple):
    """How far a load is: rows answered, of how many if known, how many failed, and whether it is the last step."""

    done: int
    total: Optional[int]
    failed: int
    last: bool


Progress = Callable[[Step], None]


def bar(step: Step) -> None:
    """Shows a load's progress if standard error is a terminal, and does nothing otherwise."""
    if not sys.stderr.isatty():
        return
    part = "" if not step.total else f"[{'#' * (30 * step.done // step.total):30}] "
    whole = "" if step.total is None else f" of {step.total:,}"
    sys.stderr.write(f"\r{part}{step.done:,}{whole}, {step.failed:,} not registered" + "\n" * step.last)
    sys.stderr.flush()


def _coded(text: Text) -> bytes:
    return text if isinstance(text, bytes) else text.encode("utf-8", "surrogateescape")


def _told(data: bytes) -> str:
    return data.decode("utf-8", "surrogateescape")


def _error(reply: bytes, line: str) -> Answered:
    """The exception of the longest name that the reply begins with."""
    words = _told(reply).split(" ")
    for count in range(len(words), 0, -1):
        kind = Answered.named.get(" ".join(words[:count]))
        if kind is not None:
            return kind(_told(reply), line)
    raise ChemDBError(f"a reply that is of no known form: {_told(reply)!r}, at {line!r}")


def molfile_lines(text: Text) -> bytes:
    """The molfile's lines up to its M  END. ValueError if it has none, or if anything stands behind it."""
    lines = _coded(text).split(b"\n")
    for at, line in enumerate(lines):
        if line.startswith(b"M  END") and len(line) - line.endswith(b"\r") <= LONGEST_LINE:
            if any(rest.strip() for rest in lines[at + 1:]):
                raise ValueError("something stands behind the molfile's M  END; register_sd takes records of SD files")
            return b"\n".join(lines[: at + 1]) + b"\n"
    raise ValueError("the molfile has no line that begins M  END")


def _record_lines(record: Text) -> bytes:
    """The record's lines with its `$$$$`. ValueError if a `$$$$` stands before its last line."""
    lines = _coded(record).split(b"\n")
    if not lines[-1]:
        lines.pop()
    if lines and lines[-1] in (b"$$$$", b"$$$$\r"):
        lines.pop()
    if b"$$$$" in lines or b"$$$$\r" in lines:
        raise ValueError("a record of an SD file has one $$$$, at its end")
    return b"".join(line + b"\n" for line in lines) + b"$$$$\n"


def sd_records(lines: Iterable[bytes]) -> Iterator[bytes]:
    """The records of an SD file that is open for bytes, each without its `$$$$`."""
    record: List[bytes] = []
    for line in lines:
        if line.rstrip(b"\n") in (b"$$$$", b"$$$$\r"):
            yield b"".join(record)
            record = []
        else:
            record.append(line)
    if any(line.strip() for line in record):
        yield b"".join(record)


class _Request:
    """A line that was sent, and what was answered so far."""

    def __init__(self, line: str, replies: int = 1, rows: Sequence[Tuple[int, int, str]] = ()) -> None:
        self.line, self.left, self.rows = line, replies, rows
        self.hits = array("I")
        self.likes: List[Like] = []
        self.last: List[bytes] = []
        self.body: List[bytes] = []
        self.body_left = 0
        self.wanted = True  # whether somebody reads the hits

    @property
    def done(self) -> bool:
        return self.left == 0 and self.body_left == 0

    def take_hits(self, lines: bytes) -> bool:
        """Takes the lines at once if each of them is a hit of this request; returns whether they are."""
        if self.body_left or not lines.startswith(b"hit ") or lines.count(b"\nhit ") != lines.count(b"\n") - 1:
            return False
        if self.wanted:
            self.hits.extend(map(int, lines.replace(b"hit ", b"").split()))
        return True

    def take(self, line: bytes) -> None:
        if self.body_left:
            self.body.append(line)
            self.body_left -= 1
        elif line.startswith(b"hit "):
            if self.wanted:
                self.hits.append(int(line[4:]))
        elif line.startswith(b"like "):
            self.likes.append(Like(*map(int, line[5:].split(b" "))))
        else:
            # If the identifiers of a register-sd are refused, this is its only reply.
            self.left = 0 if line == b"refused id" else self.left - 1
            self.last.append(line)
            words = line.split(b" ")
            if words[0] == b"data" or words[0] == b"record" and words[4] == b"molfile":
                self.body_left = int(words[-1])

    def words(self, *first: str) -> List[str]:
        """The words of the last line, which begins with one of `first`; a refusal or fault is raised."""
        words = _told(self.last[-1]).split(" ")
        if words[0] not in first:
            raise _error(self.last[-1], self.line)
        return words

    def end(self) -> End:
        """The numbers of an answer's last line."""
        words = self.words("end")
        count = dict(zip(words[1::2], map(int, words[2::2])))
        return End(count["at"], count["hits"], count.get("tried"), count.get("rebuilt"), count.get("scored"))


class _Closed(Exception):
    """Nothing more comes from the other side."""


class _Wire:
    """Bytes to and from a session. While it waits for a reply it sends what it can, so no full pipe holds it."""

    def __init__(self, to: int, back: int, over: Callable[[], bool]) -> None:
        self.to, self.back, self.over = to, back, over
        self.waiting = bytearray()
        self.taking = False  # whether bytes were read and not given to their request yet
        os.set_blocking(to, False)
        os.set_blocking(back, False)

    def read(self) -> bytes:
        """Waits for bytes and returns them. _Closed if none will come."""
        while True:
            poll = select.poll()
            if self.waiting and self.to != self.back:
                poll.register(self.to, select.POLLOUT)
            poll.register(self.back, select.POLLIN | (select.POLLOUT if self.waiting and self.to == self.back else 0))
            over = self.over()
            for fd, event in poll.poll(0 if over else 200):
                if self.waiting and fd == self.to and event & (select.POLLOUT | select.POLLERR):
                    self._send()
                if fd == self.back and event & (select.POLLIN | select.POLLHUP | select.POLLERR):
                    return self._receive()
            if over:
                raise _Closed

    def _send(self) -> None:
        try:
            del self.waiting[: os.write(self.to, self.waiting[:65536])]
        except BlockingIOError:
            pass
        except OSError:  # the other side reads no more: replies that it wrote before can still be read
            self.waiting.clear()

    def _receive(self) -> bytes:
        self.taking = True
        try:
            data = os.read(self.back, 65536)
        except BlockingIOError:
            return b""
        except OSError:
            raise _Closed from None
        if not data:
            raise _Closed
        return data

    def reopen(self, to: int) -> None:
        os.close(self.to)
        self.to = to

    def close(self) -> None:
        for fd in {self.to, self.back}:
            os.close(fd)


class _Program:
    """A program that was started here. What it says on standard error is kept for `Ended`."""

    def __init__(self, words: Sequence[str], program: Optional[str], stdin: int, stdout: int) -> None:
        self.errors: IO[bytes] = tempfile.TemporaryFile()
        self.said = ""
        environment = dict(os.environ)
        # Searches in large stores are faster in pages of 2 MiB.
        environment.setdefault("GLIBC_TUNABLES", "glibc.malloc.hugetlb=1")
        command = [program or os.environ.get("CHEMDB") or "chemdb", *words]
        # In a session of its own, so that a Ctrl-C reaches the client alone, which then ends the program.
        try:
            self.process = subprocess.Popen(command, stdin=stdin, stdout=stdout, stderr=self.errors, env=environment,
                                            start_new_session=True)
        except OSError:
            self.errors.close()
            raise

    def over(self) -> bool:
        return self.process.poll() is not None

    def ended(self, seconds: Optional[float] = None) -> Ended:
        """Waits for the program's end. TimeoutExpired if it does not come in the time."""
        status = self.process.wait(seconds)
        if not self.errors.closed:
            self.errors.seek(0)
            self.said = _told(self.errors.read(10_000)).strip()
            self.errors.close()
        return Ended(status, self.said)

    def kill(self) -> None:
        """Ends the program and what it started. A commit that was answered is not lost."""
        if not self.over():
            os.killpg(self.process.pid, signal.SIGKILL)


class Hits(Iterator[int]):
    """The hits of one line as they come, ascending. It may be left early: the rest is then read and dropped.

    Other lines may be asked between two hits; what is left of this answer is kept meanwhile.
    """

    def __init__(self, db: ChemDB, request: _Request) -> None:
        self._db, self._request = db, request
        self._ready: Iterator[int] = iter(())

    def __del__(self) -> None:
        self._request.wanted = False

    def __next__(self) -> int:
        hit = next(self._ready, None)
        if hit is None:
            self._ready = iter(self._more())
            hit = next(self._ready)
        return hit

    def _more(self) -> array[int]:
        """The hits that came since; none after the last. Raises what the answer ends with otherwise."""
        request = self._request
        with self._db._lock:
            while not request.hits and not request.done:
                self._db._pump()
            came, request.hits = request.hits, array("I")
        if not came:
            request.words("end")
        return came

    def as_array(self) -> array[int]:
        """All hits that are left, four bytes each."""
        rest = array("I", self._ready)
        while True:
            came = self._more()
            if not came:
                return rest
            rest.extend(came)

    @property
    def end(self) -> End:
        """The answer's last line; waits for it."""
        self._db._finish(self._request)
        return self._request.end()


class Page(NamedTuple):
    """A page of a cursor, and the answer's end behind the last one."""

    hits: array[int]
    end: Optional[End]


class ChemDB:
    """A session. It ends where its `with` block does; what was answered `ok` is then in the store."""

    def __init__(self, wire: _Wire, program: Optional[_Program], owner: bool = True) -> None:
        self._wire, self._program, self._owner = wire, program, owner
        self._lock = threading.RLock()
        self._pending: Deque[_Request] = deque()
        self._rest = b""
        self._broken: Optional[str] = None

    # -- the dialogue

    def _pump(self) -> None:
        """Reads once, and gives each line to the request that it answers."""
        self._check()
        try:
            came = self._wire.read()
            *lines, self._rest = (self._rest + came).split(b"\n")
            if lines and not (self._pending and self._pending[0].take_hits(b"\n".join(lines) + b"\n")):
                for line in lines:
                    if not self._pending:
                        raise ChemDBError(f"a reply that no line asked for: {_told(line)!r}")
                    self._pending[0].take(line)
                    if self._pending[0].done:
                        self._pending.popleft()
            self._wire.taking = False
        except _Closed:
            self._broken = "it has ended"
            raise self._ended() from None

    def _check(self) -> None:
        if self._wire.taking:  # an interruption came between bytes and the request that they answer
            self._broken = self._broken or "it was interrupted in a reply; close it"
        if self._broken:
            raise ChemDBError(f"this session cannot be used: {self._broken}")

    def _ended(self) -> Ended:
        """Why nothing more comes. A program that serves other ends too may go on."""
        try:
            return self._program.ended(None if self._owner else 1) if self._program else Ended(None)
        except subprocess.TimeoutExpired:
            return Ended(None)

    def _begin(self, request: _Request, body: bytes = b"") -> _Request:
        line = _coded(request.line)
        if not line or b"\n" in line:
            raise ValueError("a line has one byte at least, and no line feed")
        with self._lock:
            self._check()
            self._pending.append(request)
            self._wire.waiting += line + b"\n" + body
        return request

    def _finish(self, request: _Request) -> _Request:
        with self._lock:
            while not request.done:
                self._pump()
        return request

    def _ask(self, line: str, *first: str, body: bytes = b"") -> List[str]:
        """The words of the only reply, which begins with one of `first`."""
        return self._finish(self._begin(_Request(line), body)).words(*first)

    def _hits(self, line: str) -> Hits:
        """Waits for the first reply, so that a refusal is raised here."""
        request = self._begin(_Request(line))
        with self._lock:
            while not request.hits and not request.done:
                self._pump()
        if request.done:
            request.words("end")
        return Hits(self, request)

    def _commit(self, line: str, body: bytes = b"") -> int:
        return int(self._ask(line, "ok", body=body)[1])

    def _stream(self, requests: Iterable[Tuple[_Request, bytes]]) -> Iterator[_Request]:
        """Sends requests while replies to earlier ones come, and returns each when it is answered."""
        source, more = iter(requests), True
        sent: Deque[_Request] = deque()
        while more or sent:
            with self._lock:
                while more and len(self._wire.waiting) < SENT_AHEAD:
                    request, body = next(source, (None, b""))
                    more = request is not None
                    if request is not None:
                        sent.append(self._begin(request, body))
                if sent and not sent[0].done:
                    self._pump()
            while sent and sent[0].done:
                yield sent.popleft()

    def _join(self) -> None:
        """Makes a beginning at an end that others used: what they left is refused, and what they did not read dropped.

        A line that is too long is refused with the half line, molfile or record that it joins. Replies are dropped up
        to those of lines that no other client sends: lines of two kinds, in a random order.
        """
        kinds = [("close", b"refused cursor"), ("unwatch", b"refused watch")]
        chosen = [secrets.choice(kinds) for _ in range(48)]
        name = secrets.token_hex(16)
        self._wire.waiting += b"-" * (LONGEST_LINE + 1) + b"\nM  END\n" + b"$$$$\n" * MOST_RECORDS
        self._wire.waiting += "".join(f"{word} {name}\n" for word, _ in chosen).encode()
        expected = b"".join(reply + b"\n" for _, reply in chosen)
        came = b""
        try:
            while not came.endswith(expected):
                came = came[-len(expected):] + self._wire.read()
            self._wire.taking = False
        except _Closed:
            raise Ended(None) from None

    # -- lines that change the store: each returns the store's version

    def register(self, identifier: int, smiles: str) -> int:
        return self._commit(f"register {identifier} {smiles}")

    def register_new(self, identifier: int, smiles: str) -> int:
        """Registers the structure if no identifier has it. RefusedSame has the one that does."""
        return self._commit(f"register-new {identifier} {smiles}")

    def revise(self, identifier: int, smiles: str) -> int:
        return self._commit(f"revise {identifier} {smiles}")

    def register_mol(self, identifier: int, molfile: Text) -> int:
        return self._commit(f"register-mol {identifier}", molfile_lines(molfile))

    def revise_mol(self, identifier: int, molfile: Text) -> int:
        return self._commit(f"revise-mol {identifier}", molfile_lines(molfile))

    def withdraw(self, identifier: int) -> int:
        return self._commit(f"withdraw {identifier}")

    def register_sd(self, identifier: int, records: Sequence[Text]) -> List[Union[int, Answered]]:
        """Registers 1 to 4,096 records under `identifier` and those behind it: for each its version, or why not."""
        request = self._finish(self._begin(*self._sd(identifier, records)))
        if len(request.last) < len(records):
            request.words("ok")
        line = request.line
        return [int(last[3:]) if last.startswith(b"ok ") else _error(last, line) for last in request.last]

    def _sd(self, identifier: int, records: Sequence[Text], first: int = 1) -> Tuple[_Request, bytes]:
        if not 1 <= len(records) <= MOST_RECORDS:
            raise ValueError("a register-sd takes 1 to 4,096 records")
        rows = [(first + n, identifier + n, _told(_coded(record))) for n, record in enumerate(records)]
        request = _Request(f"register-sd {identifier} {len(records)}", len(records), rows)
        return request, b"".join(map(_record_lines, records))

    # -- many at once

    def load(self, rows: Iterable[Tuple[int, str]], new: bool = False, progress: Optional[Progress] = bar) -> Loaded:
        """Registers rows of identifier and SMILES, and does not wait for each reply; with `new` as `register_new`."""
        word = "register-new" if new else "register"
        return self._load(((_Request(f"{word} {identifier} {smiles}", rows=[(number, identifier, smiles)]), b"")
                           for number, (identifier, smiles) in enumerate(rows, 1)),
                          len(rows) if isinstance(rows, Sequence) else None, progress)

    def load_sd(self, lines: Iterable[bytes], identifier: int = 1, progress: Optional[Progress] = bar) -> Loaded:
        """Registers an SD file that is open for bytes, its records under `identifier` and those behind it."""
        return self._load(self._batches(sd_records(lines), identifier), None, progress)

    def _batches(self, records: Iterable[bytes], identifier: int) -> Iterator[Tuple[_Request, bytes]]:
        batch: List[bytes] = []
        number = size = 0
        for record in records:
            batch.append(record)
            size += len(record)
            if len(batch) == 1000 or size >= SD_BATCH:
                yield self._sd(identifier + number, batch, number + 1)
                number, batch, size = number + len(batch), [], 0
        if batch:
            yield self._sd(identifier + number, batch, number + 1)

    def _load(
        self, requests: Iterable[Tuple[_Request, bytes]], total: Optional[int], progress: Optional[Progress]
    ) -> Loaded:
        done = registered = 0
        refused: List[Failed] = []
        faults: List[Failed] = []
        shown = 0.0
        for request in self._stream(requests):
            last = request.last * len(request.rows) if len(request.last) < len(request.rows) else request.last
            for reply, row in zip(last, request.rows):
                done += 1
                if reply.startswith(b"ok "):
                    registered += 1
                else:
                    error = _error(reply, request.line)
                    (faults if isinstance(error, Fault) else refused).append(Failed(*row, error))
            if progress and time.monotonic() - shown > 0.1:
                shown = time.monotonic()
                progress(Step(done, total, len(refused) + len(faults), False))
        if progress:
            progress(Step(done, total, len(refused) + len(faults), True))
        return Loaded(registered, refused, faults)

    # -- lines that look

    def show(self, identifier: int) -> Record:
        request = self._finish(self._begin(_Request(f"show {identifier}")))
        words = request.words("record", "withdrawn")
        if words[0] == "withdrawn":
            return Record(int(words[1]), int(words[3]), "withdrawn", None)
        text = words[5] if words[4] == "smiles" else "".join(_told(line) + "\n" for line in request.body)
        return Record(int(words[1]), int(words[3]), words[4], text)

    def data(self, identifier: int, name: str) -> List[str]:
        """The lines of the record's first data item of this name."""
        request = self._finish(self._begin(_Request(f"data {identifier} {name}")))
        request.words("data")
        return [_told(line) for line in request.body]

    def search(self, smarts: str) -> Hits:
        return self._hits(f"search {smarts}")

    def same(self, smiles: str) -> Hits:
        return self._hits(f"same {smiles}")

    def similar(self, smiles: str, p: int = 7, q: int = 10, most: int = 256) -> Tuple[List[Like], End]:
        """At most `most` structures, the most similar first, whose similarity is at least p / q."""
        request = self._finish(self._begin(_Request(f"similar {p} {q} {most} {smiles}")))
        end = request.end()
        return request.likes, end

    def stats(self) -> Stats:
        return Stats(*map(int, self._ask("stats", "stats")[2::2]))

    # -- cursors and watches, by names of the session

    def open(self, name: str, smarts: str) -> int:
        """Opens a cursor, and returns the version that it sees."""
        return int(self._ask(f"open {name} {smarts}", "opened")[1])

    def next(self, name: str) -> Page:
        request = self._finish(self._begin(_Request(f"next {name}")))
        return Page(request.hits, request.end() if request.words("more", "end")[0] == "end" else None)

    def close_cursor(self, name: str) -> None:
        self._ask(f"close {name}", "closed")

    def watch(self, name: str, smarts: str) -> End:
        words = self._ask(f"watch {name} {smarts}", "watching")
        return End(int(words[1]), int(words[3]))

    def hits(self, name: str) -> Hits:
        return self._hits(f"hits {name}")

    def unwatch(self, name: str) -> None:
        self._ask(f"unwatch {name}", "unwatched")

    # -- upkeep

    def prune(self) -> int:
        return int(self._ask("prune", "pruned")[1])

    def compact(self, step: Optional[Callable[[int], None]] = None) -> int:
        """Compacts to the end, and returns the generation. `step` is called with what is left after each step."""
        while True:
            words = self._ask("compact", "compacting", "compacted")
            if words[0] == "compacted":
                return int(words[1])
            if step:
                step(int(words[1]))

    def ask(self, line: str, body: Text = b"") -> List[str]:
        """The reply's lines to any line; a refusal is one of them. `body` is the line's molfile, or its records."""
        text, replies = b"", 1
        sd = re.fullmatch("register-sd [^ ]* ([1-9][0-9]{0,3})", line)
        if line.partition(" ")[0] in ("register-mol", "revise-mol"):
            text = molfile_lines(body)
        elif sd and int(sd[1]) <= MOST_RECORDS:
            replies = int(sd[1])
            records = list(sd_records(part + b"\n" for part in _coded(body).split(b"\n")))
            if len(records) != replies:
                raise ValueError(f"{replies} records are announced, and there are {len(records)}")
            text = b"".join(map(_record_lines, records))
        elif body:
            raise ValueError("a molfile stands behind register-mol and revise-mol, and records behind register-sd")
        if len(_coded(line)) > LONGEST_LINE and text:
            raise ValueError("a line that is too long takes no molfile and no records")
        request = self._finish(self._begin(_Request(line, replies), text))
        likes = [f"like {like.identifier} {like.common} {like.all}" for like in request.likes]
        return [f"hit {hit}" for hit in request.hits] + likes + [_told(last) for last in request.last + request.body]

    # -- the end

    def kill(self) -> None:
        """Ends the program at once, also while another thread waits for a reply."""
        if self._program:
            self._program.kill()

    def close(self) -> None:
        """Waits for the replies that are due, and for the program's end. Raises Ended if its status is not 0."""
        with self._lock:
            if self._broken != "it is closed":
                try:
                    while self._pending and not self._broken:
                        self._pump()
                finally:
                    self._shut()
                if self._program and self._owner and (ended := self._program.ended()).status:
                    raise ended

    def _shut(self) -> None:
        if self._broken != "it is closed":
            self._broken = "it is closed"
            self._wire.close()

    def __del__(self) -> None:
        self._shut()

    def __enter__(self) -> ChemDB:
        return self

    def __exit__(self, kind: Optional[Type[BaseException]], error: object, trace: Optional[TracebackType]) -> None:
        if kind is None:
            self.close()
            return
        due = bool(self._pending)
        self._shut()
        if self._program and self._owner:
            if due:
                self._program.kill()
            self._program.ended()


def _words(command: str, file: str, workers: Optional[int], page: Optional[int], commits: Optional[int]) -> List[str]:
    """The program's words. A file may begin with a dash."""
    options = {"--workers": workers, "--page": page, "--commits": commits}
    given = [f"{option}={number}" for option, number in options.items() if number is not None]
    return [*given, command, *(["--", file] if file else [])]


def _started(words: Sequence[str], program: Optional[str]) -> ChemDB:
    """Starts the program behind two pipes, and waits until the store is open."""
    stdin, to = os.pipe()
    back, stdout = os.pipe()
    try:
        started = _Program(words, program, stdin, stdout)
    except BaseException:
        os.close(to)
        os.close(back)
        raise
    finally:
        os.close(stdin)
        os.close(stdout)
    return _opened(ChemDB(_Wire(to, back, started.over), started))


def _opened(db: ChemDB) -> ChemDB:
    try:
        db.stats()
    except BaseException as error:
        db.__exit__(type(error), error, None)
        raise
    return db


def init(file: str, program: Optional[str] = None) -> None:
    """Makes an empty store in a file that is not there or is empty. Raises Ended otherwise."""
    ended = _Program(["init", "--", file], program, subprocess.DEVNULL, subprocess.DEVNULL).ended()
    if ended.status:
        raise ended


def run(file: str, program: Optional[str] = None, workers: Optional[int] = None, page: Optional[int] = None,
        commits: Optional[int] = None) -> ChemDB:
    """A session of a program that this starts over the store in the file. Raises Ended if it cannot be opened.

    The program is `program`, or else what the variable CHEMDB names, or else `chemdb`.
    """
    return _started(_words("run", file, workers, page, commits), program)


def mem(program: Optional[str] = None, workers: Optional[int] = None, page: Optional[int] = None,
        commits: Optional[int] = None) -> ChemDB:
    """A session of a program that this starts over a store in memory, which ends with it."""
    return _started(_words("mem", "", workers, page, commits), program)


@contextlib.contextmanager
def serve(file: str, ends: int, program: Optional[str] = None, workers: Optional[int] = None,
          page: Optional[int] = None, commits: Optional[int] = None) -> Iterator[List[ChemDB]]:
    """1 to 16 sessions at the same time over one store, of one program, through named pipes."""
    with tempfile.TemporaryDirectory(prefix="chemdb") as folder:
        names = [os.path.join(folder, f"end{number}") for number in range(1, ends + 1)]
        pipes: List[Tuple[int, int]] = []
        for name in names:
            os.mkfifo(name, 0o600)
            os.mkfifo(name + ".out", 0o600)
            # Both ways of it are open, so that neither this nor the program waits for the other.
            to = os.open(name, os.O_RDWR | os.O_NONBLOCK)
            pipes.append((to, os.open(name + ".out", os.O_RDONLY | os.O_NONBLOCK)))
        words = _words("serve", file, workers, page, commits) + names
        try:
            started = _Program(words, program, subprocess.DEVNULL, subprocess.DEVNULL)
        except BaseException:
            for fd in chain.from_iterable(pipes):
                os.close(fd)
            raise
        sessions = [ChemDB(_Wire(to, back, started.over), started, False) for to, back in pipes]
        try:
            for session, name in zip(sessions, names):
                session.stats()
                # Now the program reads, and it has to see the end of what this writes.
                session._wire.reopen(os.open(name, os.O_WRONLY | os.O_NONBLOCK))
            yield sessions
            for session in sessions:
                session.close()
        except BaseException:
            for session in sessions:
                session._shut()
            started.kill()
            raise
        ended = started.ended()
        if ended.status:
            raise ended


def connect(path: str) -> ChemDB:
    """A session at a Unix socket, behind which stands an end of `serve` (docs/clients.md).

    What an earlier client left there, half a line, molfile or reply, is refused or dropped first.
    """
    with socket.socket(socket.AF_UNIX, socket.SOCK_STREAM) as unix:
        unix.connect(path)
        fd = unix.detach()
    db = ChemDB(_Wire(fd, fd, lambda: False), None)
    try:
        db._join()
    except BaseException:
        db._shut()
        raise
    return db
