"""Reads the two files of a store, without the program and without its lock.

The format is that of docs/formats.md, "Stores". A file is read in pieces, so that a store of any size needs little
memory. What is damaged is found in the order in which the program finds it: first a record that is cut or is none,
wherever it stands, then the first record that may not follow those before it. Whether a text has a structure is the
program's to say; a text that certainly has none is damage here too.
"""
import os
import re
import struct
from array import array
from heapq import merge
from typing import Callable, Dict, Iterator, List, NamedTuple, Optional, Tuple

OPEN = 0x5A
FORMAT_1 = b"\x5aCHEMDB1"
FORMAT_2 = b"\x5aCHEMDB2"
REGISTER, REVISE, WITHDRAW, BASE_LIVE, BASE_WITHDRAWN = 1, 2, 3, 4, 5
SMILES, MOLFILE = 1, 2
LONGEST_PAYLOAD = 1 << 20
LONGEST_SMILES = 65_536
LONGEST_MOLFILE = 262_144
GREATEST_ID = 999_999_999
MOST_COMMITS = 16_777_215
PIECE = 1 << 20

SMILES_BYTES = re.compile(rb"[A-Za-z0-9\[\]()=#$:/\\.\-+@%*]+\Z")
MOLFILE_END = re.compile(rb"^M  END", re.MULTILINE)


class NoStore(Exception):
    """Neither file is open as a store, or the file cannot be read. The text says why."""


class Damage(Exception):
    """The file is damaged from this byte on."""

    def __init__(self, place: int, why: str):
        super().__init__(why)
        self.place = place
        self.why = why


class Entry(NamedTuple):
    """A commit, or a record of the base."""

    place: int
    """Where it begins: the gate of a commit, the length of a base record."""
    end: int
    """Where the next one begins."""
    kind: int
    """`REGISTER`, `REVISE`, `WITHDRAW`, `BASE_LIVE` or `BASE_WITHDRAWN`."""
    id: int
    version: int
    """Of a base record: the version of the commit that made it so. 0 of a commit."""
    form: int
    """`SMILES` or `MOLFILE`; 0 where there is no text."""
    text: bytes

    @property
    def is_base(self) -> bool:
        return self.kind in (BASE_LIVE, BASE_WITHDRAWN)

    @property
    def withdraws(self) -> bool:
        return self.kind in (WITHDRAW, BASE_WITHDRAWN)


class StoreFile:
    """One of the two files, open for reading."""

    def __init__(self, path: str):
        self.path = path
        self.file = os.open(path, os.O_RDONLY | getattr(os, "O_CLOEXEC", 0))
        self.size = os.fstat(self.file).st_size
        self.piece = b""
        self.piece_at = 0
        self.head = self.bytes_at(0, 20)
        self.format = 0
        self.generation = self.base_version = self.base_count = 0
        self.begin = 0
        if self.head[:8] == FORMAT_1:
            self.format, self.begin = 1, 8
        elif self.head[:8] == FORMAT_2 and len(self.head) == 20:
            self.format, self.begin = 2, 20
            self.generation, self.base_version, self.base_count = struct.unpack("<III", self.head[8:])

    @property
    def is_open(self) -> bool:
        return self.format > 0

    def bytes_at(self, place: int, count: int) -> bytes:
        """The bytes at a place; fewer where the file ends."""
        start = place - self.piece_at
        if start < 0 or start + count > len(self.piece):
            self.piece = os.pread(self.file, max(count, PIECE), place)
            self.piece_at, start = place, 0
        return self.piece[start : start + count]

    def changed(self) -> bool:
        """Whether the head of the file is another by now: a program began a copy there, or ended one."""
        return os.pread(self.file, 20, 0) != self.head

    def close(self) -> None:
        os.close(self.file)

    def base_at(self, place: int) -> Optional[Entry]:
        """The base record at a place; `None` where none is whole there."""
        return entry_of(place, 4, self.payload_at(place), (BASE_LIVE, BASE_WITHDRAWN))

    def commit_at(self, place: int) -> Optional[Entry]:
        """The commit behind the gate at a place, open or not; `None` where none is whole there."""
        return entry_of(place, 5, self.payload_at(place + 1), (REGISTER, REVISE, WITHDRAW))

    def payload_at(self, place: int) -> Optional[bytes]:
        head = self.bytes_at(place, 4)
        if len(head) < 4:
            return None
        length = struct.unpack("<I", head)[0]
        if not 0 < length <= LONGEST_PAYLOAD:
            return None
        payload = self.bytes_at(place + 4, length)
        return payload if len(payload) == length else None

    def entry_at(self, place: int, is_base: bool) -> Entry:
        """An entry that was found at this place before."""
        entry = self.base_at(place) if is_base else self.commit_at(place)
        if entry is None:
            raise NoStore(f"{self.path} changed while it was read; read it again")
        return entry

    def gate_at(self, place: int) -> Optional[int]:
        byte = self.bytes_at(place, 1)
        return byte[0] if byte else None

    def base_entries(self) -> Iterator[Entry]:
        """The records of the base, in order. Raises `Damage` at the first that is none."""
        if self.base_version > MOST_COMMITS:
            raise Damage(12, "the base's version is over 16,777,215")
        place, last = self.begin, 0
        for _ in range(self.base_count):
            entry = self.base_at(place)
            if entry is None:
                raise Damage(place, "a base record is cut, or is none")
            if entry.id <= last or not 1 <= entry.version <= self.base_version:
                raise Damage(place, "a base record has an identifier or a version that cannot stand there")
            yield entry
            place, last = entry.end, entry.id

    def entries(self) -> Iterator[Entry]:
        """All entries, the base's first. `end` is then the place of the gate that ends them. Raises `Damage` at the
        first place where there is no entry and no such gate."""
        place = self.begin
        for entry in self.base_entries():
            yield entry
            place = entry.end
        while True:
            gate = self.gate_at(place)
            if gate is None:
                raise Damage(place, "the file is cut: a gate is missing")
            if gate != OPEN:
                self.end = place
                return
            found = self.commit_at(place)
            if found is None:
                raise Damage(place, "a commit is cut, or is none")
            yield found
            place = found.end


def entry_of(place: int, before: int, payload: Optional[bytes], kinds: Tuple[int, ...]) -> Optional[Entry]:
    """The entry of a payload, which stands `before` bytes behind the place."""
    if payload is None or payload[0] not in kinds or len(payload) < 5:
        return None
    kind, id, rest, version = payload[0], struct.unpack("<I", payload[1:5])[0], 5, 0
    if kind in (BASE_LIVE, BASE_WITHDRAWN):
        if len(payload) < 9:
            return None
        version, rest = struct.unpack("<I", payload[5:9])[0], 9
    if not 1 <= id <= GREATEST_ID:
        return None
    end = place + before + len(payload)
    if kind in (WITHDRAW, BASE_WITHDRAWN):
        return Entry(place, end, kind, id, version, 0, b"") if len(payload) == rest else None
    if len(payload) == rest or payload[rest] not in (SMILES, MOLFILE):
        return None
    return Entry(place, end, kind, id, version, payload[rest], payload[rest + 1 :])


def text_fault(entry: Entry) -> Optional[str]:
    """Why a text certainly has no structure; `None` where it may have one."""
    if entry.form == SMILES:
        if len(entry.text) > LONGEST_SMILES:
            return "a SMILES has more than 65,536 bytes"
        if not SMILES_BYTES.match(entry.text):
            return "a SMILES is empty, or has a byte that no SMILES has"
    elif entry.form == MOLFILE:
        if len(entry.text) > LONGEST_MOLFILE:
            return "a molfile has more than 262,144 bytes"
        if not MOLFILE_END.search(entry.text):
            return "a molfile has no line that begins M  END"
    return None


class States:
    """Which identifiers are live and which are withdrawn, a byte for each, in pages of 256."""

    LIVE, WITHDRAWN = 1, 2

    def __init__(self) -> None:
        self.pages: Dict[int, bytearray] = {}
        self.live = self.withdrawn = self.version = 0

    def of(self, id: int) -> int:
        page = self.pages.get(id >> 8)
        return page[id & 255] if page else 0

    def may_follow(self, entry: Entry) -> Optional[str]:
        """Why an entry may not follow those before it; `None` where it may."""
        state = self.of(entry.id)
        if entry.is_base:
            return None
        if self.version == MOST_COMMITS:
            return "there are 16,777,215 commits before it"
        if entry.kind == REGISTER:
            return f"it registers {entry.id}, which was registered before" if state else None
        if state == self.WITHDRAWN:
            return f"it changes {entry.id}, which was withdrawn before"
        return None if state else f"it changes {entry.id}, which was not registered before"

    def add(self, entry: Entry) -> None:
        page = self.pages.setdefault(entry.id >> 8, bytearray(256))
        old, new = page[entry.id & 255], self.WITHDRAWN if entry.withdraws else self.LIVE
        page[entry.id & 255] = new
        self.live += (new == self.LIVE) - (old == self.LIVE)
        self.withdrawn += (new == self.WITHDRAWN) - (old == self.WITHDRAWN)
        if not entry.is_base:
            self.version += 1


class Found:
    """What a whole file holds: how many entries of each kind, and where each live record stands."""

    def __init__(self, file: StoreFile):
        self.file = file
        self.states = States()
        self.states.version = file.base_version
        self.base = self.commits = 0
        self.fault: Optional[Damage] = None
        """The first entry that may not follow those before it."""
        self.places = array("Q")
        """The place of each entry, doubled, and 1 more for one of the base."""
        self.order: List[array] = []
        self.tail: List[int] = []

    def add(self, entry: Entry) -> None:
        """Notes an entry. The first that may not follow is noted in `fault`."""
        why = self.states.may_follow(entry) or text_fault(entry)
        if why and self.fault is None:
            self.fault = Damage(entry.place, why)
        self.states.add(entry)
        self.base += entry.is_base
        self.commits += not entry.is_base
        self.tail.append(entry.id << 32 | len(self.places))
        self.places.append(entry.place * 2 + entry.is_base)
        if len(self.tail) >= 1 << 18:
            self.sort_tail()

    def sort_tail(self) -> None:
        self.tail.sort()
        self.order.append(array("Q", self.tail))
        self.tail = []

    def last_entries(self) -> Iterator[Entry]:
        """The last entry of each identifier, ascending; a withdrawal too."""
        self.sort_tail()
        last = -1
        for key in merge(*self.order):
            if last >= 0 and key >> 32 != last >> 32:
                yield self.entry(last & 0xFFFFFFFF)
            last = key
        if last >= 0:
            yield self.entry(last & 0xFFFFFFFF)

    def all_entries(self) -> Iterator[Entry]:
        """All entries as they stand in the file."""
        for number in range(len(self.places)):
            yield self.entry(number)

    def entry(self, number: int) -> Entry:
        place = self.places[number]
        return self.file.entry_at(place >> 1, bool(place & 1))


def read_whole(file: StoreFile) -> Found:
    """Reads a file to its end. Raises `Damage` as the program finds it."""
    found = Found(file)
    for entry in file.entries():
        found.add(entry)
    if found.fault:
        raise found.fault
    return found


def salvage(file: StoreFile, left_out: Callable[[int, int, str], None], beyond: bool = False) -> Found:
    """Reads what can be read. `left_out` is called for each range of bytes that is no entry, and why.

    A gate that is not open ends the entries, as for the program. In format 1, where a file only grows, it does not if a
    whole commit and an open gate stand behind it: then another hand closed it. In format 2 these may be left of an
    older copy; they are read if `beyond` is set.
    """
    found = Found(file)
    beyond = beyond or file.format != 2
    place, last, is_base = file.begin, 0, file.format != 1
    while place < file.size:
        entry = file.base_at(place) if is_base else None
        if entry is None:
            is_open = file.gate_at(place) == OPEN
            closed = not is_open and beyond and goes_on_behind(file, place)
            if not is_open and not closed and found.base >= file.base_count and found.places:
                end = resume(file, place + 1, is_base, last) if beyond else file.size
                if end == file.size:
                    break
            entry = file.commit_at(place) if is_open or closed else None
            if entry and not is_open:
                left_out(place, place + 1, f"the gate was not open; identifier {entry.id} behind it is read")
        if entry is None or not reads_on(file, entry):
            end = resume(file, place + 1, is_base, last)
            left_out(place, end, "no record can be read there")
            place = end
            continue
        is_base = entry.is_base
        if is_base and not is_in_order(file, entry, last):
            left_out(place, entry.end, f"a base record whose identifier is not in order: {entry.id}")
        else:
            last = entry.id
            found.add(entry)
        place = entry.end
    file.end = min(place, file.size)
    return found


def is_in_order(file: StoreFile, entry: Entry, last: int) -> bool:
    """Whether a base record's identifier may stand between that before it and that behind it."""
    behind = file.base_at(entry.end)
    return entry.id > last and not (behind is not None and last < behind.id <= entry.id)


def goes_on_behind(file: StoreFile, gate: int) -> bool:
    """Whether a whole commit with an open gate behind it stands behind a gate that is closed."""
    entry = file.commit_at(gate)
    return entry is not None and text_fault(entry) is None and file.gate_at(entry.end) == OPEN


def resume(file: StoreFile, place: int, is_base: bool, last: int) -> int:
    """The next place from which entries can be read again, or the file's end."""
    while place < file.size:
        piece = file.bytes_at(place, min(PIECE, file.size - place))
        for at, byte in enumerate(piece):
            if byte == OPEN and reads_on(file, file.commit_at(place + at)):
                return place + at
            if is_base and file.bytes_at(place + at + 3, 2) in (b"\0\4", b"\0\5"):
                entry = file.base_at(place + at)
                if entry and entry.id > last and reads_on(file, entry):
                    return place + at
        place += len(piece)
    return file.size


def reads_on(file: StoreFile, entry: Optional[Entry]) -> bool:
    """Whether an entry is one, and something that may follow stands behind it."""
    if entry is None or text_fault(entry):
        return False
    gate = file.gate_at(entry.end)
    return gate in (0, OPEN, None) or (entry.is_base and file.base_at(entry.end) is not None)


class Pair(NamedTuple):
    """The files of a store, and which of them is read."""

    files: List[Tuple[str, Optional[StoreFile]]]
    read: Optional[StoreFile]


def open_pair(path: str, alone: bool = False) -> Pair:
    """Opens FILE and FILE.2, or FILE alone. The one of the greater generation is read, and FILE where both are equal;
    none where neither is open. Raises `NoStore` where FILE is missing or a file cannot be read."""
    files: List[Tuple[str, Optional[StoreFile]]] = []
    for name in [path] if alone else [path, path + ".2"]:
        try:
            if not os.path.isfile(name) and os.path.exists(name):
                raise NoStore(f"{name} is no regular file")
            files.append((name, StoreFile(name)))
        except FileNotFoundError:
            if name == path:
                raise NoStore(f"{name} is not there") from None
            files.append((name, None))
        except OSError as error:
            raise NoStore(f"{name} cannot be read: {error.strerror}") from None
    opened = [file for _, file in files if file and file.is_open]
    return Pair(files, max(opened, key=lambda file: file.generation) if opened else None)


def holders(files: List[Tuple[str, Optional[StoreFile]]]) -> List[int]:
    """The processes that have one of the files locked, as Linux lists them; none where it lists none."""
    try:
        with open("/proc/locks", encoding="ascii", errors="replace") as locks:
            lines = [line.split() for line in locks]
    except OSError:
        return []
    wanted = set()
    for _, file in files:
        if file:
            it = os.fstat(file.file)
            wanted.add(f"{os.major(it.st_dev):02x}:{os.minor(it.st_dev):02x}:{it.st_ino}")
    return sorted({int(words[4]) for words in lines if len(words) > 5 and words[1] != "->" and words[5] in wanted})
