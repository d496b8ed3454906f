"""The lines of a script and of its replies, as docs/formats.md, "Scripts", has them."""
import os
from typing import BinaryIO, Iterator, List, NamedTuple, Optional, Tuple

LONGEST_LINE = 65_536
MOST_RECORDS = 4_096
DECIMAL = b"123456789"


class Part(NamedTuple):
    """What has a reply of its own: a line, or a record of an SD file."""

    number: int
    """The number of its first line, from 1."""
    line: bytes
    """The line that is shown beside the reply."""
    again: bytes
    """The lines that ask the same again."""


class Asked(NamedTuple):
    """A line of a script that is answered, with the lines that belong to it."""

    whole: Part
    """The line itself; `again` has all its lines."""
    parts: List[Part]
    """What is answered: the records of a `register-sd`, and else the line alone."""

    @property
    def is_sd(self) -> bool:
        return self.parts[0] is not self.whole


def one(part: Part) -> Asked:
    """A line that is answered once."""
    return Asked(part, [part])


def stripped(line: bytes) -> bytes:
    """A line without its LF, and without one CR before it."""
    if line.endswith(b"\n"):
        line = line[:-1]
    return line[:-1] if line.endswith(b"\r") else line


def sd_count(line: bytes) -> int:
    """How many records a line `register-sd` takes; 0 where it takes none."""
    words = line.split(b" ")
    if len(words) != 3 or words[0] != b"register-sd":
        return 0
    count = words[2]
    if not count.isdigit() or count[:1] not in DECIMAL or len(count) > 4 or not count.isascii():
        return 0
    return int(count) if int(count) <= MOST_RECORDS else 0


class Script:
    """Reads a script line by line."""

    def __init__(self, stream: BinaryIO):
        self.stream = stream
        self.lines = 0

    def next_line(self) -> bytes:
        line = self.stream.readline()
        if line:
            self.lines += 1
        return line

    def asked(self) -> Iterator[Asked]:
        """Each line that is answered, in order."""
        while True:
            line = self.next_line()
            if not line:
                return
            text = stripped(line)
            if not text:
                continue
            is_long = len(text) > LONGEST_LINE
            word = text.split(b" ", 1)[0]
            if not is_long and word in (b"register-mol", b"revise-mol"):
                yield one(self.with_molfile(line, text))
            elif not is_long and sd_count(text):
                yield self.with_records(line, text)
            else:
                yield one(Part(self.lines, text, text + b"\n"))

    def with_molfile(self, line: bytes, text: bytes) -> Part:
        number, lines = self.lines, [line]
        while True:
            more = self.next_line()
            lines.append(more)
            if not more or (more.startswith(b"M  END") and len(stripped(more)) <= LONGEST_LINE):
                break
        return Part(number, text, with_end(b"".join(lines)))

    def with_records(self, line: bytes, text: bytes) -> Asked:
        _, first, count = text.split(b" ")
        number, parts, lines = self.lines, [], [line]
        for place in range(int(count)):
            begin, record = self.lines + 1, self.record()
            id = b"%d" % (int(first) + place) if first.isdigit() else first
            again = b"register-sd %s 1\n%s" % (id, with_mark(record)) if record else b""
            parts.append(Part(begin, text + f" [record {place + 1}: {title_of(record)}]".encode(), again))
            lines.append(record)
        return Asked(Part(number, text, with_mark(b"".join(lines))), parts)

    def record(self) -> bytes:
        """The lines up to and with the next `$$$$`; what is left where there is none."""
        lines = []
        while True:
            line = self.next_line()
            lines.append(line)
            if not line or stripped(line) == b"$$$$":
                return b"".join(lines)


def title_of(record: bytes) -> str:
    """The first line of a record; empty where that is its end."""
    title = stripped(record.split(b"\n", 1)[0]).decode(errors="replace").strip()
    return "" if title == "$$$$" else title


def with_mark(record: bytes) -> bytes:
    """The lines of a record with its `$$$$`, also where the input ended before that."""
    record = with_end(record)
    return record if stripped(record[record[:-1].rfind(b"\n") + 1 :]) == b"$$$$" else record + b"$$$$\n"


def with_end(text: bytes) -> bytes:
    """A text whose last line ends."""
    return text if text.endswith(b"\n") or not text else text + b"\n"


class Replies:
    """Reads replies line by line."""

    def __init__(self, stream: BinaryIO):
        self.stream = stream

    def to_one_part(self) -> Iterator[Tuple[bytes, bool]]:
        """The lines of the reply to one part, each with whether it is the last. The lines of a text that `show` and
        `data` give are passed over. Where the replies end too soon nothing more is given, and no last one."""
        while True:
            line = self.stream.readline()
            if not line.endswith(b"\n"):
                return
            line = line[:-1]
            words = line.split(b" ")
            is_last = words[0] not in (b"hit", b"like")
            for _ in range(text_lines(words)):
                self.stream.readline()
            yield line, is_last
            if is_last:
                return


def text_lines(words: List[bytes]) -> int:
    """How many lines of a text stand behind a reply of these words."""
    if words[0] == b"data" and len(words) == 3:
        return int(words[2])
    if words[0] == b"record" and len(words) == 6 and words[4] == b"molfile":
        return int(words[5])
    return 0


def answers(asked: Asked, replies: Replies) -> Iterator[Tuple[Part, Optional[bytes], bool]]:
    """Each line of the replies to what was asked, with the part that it answers and whether it is the part's last;
    `None` where a part has no reply. Where a `register-sd` is `refused id`, that one reply answers the line."""
    for place, part in enumerate(asked.parts):
        last = None
        for line, is_last in replies.to_one_part():
            if asked.is_sd and place == 0 and line == b"refused id":
                yield asked.whole, line, True
                return
            last = line if is_last else None
            yield part, line, is_last
        if last is None:
            yield part, None, True


def is_refusal(reply: Optional[bytes]) -> bool:
    """Whether a last reply says that nothing was done; a missing one too."""
    return reply is None or reply.startswith((b"refused ", b"fault "))


def default_program() -> str:
    """`./chemdb` of the folder where one is, where that is there; else the one beside tools/."""
    here = os.path.join(".", "chemdb")
    root = os.path.dirname(os.path.dirname(os.path.realpath(__file__)))
    return here if os.access(here, os.X_OK) else os.path.join(root, "chemdb")
