"""Scripts read from their grammar, and the bytes of their data words: the scripts' own reference."""
import functools
import re
from typing import NamedTuple, Optional

from merkle import root

NUMBER = re.compile(r"0|[1-9][0-9]{0,17}")
ROOT = re.compile(r"[0-9a-f]{64}")
HEX = re.compile(r"hex:((?:[0-9a-f]{2})*)")
FILL = re.compile(r"fill:([0-9a-f]{2}):(0|[1-9][0-9]{0,17})")
SEQ = re.compile(r"seq:(0|[1-9][0-9]{0,17}):(0|[1-9][0-9]{0,17})")

MOST_BYTES, MOST_LINES, MOST_LISTS = 1048576, 4096, 16
ONE_DATA, ALL_DATA = 4194304, 67108864
ONE_READ, ALL_READS = 65536, 16777216

# What stands behind each command's word.
ARGUMENTS = {
    "add": ["data"],
    "open": ["slot", "name"],
    "read": ["slot", "off", "len"],
    "scan": ["slot"],
    "close": ["slot"],
    "unlink": ["name"],
    "sync": [],
    "list": [],
}


class Fault(Exception):
    """The first fault of a script: its line and its kind."""


class Line(NamedTuple):
    number: int
    session: int
    command: str
    slot: Optional[int]
    word: Optional[str]  # DATA, or a root
    off: Optional[int]
    len: Optional[int]


def data_length(word):
    """How many bytes a data word stands for; None where the word is no DATA."""
    if found := HEX.fullmatch(word):
        return len(found[1]) // 2
    if found := FILL.fullmatch(word):
        return int(found[2])
    found = SEQ.fullmatch(word)
    return int(found[2]) if found and int(found[1]) <= 255 else None


@functools.lru_cache(maxsize=32)
def content(word):
    """The bytes of a data word."""
    if found := HEX.fullmatch(word):
        return bytes.fromhex(found[1])
    if found := FILL.fullmatch(word):
        return bytes([int(found[1], 16)]) * int(found[2])
    found = SEQ.fullmatch(word)
    base, size = int(found[1]), int(found[2])
    row = bytes(range(256)) * 33
    starts = [(base + k) % 256 for k in range(-(-size // 8192))]
    return b"".join(row[start : start + 8192] for start in starts)[:size]


@functools.lru_cache(maxsize=4096)
def root_of(word):
    """The root, in digits, that a NAME stands for."""
    return word if ROOT.fullmatch(word) else root(content(word)).hex()


class Reader:
    """Reads a script's lines one after another, with the sums of those before."""

    def __init__(self):
        self.data, self.reads, self.lists = 0, 0, 0

    def line(self, number, raw):
        """A line's command, or None for one that is skipped."""
        def refuse_if(wrong, kind):
            if wrong:
                raise Fault(number, kind)

        refuse_if(any(not 0x20 <= byte <= 0x7E for byte in raw), "byte")
        refuse_if(number > MOST_LINES, "lines")
        if not raw or raw.startswith(b"#"):
            return None
        session, *words = raw.decode().split(" ")
        refuse_if(not NUMBER.fullmatch(session) or int(session) > 15, "session")
        refuse_if(not words or words[0] not in ARGUMENTS, "command")
        names = ARGUMENTS[words[0]]
        refuse_if(len(words) != len(names) + 1 or "" in words, "arguments")
        given = dict(zip(names, words[1:]))
        numbers = {name: given[name] for name in ("slot", "off", "len") if name in given}
        refuse_if(any(not NUMBER.fullmatch(word) for word in numbers.values()), "number")
        numbers = {name: int(word) for name, word in numbers.items()}
        refuse_if(numbers.get("slot", 0) > 63, "slot")
        size = self.data_size(given, refuse_if)
        length = numbers.get("len", 0)
        refuse_if(size > ONE_DATA or length > ONE_READ, "length")
        self.data, self.reads = self.data + size, self.reads + length
        refuse_if(self.data > ALL_DATA or self.reads > ALL_READS, "sum")
        self.lists += words[0] == "list"
        refuse_if(self.lists > MOST_LISTS, "lists")
        word = given.get("data", given.get("name"))
        rest = [numbers.get("slot"), word, numbers.get("off"), numbers.get("len")]
        return Line(number, int(session), words[0], *rest)

    def data_size(self, given, refuse_if):
        """The bytes of a line's data word, which count for the limits; a root counts nothing."""
        if "data" in given:
            size = data_length(given["data"])
            refuse_if(size is None, "data")
            return size
        if "name" not in given or ROOT.fullmatch(given["name"]):
            return 0
        size = data_length(given["name"])
        refuse_if(size is None, "name")
        return size


def parse(script):
    """The lines with a command; raises the first fault."""
    rows = script.split(b"\n")
    if rows[-1] == b"":
        rows.pop()
    reader = Reader()
    read = [reader.line(number, raw) for number, raw in enumerate(rows, 1)]
    return [line for line in read if line]
