"""Random scripts, lawful ones and changed ones, for the scripts that run the built program."""
from script_lines import ALL_READS, MOST_BYTES, content, data_length, root_of

EDGES = [0, 1, 2, 63, 8191, 8192, 8193, 16384, 65535, 65536, 65537, 73728, 131072, 200000]
LARGE = [524288, 1048577, 2097152, 2097153, 4194304]


def data_words(rng, blocks):
    """Data words that a volume of so many blocks meets, with sizes at the edges of blocks and windows."""
    most = blocks * 8192 + 20000
    sizes = [size for size in EDGES + (LARGE if rng.randrange(6) == 0 else []) if size <= most]
    words = []
    for _ in range(rng.choice([1, 2, 4, 8, 16])):
        size = rng.choice(sizes) if rng.randrange(4) else rng.randrange(min(most, 300000))
        kind = rng.randrange(3)
        if kind == 0 and size < 3000:
            words.append(f"hex:{rng.randbytes(size).hex()}")
        elif kind == 1:
            words.append(f"fill:{rng.randrange(256):02x}:{size}")
        else:
            words.append(f"seq:{rng.randrange(256)}:{size}")
    return words


def small_words(rng, count):
    """Data words of a block each: more of them than the least volume has nodes."""
    return [f"hex:{rng.randbytes(3).hex()}" for _ in range(count)]


def name(rng, words):
    """The name of what may be there, as its root or its data, and now and then of what isn't."""
    word = rng.choice(words)
    kind = rng.randrange(20)
    if kind == 0:
        return rng.randbytes(32).hex()
    if kind == 1:
        return f"seq:{rng.randrange(256)}:{rng.randrange(9000)}"
    return root_of(word) if kind % 2 else word


class Lines:
    """Makes the lines of one script; keeps the sum of its reads and the lists within their limits."""

    def __init__(self, rng, words, sessions, weights):
        self.rng, self.words, self.sessions, self.weights = rng, words, sessions, weights
        self.slots = rng.sample(range(64), rng.choice([1, 2, 4]))
        self.reads, self.lists, self.data = 0, 0, 0
        self.added = []
        self.opened = {session: [] for session in sessions}

    def one(self):
        command = self.rng.choices(list(self.weights), list(self.weights.values()))[0]
        self.session = self.rng.choice(self.sessions)
        return f"{self.session} {getattr(self, command)()}"

    def slot(self):
        """One that the session may have opened, more often than another."""
        opened = self.opened[self.session]
        return self.rng.choice(opened if opened and self.rng.randrange(5) else self.slots)

    def name(self):
        """What may have been added, more often than another."""
        return name(self.rng, self.added if self.added and self.rng.randrange(5) else self.words)

    def counted(self, word):
        """The word, or a short one where the data words of the script come to too much."""
        self.data += data_length(word) or 0
        return word if self.data < 60000000 else "hex:00"

    def add(self):
        word = self.counted(self.rng.choice(self.words))
        self.added.append(word)
        return f"add {word}"

    def open(self):
        slot = self.rng.choice(self.slots)
        self.opened[self.session].append(slot)
        return f"open {slot} {self.counted(self.name())}"

    def read(self):
        size = data_length(self.rng.choice(self.words))
        edges = [0, 8191, 65535, 65536, size, size // 2, max(0, size - 1), max(0, size - 70000), 10**18 - 1]
        off = self.rng.choice(edges)
        length = self.rng.choice([0, 1, 2, 8192, 65535, 65536, self.rng.randrange(65537)])
        if self.reads + length > min(ALL_READS, 2000000):
            length = 0
        self.reads += length
        return f"read {self.slot()} {off} {length}"

    def scan(self):
        return f"scan {self.slot()}"

    def close(self):
        slot = self.slot()
        if slot in self.opened[self.session]:
            self.opened[self.session].remove(slot)
        return f"close {slot}"

    def unlink(self):
        return f"unlink {self.counted(self.name())}"

    def sync(self):
        return "sync"

    def list(self):
        self.lists += 1
        return "list" if self.lists <= 16 else "sync"


MOODS = [
    {"add": 5, "open": 4, "read": 4, "scan": 2, "close": 3, "unlink": 3, "sync": 1, "list": 1},
    {"add": 3, "open": 5, "read": 9, "scan": 4, "close": 2, "unlink": 1},
    {"add": 3, "open": 6, "read": 9, "scan": 4, "close": 4, "unlink": 1, "list": 1},
    {"add": 9, "unlink": 4, "sync": 1, "list": 1},
    {"add": 9, "sync": 1, "list": 1, "open": 1},
    {"add": 3, "open": 9, "close": 8, "unlink": 4, "scan": 2, "read": 2},
    {"add": 4, "unlink": 4, "open": 4, "close": 2, "sync": 4},
    {"sync": 1, "list": 1, "read": 2, "add": 1},
]


def script(rng, words, fill):
    """A lawful script of one to sixteen sessions; where it fills the nodes, it adds every word."""
    sessions = rng.sample(range(16), rng.choice([1, 1, 2, 2, 3, 4, 8, 16]))
    lines = Lines(rng, words, sessions, rng.choice(MOODS))
    count = rng.randrange(30)
    if data_total(words) < 3000000:
        count = rng.choice([0, 1, 5, 20, 60, 60, 120, 300]) if rng.randrange(60) else 3800
    rows = [lines.one() for _ in range(count)]
    if fill:
        adds = [f"{rng.choice(sessions)} add {word}" for word in words]
        rows = adds + rows
    for _ in range(rng.choice([0, 0, 0, 1, 3])):
        rows.insert(rng.randrange(len(rows) + 1), rng.choice(["", "# a comment", "#"]))
    while len(rows) + sum(len(row) for row in rows) > MOST_BYTES:
        rows.pop()
    text = "\n".join(rows) + ("\n" if rng.randrange(4) else "")
    return text.encode()


def data_total(words):
    return sum(data_length(word) for word in words)


NUMBERS = ["00", "01", "-1", "+1", "16", "64", "65537", "4194305", "9" * 18, "1" + "0" * 18, "", "1x", "0x1"]


def changed_word(rng, word):
    """A word with a part that is wrong in one way."""
    pieces = word.split(":")
    kind = rng.randrange(5)
    if kind == 0:
        pieces[-1] = rng.choice(NUMBERS)
    elif kind == 1:
        pieces[len(pieces) // 2] = rng.choice(NUMBERS + ["AB", "256", "255", "fg"])
    elif kind == 2:
        pieces.append("0")
    elif kind == 3:
        pieces[0] = rng.choice(["hex", "fill", "seq", "Hex", "frob", ""])
    else:
        return word[:-1] if rng.randrange(2) else word.upper()
    return ":".join(pieces)


def changed_row(rng, row):
    """A line of a script with one change; what it has come to, the grammar says."""
    words = row.split(" ")
    at = rng.randrange(len(words))
    kind = rng.randrange(9)
    if kind == 0:
        words[at] = changed_word(rng, words[at])
    elif kind == 1:
        words[at] = rng.choice(NUMBERS)
    elif kind == 2:
        del words[at]
    elif kind == 3:
        words.insert(at, rng.choice(["", "0", "sync"]))
    elif kind == 4:
        words.append(rng.choice(["", "0", "x"]))
    elif kind == 5:
        words[min(1, len(words) - 1)] = rng.choice(["add", "open", "read", "scan", "frob", "Sync", "list", ""])
    elif kind == 6:
        return rng.choice([row + "\r", "\t" + row, " " + row, row + "\x7f", row + "é", "# \x00", row + "#"])
    elif kind == 7:
        words[0] = rng.choice(NUMBERS)
    else:
        return rng.choice(["0 add fill:00:4194304", "0 add seq:0:4194305", "0 read 0 0 65536",
                           "0 read 0 0 65537", f"0 open 0 {'A' * 64}", "0 unlink fill:00:4194305", "0 list"])
    return " ".join(words)


def faulty(rng, words):
    """A script that may be none, in one of the ways that the grammar names, or in two."""
    rows = script(rng, words, False).decode().split("\n")
    for _ in range(rng.choice([1, 1, 2])):
        at = rng.randrange(len(rows))
        rows[at] = changed_row(rng, rows[at] or "0 sync")
    kind = rng.randrange(24)
    if kind == 0:
        rows[:0] = ["0 list"] * rng.choice([16, 17])
    elif kind == 1:
        rows[:0] = [rng.choice(["", "#", "3 sync"])] * rng.choice([4090, 4095, 4096, 4097])
    elif kind == 2:
        rows[:0] = ["0 open 0 fill:00:4194304"] * 16 + [rng.choice(["0 add hex:", "0 unlink hex:00"])]
    elif kind == 3:
        rows[:0] = ["0 read 0 0 65536"] * 256 + [rng.choice(["0 read 0 0 0", "0 read 9 9 1"])]
    elif kind == 4:
        size = len("\n".join(rows).encode())
        rows.append("#" * (1048576 - size - rng.choice([0, 1, 2])))
    return "\n".join(rows).encode()
