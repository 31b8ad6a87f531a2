"""Windows of blobs from their definition, over hashlib: the honest window, and what fails first where one
doesn't verify, in the order of verification. It shares no code with the crates."""
import functools
import hashlib

import merkle

BLOCK, DIGEST, FAN_OUT = 8192, 32, 256
WINDOW = 8 * BLOCK
CHANGE = 0x5A

block_digest = functools.lru_cache(maxsize=64)(merkle.block_digest)


def seq(size):
    """Byte i is (i + i div 8192) mod 256."""
    return bytes((i + i // BLOCK) % 256 for i in range(size))


def digests_at(size):
    """How many digests each level has, from level 0 on: the highest has one."""
    counts = [max(1, -(-size // BLOCK))]
    while counts[-1] > 1:
        counts.append(-(-counts[-1] // FAN_OUT))
    return counts


def tree(blob):
    """The blocks of digests of each level from 1 on, and the root."""
    row = [block_digest(0, at, blob[at : at + BLOCK]) for at in range(0, max(1, len(blob)), BLOCK)]
    rows, level = [], 0
    while len(row) > 1:
        level += 1
        groups = [row[at : at + FAN_OUT] for at in range(0, len(row), FAN_OUT)]
        blocks = [b"".join(group).ljust(BLOCK, b"\0") for group in groups]
        rows.append(blocks)
        row = [block_digest(level, BLOCK * k, block) for k, block in enumerate(blocks)]
    return rows, row[0]


def honest(blob, window):
    """The bytes of a window, and the blocks of digests above it, from level 1 on."""
    rows, _ = tree(blob)
    path = [row[8 * window // FAN_OUT ** (k + 1)] for k, row in enumerate(rows)]
    return blob[WINDOW * window : WINDOW * (window + 1)], path


def place(block, index):
    return block[DIGEST * index : DIGEST * (index + 1)]


def first_mismatch(name, size, window, data, path):
    """(level, offset, wanted, found) of what fails first, or nothing."""
    counts = digests_at(size)
    wanted = name
    for level in range(len(path), 0, -1):
        block = path[level - 1]
        index = 8 * window // FAN_OUT**level
        found = block_digest(level, BLOCK * index, block)
        if found != wanted:
            return level, BLOCK * index, wanted, found
        used = min(FAN_OUT, counts[level - 1] - FAN_OUT * index)
        for free in range(used, FAN_OUT):
            if place(block, free) != bytes(DIGEST):
                return level, BLOCK * index + DIGEST * free, bytes(DIGEST), place(block, free)
        below = 8 * window // FAN_OUT ** (level - 1)
        wanted = place(block, below % FAN_OUT)
    for k in range(max(1, -(-len(data) // BLOCK))):
        index = 8 * window + k
        wanted = place(path[0], index % FAN_OUT) if path else name
        found = block_digest(0, BLOCK * index, data[BLOCK * k : BLOCK * (k + 1)])
        if found != wanted:
            return 0, BLOCK * index, wanted, found
    return None


def told(mismatch):
    """A mismatch as bytes; one zero where there is none."""
    if mismatch is None:
        return b"\0"
    level, offset, wanted, found = mismatch
    return level.to_bytes(4, "little") + offset.to_bytes(8, "little") + wanted + found


def with_change(data, at):
    return data[:at] + bytes([data[at] ^ CHANGE]) + data[at + 1 :]


def each_byte(size, windows):
    """SHA-256 of all that these windows of a blob answer: as they are, then with each byte of the window
    and then of its path, from level 1 on, changed in turn."""
    blob = seq(size)
    _, name = tree(blob)
    sha = hashlib.sha256()
    for window in windows:
        data, path = honest(blob, window)
        sha.update(told(first_mismatch(name, size, window, data, path)))
        for at in range(len(data)):
            sha.update(told(first_mismatch(name, size, window, with_change(data, at), path)))
        for level, block in enumerate(path):
            for at in range(BLOCK):
                changed = path[:level] + [with_change(block, at)] + path[level + 1 :]
                sha.update(told(first_mismatch(name, size, window, data, changed)))
    return sha.digest()


SIZES = [
    (0, [0]), (1, [0]), (8192, [0]), (8193, [0]), (65536, [0]), (65537, [0, 1]),
    (2097152, [31]), (2097153, [0, 32]),
]
