"""The records in hexadecimal of docs/FORMATS.md are those that the tables say, and where the program is
built, it reads the inode and the container as the blobs that the page tells of."""
import re
import struct
import subprocess
import sys
import tempfile

import built
from volume import BLOCK, ENTRY_MAGIC, NO_NODE, entry, info_block, regions, superblock

COUNTS = (64, 128, 16)
DUMP = re.compile(r"```text\n((?: *\d+  (?:[0-9a-f]{2} *)+\n)+)```")
AB, CD = b"\xab" * 32, b"\xcd" * 32
wrong = []


def expect(what, got, wanted):
    if got != wanted:
        wrong.append(f"{what}: got {got!r}, wanted {wanted!r}")


def bytes_of(dump, size):
    """The bytes of a record; those that aren't shown are zero."""
    record = bytearray(size)
    for line in dump.splitlines():
        at, _, digits = line.strip().partition("  ")
        row = bytes.fromhex(digits)
        record[int(at) : int(at) + len(row)] = row
    return bytes(record)


def extent(start, length):
    return struct.pack("<Q", start | length << 48)


def container(previous, extents):
    """The last container of a chain."""
    body = b"".join(extent(*each) for each in extents)
    return struct.pack("<HHIIHH", 9, 1, NO_NODE, previous, len(extents), 0) + body.ljust(48, b"\0")


def inode(root, size, blocks, extents, first, following=NO_NODE):
    return struct.pack("<HHI32sQIHH", 1, 1, following, root, size, blocks, extents, 0) + extent(*first)


def image(first, last):
    """A volume with the page's inode as node 0, and its container behind an inode at node 3."""
    bitmap_blocks, node_blocks = regions(*COUNTS[:2])
    bits = sum(1 << bit for bit in [0, 5, 9, 10, 20, 21, 22, 23, 30])
    nodes = bytearray(node_blocks * BLOCK)
    nodes[:64] = first
    nodes[192:320] = inode(CD, 49152, 7, 3, (30, 1), 4) + last
    head = superblock(*COUNTS, 1, 2, 9, 3)
    bitmap = bits.to_bytes(bitmap_blocks * BLOCK, "little")
    return head + bitmap + bytes(nodes) + info_block() + bytes((COUNTS[2] - 1 + COUNTS[0]) * BLOCK)


payload = struct.pack("<Q", ENTRY_MAGIC) + b"\7" * (BLOCK - 8)
blocks = entry(1, [(2, payload)])
expected = {
    "the superblock": superblock(*COUNTS, 1),
    "the info block": info_block(),
    "the header": blocks[:BLOCK],
    "the commit": blocks[2 * BLOCK :],
    "the inode": inode(AB, 2, 1, 1, (5, 1)),
    "the container": container(3, [(9, 2), (20, 4)]),
}
page = (built.TOP / "docs/FORMATS.md").read_text(encoding="utf-8")
dumps = DUMP.findall(page)
expect("the number of records", len(dumps), len(expected))
shown = {what: bytes_of(dump, len(expected[what])) for what, dump in zip(expected, dumps)}
for what, record in shown.items():
    if record != expected[what]:
        wrong.append(f"{what} isn't that of its table")

for line in wrong:
    print("formats:", line)
if not wrong:
    program = built.program("formats, the program")
    with tempfile.NamedTemporaryFile() as file:
        file.write(image(shown["the inode"], shown["the container"]))
        file.flush()
        done = subprocess.run([program, f"file:{file.name}", "list"], stdout=subprocess.PIPE, check=False)
    listed = f"{AB.hex()} 2\n{CD.hex()} 49152\n".encode()
    expect("list of the page's nodes", (done.returncode, done.stdout), (0, listed))
    for line in wrong:
        print("formats:", line)
print(f"formats: {len(shown)} records, {len(wrong)} wrong")
sys.exit(1 if wrong else 0)
