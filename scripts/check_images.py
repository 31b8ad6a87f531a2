"""The built program on images that are wrong in one thing each, in both versions: the line and the
status of `list`, `check`, `recover` and `upgrade`, and that a refused command changes no byte."""
import pathlib
import struct
import subprocess
import sys
import tempfile
import zlib

import built
from merkle import root
from volume import BLOCK, NO_NODE, entry, info_block, inode, metadata, padded, superblock, volume

program = built.program("images")

COUNTS = (64, 128, 16)
SMALL, LARGE = b"hi", bytes(range(250)) * 80  # one block, and four: three of data and a tree
INFO, RING, DATA = 3, 4, 19  # M is 3, J is 16
LISTED = "".join(sorted(f"{root(data).hex()} {len(data)}\n" for data in (SMALL, LARGE)))
REPORT = f"check: clean\nblobs 2\nbytes {len(SMALL) + len(LARGE)}\nstale 0\n"
LOST_SMALL = ["bitmap 1 1", "count blobs 2 1", "count used-blocks 6 5", "count used-nodes 2 1"]
LOST_LARGE = [f"bitmap {block} 1" for block in (2, 3, 4, 5)]
LOST_LARGE += ["count blobs 2 1", "count used-blocks 6 2", "count used-nodes 2 1"]


def put(block, offset, data):
    """The edit that writes bytes at an offset of a block."""
    return lambda image: image.__setitem__(slice(at := block * BLOCK + offset, at + len(data)), data)


def number(block, offset, value, width=8):
    return put(block, offset, value.to_bytes(width, "little"))


def info(**fields):
    return put(INFO, 0, info_block(**fields))


def info_with(offset, value):
    """An info block with another byte among those that its checksum covers."""
    row = bytearray(info_block()[:32])
    row[offset] = value
    return put(INFO, 0, bytes(row) + struct.pack("<I", zlib.crc32(row)))


def node(index, offset, data):
    return put(2, 64 * index + offset, data)


def extent(start, length):
    return struct.pack("<Q", start | length << 48)


def cut(size):
    return lambda image: image.__delitem__(slice(size, None))


def replayed(head):
    """An entry in the ring whose payload for block 0 is this."""
    return put(RING, 0, entry(1, [(0, head)]))


def refusals(version):
    """What is done to the image, and the refusal of each command."""
    most = {1: 1048576, 2: 4194304}[version]
    return {
        "a byte of the magic": (put(0, 3, b"X"), "magic"),
        "a byte of the second magic": (put(0, 15, b"2"), "magic"),
        "version 0": (number(0, 16, 0, 4), "version 0"),
        "version 3": (number(0, 16, 3, 4), "version 3"),
        "one block": (number(0, 24, 1), "counts blocks 1"),
        "too many blocks": (number(0, 24, most + 1), f"counts blocks {most + 1}"),
        "127 nodes": (number(0, 32, 127), "counts nodes 127"),
        "no nodes": (number(0, 32, 0), "counts nodes 0"),
        "too short a journal": (number(0, 40, 5), "counts journal 5"),
        "too long a journal": (number(0, 40, 65537), "counts journal 65537"),
        "another bitmap": (number(0, 48, 2), "counts bitmap-blocks 2"),
        "another node map": (number(0, 56, 2), "counts node-blocks 2"),
        "too many blobs": (number(0, 64, 129), "counts blobs 129"),
        "no used block": (number(0, 72, 0), "counts used-blocks 0"),
        "too many used blocks": (number(0, 72, 65), "counts used-blocks 65"),
        "too many used nodes": (number(0, 80, 129), "counts used-nodes 129"),
        "a reserved byte": (put(0, 22, b"\1"), "zero 22"),
        "the last byte of block 0": (put(0, 8191, b"\1"), "zero 8191"),
        "no block": (cut(0), "magic"),
        "a part of a block": (cut(8191), "magic"),
        "the last block cut short": (cut(83 * BLOCK - 1), "short 83 82"),
        "two blocks": (cut(2 * BLOCK), "short 83 2"),
        "a byte of the info's magic": (put(INFO, 0, b"X"), "info magic"),
        "a byte of the info's checksum": (put(INFO, 32, b"\0\0\0\0"), "info checksum"),
        "a reserved byte of the info": (info_with(16, 1), "info zero"),
        "a byte behind the info": (put(INFO, 36, b"\1"), "info zero"),
        "a start past the ring": (info(start=15), "info start"),
        "the number 0": (info(number=0), "info number"),
        "a number past the last": (info(number=2**62 + 1), "info number"),
        "a replayed block 0 of zeros": (replayed(bytes(BLOCK)), "moved"),
        "a replayed geometry": (replayed(superblock(64, 128, 15, version, 2, 6, 2)), "moved"),
        "a replayed version": (replayed(superblock(*COUNTS, 3 - version, 2, 6, 2)), "moved"),
    }


def faults(version):
    """What is done to the image, and all faults of its metadata; the first of them refuses."""
    container = struct.pack("<HHIIHH", 9, version, NO_NODE, 0, 1, 0) + bytes(48)
    large = inode(LARGE, 4, 0, version)
    moved = node(1, 56, extent(1, 4))
    return {
        "unknown flags": (node(5, 0, b"\2\0"), ["node 5 flags 2"]),
        "a newer node": (node(0, 2, b"\3\0"), ["node 0 version 3", *LOST_SMALL]),
        "a free node with a byte": (node(5, 10, b"\1"), ["node 5 zero 10"]),
        "a reserved byte of an inode": (node(0, 54, b"\1"), ["node 0 zero 54", *LOST_SMALL]),
        "a container of no chain": (node(5, 0, container), ["node 5 orphan"]),
        "a block too many": (node(0, 48, b"\2"), ["node 0 count 2 1", *LOST_SMALL]),
        "no extent": (node(0, 52, b"\0"), ["node 0 zero 56", *LOST_SMALL]),
        "an extent too many": (node(0, 52, b"\2"), ["node 0 count 2 1", *LOST_SMALL]),
        "an extent at 0": (node(0, 56, extent(0, 1)), ["node 0 extent 0 0", *LOST_SMALL]),
        "an extent past the end": (node(0, 56, extent(64, 1)), ["node 0 extent 0 0", *LOST_SMALL]),
        "a last link": (node(0, 4, b"\5\0\0\0"), ["node 0 link 0", *LOST_SMALL]),
        "a link out of range": (node(1, 52, b"\2"), ["node 1 link 1", *LOST_LARGE]),
        "extents too short": (node(1, 56, extent(2, 3)), ["node 1 count 4 3", *LOST_LARGE]),
        "a bit too many": (put(1, 0, b"\x7f"), ["bitmap 6 1"]),
        "a bit too few": (put(1, 0, b"\x3d"), ["bitmap 1 0"]),
        "no bit for block 0": (put(1, 0, b"\x3e"), ["bitmap 0 0"]),
        "a bit past the last block": (put(1, 8191, b"\x80"), ["bitmap 65535 1"]),
        "a blob too many": (number(0, 64, 3), ["count blobs 3 2"]),
        "a used block too many": (number(0, 72, 7), ["count used-blocks 7 6"]),
        "a used node too many": (number(0, 80, 3), ["count used-nodes 3 2"]),
        "extents that overlap": (moved, ["overlap 1", "bitmap 5 1", "count used-blocks 6 5", LARGE]),
        "a root twice": (node(1, 8, root(SMALL)), [f"twice {root(SMALL).hex()}", SMALL]),
        **({"a node of version 2": (node(0, 2, b"\2\0"), ["node 0 version 2", *LOST_SMALL])} if version == 1 else {}),
        **({"a blob of no version": (node(1, 0, large[:2] + b"\0\0"), ["node 1 version 0", *LOST_LARGE])}),
    }


def sound(version):
    """What is done to the image, its report, and the entries that a recovery finds."""
    meta, _ = metadata(*COUNTS, version, [(SMALL, version), (LARGE, version)])
    tree = DATA + (2 if version == 1 else 5)
    stale = REPORT.replace("stale 0", "stale 1")
    damaged = f"damaged {root(SMALL).hex()}\nfaults 1\n"
    torn = bytearray(entry(1, [(0, meta[:BLOCK])]))
    torn[BLOCK + 100] ^= 1
    later = entry(2, [(0, bytes(BLOCK))])
    return {
        "nothing": (lambda image: None, REPORT, 0),
        "a byte of a blob": (put(DATA + 1, 0, b"H"), damaged, 0),
        "a byte behind a blob": (put(DATA + 1, 2, b"x"), REPORT, 0),
        "a byte of a tree": (put(tree, 0, bytes(8)), REPORT, 0),
        "an entry": (put(RING, 0, entry(1, [(0, meta[:BLOCK])])), REPORT, 1),
        "a torn entry": (put(RING, 0, bytes(torn)), stale.replace("stale 1", "stale 2"), 0),
        "an entry of a later number": (put(RING, 0, later), stale.replace("stale 1", "stale 2"), 0),
        "a stale slot": (put(RING + 9, 0, later[:16]), stale, 0),
        "a slot of an old number": (put(RING + 9, 0, later[:8] + bytes(8)), REPORT, 0),
    }


wrong = []


def expect(what, got, wanted):
    if got != wanted:
        wrong.append(f"{what}: got {got!r}, wanted {wanted!r}")


def run(path, word):
    done = subprocess.run([program, f"file:{path}", word], stdout=subprocess.PIPE, check=False)
    return done.returncode, done.stdout.decode()


def changed(whole, edit):
    image = bytearray(whole)
    edit(image)
    return bytes(image)


def refused(path, what, data, line, checked):
    path.write_bytes(data)
    for word in ("list", "recover", "upgrade"):
        expect(f"{word} of {what}", run(path, word), (6, f"volume: {line}\n"))
    expect(f"check of {what}", run(path, "check"), checked)
    expect(f"bytes of {what}", path.read_bytes() == data, True)


def kept(path, what, data, version, report, entries):
    """An image with a volume: it is read, recovered, and upgraded, and upgraded again."""
    path.write_bytes(data)
    status = 0 if report.startswith("check: clean") else 8
    listed = [("list", (0, LISTED)), ("check", (status, report))]
    for word, wanted in listed:
        expect(f"{word} of {what}", run(path, word), wanted)
    expect(f"bytes of {what}", path.read_bytes() == data, True)
    expect(f"recover of {what}", run(path, "recover"), (0, f"recovered {entries}\n"))
    expect(f"second recover of {what}", run(path, "recover"), (0, "recovered 0\n"))
    recovered = path.read_bytes()
    expect(f"upgrade after a recover of {what}", run(path, "upgrade"), (0, "upgraded 0\n"))
    newest = changed(recovered, number(0, 16, 2, 4))
    expect(f"bytes upgraded of {what}", path.read_bytes() == newest, True)
    path.write_bytes(data)
    expect(f"upgrade of {what}", run(path, "upgrade"), (0, f"upgraded {entries}\n"))
    expect(f"bytes after an upgrade of {what}", path.read_bytes() == newest, True)
    for word, wanted in [("list", (0, LISTED)), ("upgrade", (0, "upgraded 0\n"))]:
        expect(f"{word} after an upgrade of {what}", run(path, word), wanted)


with tempfile.TemporaryDirectory() as name:
    path = pathlib.Path(name) / "disk.img"
    rows = 0
    for version in (1, 2):
        whole = volume(*COUNTS, version, [(SMALL, version), (LARGE, version)])
        for what, (edit, line) in refusals(version).items():
            what = f"{what}, version {version}"
            refused(path, what, changed(whole, edit), line, (6, f"volume: {line}\n"))
            rows += 1
        for what, (edit, found) in faults(version).items():
            what = f"{what}, version {version}"
            lines = [f"damaged {root(f).hex()}\n" if isinstance(f, bytes) else f"fault: {f}\n" for f in found]
            report = "".join(lines) + f"faults {len(lines)}\n"
            refused(path, what, changed(whole, edit), found[0], (8, report))
            rows += 1
        for what, (edit, report, entries) in sound(version).items():
            kept(path, f"{what}, version {version}", changed(whole, edit), version, report, entries)
            rows += 1
    # The largest counts, in a file that takes no space: an empty volume is listed and upgraded.
    for version, blocks, nodes in [(1, 1048576, 32768), (2, 4194304, 65536)]:
        meta = superblock(blocks, nodes, 65536, version) + padded(b"\1")
        at = 1 + -(-blocks // 65536) + nodes // 128
        with open(path, "wb") as file:
            file.write(meta)
            file.seek(at * BLOCK)
            file.write(info_block())
            file.truncate((at + 65536 + blocks) * BLOCK)
        for word, wanted in [("list", (0, "")), ("upgrade", (0, "upgraded 0\n")), ("list", (0, ""))]:
            expect(f"{word} of the largest counts of version {version}", run(path, word), wanted)

for line in wrong:
    print("images:", line)
print(f"images: {rows} images, {len(wrong)} answers wrong")
sys.exit(1 if wrong else 0)
