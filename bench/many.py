"""An add to a volume that holds 100 blobs and to one that holds 30,000, by turns: microseconds an add, the
best of seven and the middle. An add's own work isn't to grow with the blobs that the volume holds. And the
most memory that the program had in such a run: three times the metadata, the history and 4 MiB are wanted
of a volume, beside the program, the script and its answers.

This script lays the held blobs out by the tables of the format: a block each, without their bytes, which
no add reads. Both volumes have the same counts, so the mount, the checkpoints and the unmount write as
much. A time is that of a `script` with 1,000 adds less that of one with none, on a file in memory.

`many.py [PROGRAM [FOLDER]]` takes a program in place of `./blobfs`, and the folder of its file.
"""
import os
import pathlib
import re
import statistics
import subprocess
import sys
import tempfile
import time

from measure import TOP, blobfs, table

sys.path.insert(0, str(TOP / "scripts"))
from volume import info_block, inode, regions, superblock  # noqa: E402

BLOCK = 8192
HELD, ADDS, RUNS = (100, 30000), 1000, 7
BLOCKS, NODES, JOURNAL = 40000, 32768, 1024


def metadata(held):
    """The superblock, bitmap, node map and info block of a volume with so many blobs."""
    bitmap_blocks, node_blocks = regions(BLOCKS, NODES)
    head = superblock(BLOCKS, NODES, JOURNAL, 1, held, 1 + held, held)
    bits = bytearray(bitmap_blocks * BLOCK)
    for bit in range(1 + held):
        bits[bit // 8] |= 1 << (bit % 8)
    node_map = bytearray(node_blocks * BLOCK)
    for node in range(held):
        data = node.to_bytes(8, "little") * 250
        node_map[64 * node : 64 * node + 64] = inode(data, 1, (1 + node) | 1 << 48)
    return b"".join(bytes(part) for part in [head, bits, node_map, info_block()])


def start(program, image, front, text):
    """A run of a script on such a volume, which is being done."""
    with open(image, "wb") as file:
        file.write(front)
        file.truncate(len(front) + (JOURNAL - 1 + BLOCKS) * BLOCK)
    lines = tempfile.TemporaryFile("w+")
    lines.write(text)
    lines.seek(0)
    answers = tempfile.TemporaryFile("w+")
    begun = time.perf_counter()
    return begun, subprocess.Popen([program, f"file:{image}", "script"], stdin=lines, stdout=answers), answers


def ended(child, image, answers, added):
    """The run published all."""
    answers.seek(0)
    printed = answers.read()
    os.unlink(image)
    if child.returncode or printed.count("published") < added:
        raise SystemExit(f"many: status {child.returncode}: {printed[-500:]}")


def seconds(program, image, front, text, added):
    begun, child, answers = start(program, image, front, text)
    child.wait()
    taken = time.perf_counter() - begun
    ended(child, image, answers, added)
    return taken


def most_memory(program, image, front, text, added):
    """The most MiB that the program has in such a run, as the system counts while it goes on."""
    _, child, answers = start(program, image, front, text)
    most = 0
    while child.poll() is None:
        try:
            found = re.search(r"VmHWM:\s+(\d+)", pathlib.Path(f"/proc/{child.pid}/status").read_text())
        except OSError:
            found = None
        most = max(most, int(found[1]) if found else 0)
        time.sleep(0.001)
    ended(child, image, answers, added)
    return most / 1024


def main():
    program = sys.argv[1] if len(sys.argv) > 1 else blobfs()
    fronts = {held: metadata(held) for held in HELD}
    adds = "".join(f"0 add seq:{n % 256}:{2000 + n}\n" for n in range(ADDS))
    texts = {ADDS: adds + "0 sync\n", 0: "0 sync\n"}
    found = {held: [] for held in HELD}
    above = sys.argv[2] if len(sys.argv) > 2 else "/dev/shm"
    with tempfile.TemporaryDirectory(dir=above) as name:
        image = pathlib.Path(name) / "image"
        for _ in range(RUNS):
            for held, front in fronts.items():
                both = [seconds(program, image, front, texts[n], n) for n in [ADDS, 0]]
                found[held].append((both[0] - both[1]) / ADDS)
        most = {held: most_memory(program, image, front, texts[ADDS], ADDS) for held, front in fronts.items()}
    few = found[HELD[0]]
    rows = [
        [
            str(held), f"{1e6 * min(times):.0f}", f"{1e6 * statistics.median(times):.0f}",
            f"{min(times) / min(few):.2f}", f"{statistics.median(times) / statistics.median(few):.2f}",
            f"{most[held]:.1f}",
        ]
        for held, times in found.items()
    ]
    table(["blobs held", "best us", "middle us", "to few, best", "to few, middle", "most MiB"], rows)
    print(f"the metadata have {len(fronts[HELD[0]]) / (1 << 20):.1f} MiB")


if __name__ == "__main__":
    main()
