"""Surveys of the metadata of volumes with as many blobs as fit, in both versions, at two sizes that show
the growth, and plans of two entries; and `list` of these volumes beside SQLite's check and list of a table with as many rows,
interleaved, best of nine.

A survey is a call, timed in a program of its own. Wanted are 60 ms for the largest metadata of version 1,
and 150 ms for the largest of version 2. So are the plan of an entry that purges one blob, and that of one
that purges it and publishes it again: a millisecond is wanted for a publication. `list` reads the metadata, surveys it, and prints a line for
each blob. It and SQLite are whole processes, by the clock and by processor time, on which other work of
the machine has no part. The volumes are sparse files: `list` reads no data block. A ratio is SQLite's
processor time to ours.
"""
import pathlib
import random
import shutil
import sqlite3
import struct
import sys
import tempfile

from measure import TOP, blobfs, most_memory, proved_program, table, timed, timed_both

sys.path.insert(0, str(TOP / "scripts"))
from volume import BLOCK, NO_NODE, info_block, regions, superblock  # noqa: E402

RUNS = 9
# The version, data blocks and nodes, and the data blocks of each blob, whose tree takes one more.
SIZES = [(1, 262144, 8192, 30), (1, 1048576, 32768, 30), (2, 1048576, 16384, 62), (2, 4194304, 65536, 62)]


def roots_of(count):
    """As many roots in no order, always the same."""
    random.seed(20260112)
    return [random.randbytes(32) for _ in range(count)]


def write_image(path, version, blocks, nodes, data_blocks, roots):
    """A volume whose every node is a blob in one extent, and whose journal is empty. Returns its
    metadata blocks."""
    need = data_blocks + 1
    used = 1 + need * len(roots)
    bitmap_blocks, node_blocks = regions(blocks, nodes)
    journal = 1 + bitmap_blocks + node_blocks + 3
    bits = bytearray(bitmap_blocks * BLOCK)
    bits[: used // 8] = b"\xff" * (used // 8)
    bits[used // 8] = (1 << used % 8) - 1
    rows = [
        struct.pack(
            "<HHI32sQIHHQ", 1, version, NO_NODE, root, data_blocks * BLOCK, need, 1, 0,
            1 + need * node | need << 48,
        )
        for node, root in enumerate(roots)
    ]
    head = superblock(blocks, nodes, journal, version, len(roots), used, len(roots))
    meta = head + bytes(bits) + b"".join(rows)
    with open(path, "wb") as file:
        file.write(meta + info_block())
        file.truncate(len(meta) + (journal + blocks) * BLOCK)
    return meta


def write_table(path, data_blocks, roots):
    """A database of roots and sizes."""
    base = sqlite3.connect(path)
    base.execute("create table blobs (root blob primary key, size integer) without rowid")
    base.executemany("insert into blobs values (?, ?)", [(root, data_blocks * BLOCK) for root in roots])
    base.commit()
    base.close()


def survey_micros(program, path, blobs):
    """The fastest survey of the metadata in a file, which has so many blobs."""
    _, text = timed([program], path)
    micros, found, faults = map(int, text.split())
    if (found, faults) != (blobs, 0):
        raise SystemExit(f"a survey found {found} blobs and {faults} faults")
    return micros


def plan_micros(program, path):
    """The fastest plan of a purge, whose entry names block 0 and a block of the bitmap and of the nodes; and
    that of the purge and a publication that puts back what stood in these, so that block 0 alone is named."""
    _, text = timed([program], path)
    purge, blocks, both, first = map(int, text.split())
    if (blocks, first) != (3, 1):
        raise SystemExit(f"entries have {blocks} and {first} blocks")
    return purge, both


def times_of(commands):
    """The best seconds of each command by the clock and by processor time, run by turns."""
    clock, processor, said = {}, {}, {}
    for _ in range(RUNS):
        for key, words in commands.items():
            seconds, worked, said[key] = timed_both(words, "/dev/null")
            clock[key] = min(clock.get(key, seconds), seconds)
            processor[key] = min(processor.get(key, worked), worked)
    if "other" in said and said["other"] != "ok\n" + said["ours"]:
        raise SystemExit("the lists differ")
    return clock, processor


def row_of(folder, program, calls, version, blocks, nodes, data_blocks):
    """What the table says of one size."""
    roots = roots_of(nodes)
    meta = folder / "meta"
    meta.write_bytes(write_image(folder / "image", version, blocks, nodes, data_blocks, roots))
    write_table(folder / "table", data_blocks, roots)
    commands = {"ours": [program, f"file:{folder / 'image'}", "list"]}
    tool = shutil.which("sqlite3")
    if tool:
        query = "pragma integrity_check; select lower(hex(root)), size from blobs order by root"
        commands["other"] = [tool, "-separator", " ", folder / "table", query]
    clock, processor = times_of(commands)
    times = [f"{1000 * best[key]:.0f}" for key in commands for best in (clock, processor)]
    ratio = [f"{processor['other'] / processor['ours']:.2f}"] if tool else ["-", "-", "-"]
    return [
        str(version), str(nodes), str(blocks), f"{survey_micros(calls[0], meta, nodes) / 1000:.0f}",
        *(f"{micros / 1000:.3f}" for micros in plan_micros(calls[1], meta)), *times, *ratio, most_memory(commands["ours"], "/dev/null"),
    ]


def main():
    program = pathlib.Path(sys.argv[1]) if len(sys.argv) > 1 else blobfs()
    rows = []
    with tempfile.TemporaryDirectory() as kept:
        kept = pathlib.Path(kept)
        below = ["bv_txn", "bv_layout", "bv_bytes", "spec_record"]
        more = ["bv_node", "spec_reuse", "spec_meta", "spec_image"]
        calls = [
            proved_program("survey", below, kept / "survey"),
            proved_program("plan", below + more, kept / "plan"),
        ]
        for size in SIZES:
            with tempfile.TemporaryDirectory() as name:
                rows.append(row_of(pathlib.Path(name), program, calls, *size))
    print(f"milliseconds, best of {RUNS}")
    table([
        "version", "blobs", "data blocks", "survey", "purge", "and publish", "list", "processor", "SQLite", "processor",
        "ratio", "list MiB",
    ], rows)


main()
