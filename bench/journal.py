"""Scans of a ring full of entries on a device in memory, beside `crc32` over the same bytes; appends of as many
as fill one, beside the device's writes alone; and `list` and `recover` of such a volume, beside SQLite's
first query and checkpoint over a WAL of as many bytes; interleaved, best of five, at two sizes that show the
growth.

An entry has three payloads, as that of a small add: superblock, bitmap, and one of 128 blocks of the
node map. A scan is a call, timed in a program of its own; 0.8 of the rate of `crc32` is wanted, since
checksums are the work. `list` scans, and surveys the metadata; `recover` does the same, and writes the
metadata in place. They are whole processes, SQLite's are calls within one. The first table has the
clock, the second processor time, on which other work of the machine and its disk have no part. MB/s
are 10^6 bytes of the ring a second. A ratio of times is SQLite's to ours, each per byte.
"""
import pathlib
import shutil
import sqlite3
import sys
import tempfile
import time

from measure import TOP, blobfs, most_memory, proved_program, table, timed, timed_both

sys.path.insert(0, str(TOP / "scripts"))
from volume import entry, info_block, metadata  # noqa: E402

BLOCK = 8192
BLOCKS, NODES = 1024, 16384
RUNS = 5
SIZES = [4096, 65536]


def write_image(path, journal):
    """An empty volume of version 1 whose ring has as many entries as fit. Returns the blocks before the
    ring, which a recovery writes, and how many entries there are."""
    meta, _ = metadata(BLOCKS, NODES, journal, 1, [])
    count = len(meta) // BLOCK
    head = meta + info_block()
    blocks = [meta[at : at + BLOCK] for at in range(0, len(meta), BLOCK)]
    entries = (journal - 1) // 5
    with open(path, "wb") as file:
        file.write(head)
        for number in range(1, entries + 1):
            node_block = 2 + number % (count - 2)
            file.write(entry(number, [(at, blocks[at]) for at in (0, 1, node_block)]))
        file.truncate((count + journal + BLOCKS) * BLOCK)
    return head, entries


def write_wal(path, size):
    """A database whose WAL has at least so many bytes: rows of three pages, each a transaction."""
    source = path.with_name("source.db")
    base = sqlite3.connect(source, isolation_level=None)
    for line in ["page_size=8192", "journal_mode=wal", "wal_autocheckpoint=0", "synchronous=off"]:
        base.execute(f"pragma {line}").fetchall()
    base.execute("create table blobs (root blob primary key, bytes blob) without rowid")
    wal = pathlib.Path(f"{source}-wal")
    number = 0
    while number == 0 or wal.stat().st_size < size:
        base.execute("begin")
        base.execute("insert into blobs values (?, ?)", (number.to_bytes(32, "big"), bytes(16000)))
        base.execute("commit")
        number += 1
    shutil.copy(source, path)
    shutil.copy(wal, f"{path}-wal")
    base.close()
    for name in [source, wal, f"{source}-shm"]:
        pathlib.Path(name).unlink(missing_ok=True)
    return pathlib.Path(f"{path}-wal").stat().st_size


class Ours:
    """A volume with a full ring."""

    def __init__(self, program, folder, journal):
        self.program, self.image = program, folder / "full.img"
        self.head, self.entries = write_image(self.image, journal)
        self.size = self.entries * 5 * BLOCK

    def run(self, word, wanted):
        clock, processor, text = timed_both([self.program, f"file:{self.image}", word], "/dev/null")
        if text != wanted:
            raise SystemExit(f"{word} printed {text[:100]!r}")
        return clock, processor

    def once(self):
        """The seconds of `list` and of `recover`; the volume is then as it was."""
        found = {"list": self.run("list", ""), "recover": self.run("recover", f"recovered {self.entries}\n")}
        with open(self.image, "r+b") as file:
            file.write(self.head)
        return found

    def rates(self, scans):
        """MB/s of a scan in memory and of `crc32` over the same bytes, by this program."""
        _, text = timed([scans], self.image)
        scanned, entries, summed, _ = map(int, text.split())
        if entries != self.entries:
            raise SystemExit(f"a scan found {entries} entries")
        return self.size / scanned, self.image.stat().st_size / summed


class Sqlite:
    """A database with a WAL."""

    def __init__(self, folder, size):
        self.kept, self.used = folder / "kept.db", folder / "used.db"
        self.size = write_wal(self.kept, size)

    def once(self):
        """The seconds of the first query of a new connection, and of a checkpoint after it."""
        for end in ["", "-wal"]:
            shutil.copy(f"{self.kept}{end}", f"{self.used}{end}")
        pathlib.Path(f"{self.used}-shm").unlink(missing_ok=True)
        start = now()
        base = sqlite3.connect(self.used)
        base.execute("select count(*) from sqlite_schema").fetchall()
        query = now()
        base.execute("pragma wal_checkpoint(truncate)").fetchall()
        end = now()
        base.close()
        return {"query": since(start, query), "both": since(start, end)}


def now():
    """The clock, and this process's processor time."""
    return time.perf_counter(), time.process_time()


def since(start, end):
    return end[0] - start[0], end[1] - start[1]


def row_of(best, ours, other, way):
    """What a table says of one size: `way` is 0 for the clock and 1 for processor time."""
    took = {key: seconds[way] for key, seconds in best.items()}
    per_byte = ours.size / other.size
    return [
        str(ours.size // BLOCK), f"{1000 * took['list']:.0f}", f"{1000 * took['recover']:.0f}",
        f"{1000 * took['query']:.0f}", f"{1000 * took['both']:.0f}",
        f"{took['query'] * per_byte / took['list']:.2f}",
        f"{took['both'] * per_byte / took['recover']:.2f}",
    ]


def measure_size(folder, program, scans, journal, tables):
    """Adds what is said of one size to the tables: of scans, of the clock, of processor time."""
    ours = Ours(program, folder, journal)
    other = Sqlite(folder, ours.size)
    best = {}
    for _ in range(RUNS):
        for key, seconds in {**ours.once(), **other.once()}.items():
            best[key] = [min(pair) for pair in zip(best.get(key, seconds), seconds)]
    scan, crc = ours.rates(scans)
    memory = most_memory([program, f"file:{ours.image}", "list"], "/dev/null")
    tables[0].append([str(ours.size // BLOCK), f"{scan:.0f}", f"{crc:.0f}", f"{scan / crc:.2f}"])
    for way, rows in enumerate(tables[1:]):
        rows.append([*row_of(best, ours, other, way), memory])


def main():
    program = pathlib.Path(sys.argv[1]) if len(sys.argv) > 1 else blobfs()
    tables = [[], [], []]
    with tempfile.TemporaryDirectory() as kept:
        scans = proved_program("scan", ["bv_replay", "bv_device", "bv_layout", "bv_bytes"], kept)
        for journal in SIZES:
            with tempfile.TemporaryDirectory() as name:
                measure_size(pathlib.Path(name), program, scans, journal, tables)
        appends = proved_program("append", ["bv_ring", "bv_device", "bv_layout"], pathlib.Path(kept) / "append")
        entries, appended, written = map(int, timed([appends], "/dev/null")[1].split())
    print(f"entries of five blocks, best of {RUNS}")
    table(["appends", "microseconds each", "the device's writes alone"], [
        [str(entries), f"{appended / entries:.2f}", f"{written / entries:.2f}"],
    ])
    table(["blocks", "scan MB/s", "crc32 MB/s", "scan's rate to it"], tables[0])
    for name, rows in zip(["by the clock", "by processor time"], tables[1:]):
        print(f"{name}, milliseconds")
        table([
            "blocks", "list", "recover", "SQLite's query", "and checkpoint", "query to list",
            "both to recover", "list MiB",
        ], rows)


main()
