"""128 blobs of 58,000 bytes added to a volume on a real file, each with a sync of its own or all with one
at the end, beside SQLite (WAL, synchronous FULL), LMDB, and a plain file that is written and synced as
often, by turns. The best of seven is taken, and the middle.

Ours is a whole run of `script` on a volume that was just formatted, with the start of the program, the
mount and the unmount. The others are their calls alone, one blob a transaction. A ratio is the other's
time to ours. An add makes one sync of its own, before its entry, so with a `sync` line each there are two.
"""
import os
import pathlib
import shutil
import sqlite3
import statistics
import subprocess
import sys
import tempfile
import time

from measure import blobfs, table

BLOBS, SIZE, RUNS = 128, 58000, 7
COUNTS = ["4096", "256", "1024"]
TOTAL = 1 + 1 + 2 + 1024 + 4096


def data_of(number):
    """The bytes of `seq:NUMBER:58000`: from NUMBER on, one more from block to block."""
    return bytes((number + at + at // 8192) % 256 for at in range(SIZE))


def ours(program, folder, is_synced):
    image = folder / "image"
    image.unlink(missing_ok=True)
    subprocess.run([program, f"new:{TOTAL}:{image}", "format", *COUNTS], check=True, capture_output=True)
    lines = []
    for number in range(BLOBS):
        lines.append(f"0 add seq:{number}:{SIZE}")
        if is_synced or number == BLOBS - 1:
            lines.append("0 sync")
    start = time.perf_counter()
    done = subprocess.run(
        [program, f"file:{image}", "script"], input="\n".join(lines) + "\n", text=True,
        capture_output=True, check=False,
    )
    seconds = time.perf_counter() - start
    if done.stdout.startswith("usage: "):
        print("adds: skipped, the program runs no script")
        sys.exit(0)
    if done.returncode or done.stdout.count("published") < BLOBS:
        raise SystemExit(f"adds: status {done.returncode}: {done.stdout[-500:]}")
    return seconds


def sqlite(folder, blobs):
    path = folder / "base.db"
    for end in ["", "-wal", "-shm"]:
        pathlib.Path(f"{path}{end}").unlink(missing_ok=True)
    base = sqlite3.connect(path, isolation_level=None)
    base.execute("pragma journal_mode=wal").fetchall()
    base.execute("pragma synchronous=full")
    base.execute("create table blobs (root blob primary key, bytes blob)")
    start = time.perf_counter()
    for number, data in enumerate(blobs):
        base.execute("insert into blobs values (?, ?)", (number.to_bytes(32, "big"), data))
    seconds = time.perf_counter() - start
    base.close()
    return seconds


def lmdb_seconds(folder, blobs):
    try:
        import lmdb
    except ImportError:
        return None
    path = folder / "lmdb"
    shutil.rmtree(path, ignore_errors=True)
    env = lmdb.open(str(path), map_size=1 << 30)
    start = time.perf_counter()
    for number, data in enumerate(blobs):
        with env.begin(write=True) as change:
            change.put(number.to_bytes(32, "big"), data)
    seconds = time.perf_counter() - start
    env.close()
    return seconds


def plain(folder, blobs, syncs):
    """The blobs one behind another in a file of full length, with so many syncs for each."""
    path = folder / "plain"
    with open(path, "wb", buffering=0) as file:
        os.ftruncate(file.fileno(), 64 << 20)
        os.fsync(file.fileno())
        start = time.perf_counter()
        for data in blobs:
            file.write(data)
            for _ in range(syncs):
                os.fdatasync(file.fileno())
                file.write(bytes(8192))
        os.fdatasync(file.fileno())
        return time.perf_counter() - start


def main():
    program = pathlib.Path(sys.argv[1]) if len(sys.argv) > 1 else blobfs()
    above = sys.argv[2] if len(sys.argv) > 2 else "."
    blobs = [data_of(number) for number in range(BLOBS)]
    ways = {
        "each synced": lambda: ours(program, folder, True),
        "one sync": lambda: ours(program, folder, False),
        "SQLite": lambda: sqlite(folder, blobs),
        "LMDB": lambda: lmdb_seconds(folder, blobs),
        "two syncs": lambda: plain(folder, blobs, 2),
        "a sync": lambda: plain(folder, blobs, 1),
    }
    found = {way: [] for way in ways}
    with tempfile.TemporaryDirectory(dir=above) as name:
        folder = pathlib.Path(name)
        for turn in range(RUNS):
            for way in sorted(ways, key=lambda way: (list(ways).index(way) + turn) % len(ways)):
                found[way].append(ways[way]())
    rows = []
    for way, beside in [("each synced", "two syncs"), ("one sync", "a sync")]:
        for what, choose in [("best", min), ("middle", statistics.median)]:
            taken = {key: choose(times) for key, times in found.items() if None not in times}
            to = [
                f"{taken[other] / taken[way]:.2f}" if other in taken else "-"
                for other in ["SQLite", "LMDB", beside]
            ]
            rows.append([way, what, f"{1000 * taken[way]:.0f}", f"{BLOBS / taken[way]:.0f}", *to])
    print(f"{BLOBS} blobs of {SIZE} bytes, {RUNS} runs by turns")
    table(["", "", "ms", "adds a second", "SQLite to ours", "LMDB to ours", "plain to ours"], rows)


main()
