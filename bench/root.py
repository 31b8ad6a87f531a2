"""`blobfs root` beside what a user would pick instead: the same files, in turns, best of nine.

Prints a table for each size: MB/s (10^6 bytes a second, the whole process), how many times as long
as `blobfs root` each took, as `./blobfs` builds it for this processor and as rt builds it by
default, by the clock and by processor time, the ratios that are wanted, and the most memory. Then
the instructions of one run over the middle size. `lanes` and `sha2 blocks` are the hashing alone of
8,192-byte blocks in one thread, eight at a time and one by one, by the clock. Other tools that are
missing are left out.

The ratios are wanted on a processor without SHA instructions: with them `openssl` is the faster.
"""
import os
import pathlib
import shutil
import tempfile

from measure import blobfs, default_blobfs, instructions, most_memory
from measure import processor_seconds, proved_program, table, timed

SIZES = [("1 KiB", 1 << 10), ("1 MiB", 1 << 20), ("64 MiB", 1 << 26)]
RUNS = 9
OURS = "blobfs root"
DEFAULT = "blobfs root, default"
ALONE = ["lanes", "sha2 blocks"]
WINDOW = 65536

# How many times as long as ours each other is to take, at least, for this processor and by default.
WANTED = {
    ("64 MiB", "openssl"): ("2.50", "1.15"),
    ("64 MiB", "fsverity"): ("2.50", "-"),
    ("64 MiB", "sha256sum"): ("4.50", "-"),
    ("1 MiB", "openssl"): ("3.00", "-"),
    ("1 KiB", "sha256sum"): ("1.00", "-"),
}


def commands(programs, path, size):
    """The commands by name; each reads the file from standard input, or by its path."""
    found = {
        name: [program, *words] for name, program, *words in programs
        if name not in ALONE or size >= WINDOW
    }
    if shutil.which("sha256sum"):
        found["sha256sum"] = ["sha256sum"]
    if shutil.which("openssl"):
        found["openssl"] = ["openssl", "dgst", "-sha256"]
    if shutil.which("fsverity"):
        found["fsverity"] = ["fsverity", "digest", "--block-size=8192", path]
    return found


def best_of(found, path):
    """The best seconds of each command by the clock, and by processor time, run in turns."""
    clock, processor = {}, {}
    for _ in range(RUNS):
        for name, words in found.items():
            seconds, text = timed(words, path)
            if name in ALONE:
                seconds = max(int(text.split()[1]), 1) / 1e6
            clock[name] = min(clock.get(name, seconds), seconds)
            seconds = processor_seconds(words, path)
            processor[name] = min(processor.get(name, seconds), seconds)
    return clock, processor


def row(label, size, name, words, path, clock, processor):
    """What the table says of one command."""

    def times(seconds, ours):
        return f"{seconds[name] / max(seconds[ours], 1e-9):.2f}"

    wanted = WANTED.get((label, name), ("", ""))
    by_processor = ["-", "-"]
    if name not in ALONE:
        by_processor = [times(processor, OURS), times(processor, DEFAULT)]
    return [
        name, f"{size / clock[name] / 1e6:.1f}", times(clock, OURS), by_processor[0], wanted[0],
        times(clock, DEFAULT), by_processor[1], wanted[1], most_memory(words, path),
    ]


def main():
    with tempfile.TemporaryDirectory() as folder:
        folder = pathlib.Path(folder)
        programs = [
            (OURS, blobfs(), "root"),
            (DEFAULT, default_blobfs(), "root"),
            ("lanes", proved_program("lanes", ["bv_lanes"], folder / "lanes")),
            ("sha2 blocks", proved_program("sha2_blocks", ["sha2"], folder / "sha2_blocks")),
        ]
        compared = ["processor", "wanted"]
        head = ["", "MB/s", "to ours", *compared, "to default", *compared, "MiB"]
        for label, size in SIZES:
            path = folder / f"{size}"
            path.write_bytes(os.urandom(size))
            found = commands(programs, path, size)
            clock, processor = best_of(found, path)
            print(f"{label}, best of {RUNS}")
            rows = [
                row(label, size, name, words, path, clock, processor)
                for name, words in found.items()
            ]
            table(head, rows)
        label, size = SIZES[1]
        path = folder / f"{size}"
        print(f"{label}, millions of instructions")
        for name, words in commands(programs, path, size).items():
            print(f"  {name}: {instructions(words, path)}")


main()
