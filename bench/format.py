"""`format` of the longest journal of version 1 on a new file, beside `dd` writing as many zero
blocks with one sync, interleaved on one disk, best of five.

Prints MB/s (10^6 bytes of written blocks a second, the whole process), the ratio of our rate to the
other's, and the most memory. The files lie in the folder that is given, or in this one.
"""
import pathlib
import subprocess
import sys
import tempfile
import time

from measure import blobfs, most_memory, table

BLOCKS, NODES, JOURNAL = 1024, 128, 65536
META = 1 + -(-BLOCKS // 65536) + NODES // 128
TOTAL = META + JOURNAL + BLOCKS
# The superblock is written twice: zeros at first, and its fields at last.
WRITTEN = META + JOURNAL + 1
RUNS = 5


def seconds_of(words, path):
    path.unlink(missing_ok=True)
    start = time.perf_counter()
    subprocess.run(words, check=True, capture_output=True)
    return time.perf_counter() - start


def main():
    above = sys.argv[1] if len(sys.argv) > 1 else "."
    program = blobfs()
    with tempfile.TemporaryDirectory(dir=above) as folder:
        image = pathlib.Path(folder) / "bench.img"
        counts = [str(count) for count in (BLOCKS, NODES, JOURNAL)]
        found = {
            "blobfs format": [str(program), f"new:{TOTAL}:{image}", "format", *counts],
            "dd fsync": [
                "dd", "if=/dev/zero", f"of={image}", "bs=8192", f"count={WRITTEN}", "conv=fsync",
            ],
        }
        best = {}
        for _ in range(RUNS):
            for name, words in found.items():
                seconds = seconds_of(words, image)
                best[name] = min(best.get(name, seconds), seconds)
        rows = []
        for name, words in found.items():
            image.unlink(missing_ok=True)
            rate = WRITTEN * 8192 / best[name] / 1e6
            ratio = best[name] / best["blobfs format"]
            rows.append([name, f"{rate:.1f}", f"{ratio:.2f}", most_memory(words, "/dev/null")])
        print(f"{WRITTEN} blocks of 8192 bytes, best of {RUNS}")
        table(["", "MB/s", "ours to it", "MiB"], rows)


main()
