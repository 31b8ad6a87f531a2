"""`crc32` in one thread beside zlib's as Python calls it, over 64 MiB: MB/s and ratio."""
import os
import pathlib
import tempfile
import time
import zlib

from measure import proved_program, timed

SIZE = 1 << 26

with tempfile.TemporaryDirectory() as folder:
    program = proved_program("crc32", ["bv_bytes"], folder)
    path = pathlib.Path(folder) / "bytes"
    data = os.urandom(SIZE)
    path.write_bytes(data)
    ours, theirs = [], []
    for _ in range(3):
        _, text = timed([program], path)
        count, micros, checksum = map(int, text.split())
        if (count, checksum) != (SIZE, zlib.crc32(data)):
            raise SystemExit("the checksums differ")
        ours.append(micros / 1e6)
        for _ in range(9):
            start = time.perf_counter()
            zlib.crc32(data)
            theirs.append(time.perf_counter() - start)
    rate, other = SIZE / min(ours) / 1e6, SIZE / min(theirs) / 1e6
    print(f"crc32 {rate:.0f} MB/s, zlib {other:.0f} MB/s, ours to it {rate / other:.2f}")
