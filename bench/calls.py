"""The calls of a volume that write nothing, with 100 blobs held and with 30,000, by turns: an open and a close
of a slot, whether a blob is present, and an unlink. Nanoseconds a call, the best of five. Below 5,000 is
wanted of each, however many blobs there are.

Each figure is the mean of many calls within a program of its own, on a device in memory. The volumes are
those of `many.py`.
"""
import pathlib
import tempfile

from many import HELD, metadata
from measure import proved_program, table, timed

RUNS = 5
CALLS = ["open", "close", "present", "unlink"]
BELOW = [
    "bv_claims", "bv_device", "bv_layout", "bv_mount", "bv_mounted", "bv_store", "bv_volume", "spec_core", "spec_tree"
]


def main():
    with tempfile.TemporaryDirectory() as name:
        folder = pathlib.Path(name)
        program = proved_program("calls", BELOW, folder)
        found = {}
        for held in HELD:
            (folder / str(held)).write_bytes(metadata(held))
            found[held] = []
        for _ in range(RUNS):
            for held in HELD:
                _, text = timed([program], folder / str(held))
                blobs, *nanos = map(int, text.split())
                if blobs != held:
                    raise SystemExit(f"calls: {blobs} blobs in place of {held}")
                found[held].append(nanos)
    rows = [[str(held), *map(str, map(min, zip(*runs)))] for held, runs in found.items()]
    table(["blobs held", *CALLS], rows)


main()
