"""Windows of a blob of 2 MiB: `verify` of a full one beside the root of its bytes, which hashes as many
blocks; and what a reader does with windows that it knows: a hit, and a read of 65,536 bytes that lie in
two windows, beside a copy of as many bytes. And the 64 windows of a blob of 4 MiB, loaded by one call,
which verifies them side by side: on one processor, and on two.

Beside them, interleaved: `sha256sum` over the same bytes, a whole process, and Python's copy of 65,536
bytes. Wanted: `verify` at least 0.9 of the root's rate, a hit below 100 ns, reads at least 2 GB/s, and
64 windows on two processors that have nothing else to do at 1.6 times the rate of one.
"""
import os
import pathlib
import shutil
import tempfile
import time

from measure import proved_program, table, timed

SIZE, WINDOW, RUNS = 1 << 21, 65536, 5
MANY = 64


def copy_seconds(data):
    """How long Python takes for a thousand copies of a window's bytes from the middle of one on."""
    start = time.perf_counter()
    for _ in range(1000):
        bytearray(memoryview(data)[WINDOW // 2 : WINDOW // 2 + WINDOW])
    return time.perf_counter() - start


def loaded_on(program, path, processors):
    """The seconds of loading all windows by one call, where the program has only these processors."""
    ours = os.sched_getaffinity(0)
    os.sched_setaffinity(0, processors)
    try:
        _, text = timed([program], path)
    finally:
        os.sched_setaffinity(0, ours)
    return int(text.split()[-1]) / 1e6


def main():
    with tempfile.TemporaryDirectory() as folder:
        below = ["bv_pager", "bv_proof", "bv_merkle", "spec_window", "spec_tree"]
        program = proved_program("windows", below, folder)
        data = os.urandom(SIZE)
        path = pathlib.Path(folder) / "bytes"
        path.write_bytes(data)
        longer = pathlib.Path(folder) / "longer"
        longer.write_bytes(os.urandom(MANY * WINDOW))
        processors = sorted(os.sched_getaffinity(0))
        best = {}
        for _ in range(RUNS):
            _, text = timed([program], path)
            known, whole, numbers = text.splitlines()
            if whole != "whole 1000" or not known.startswith("known "):
                raise SystemExit(f"the program printed {text!r}")
            times = [int(number) / 1e6 for number in numbers.split()]
            found = dict(zip(["verify", "root", "hits", "reads"], times))
            for count in (1, 2):
                if count <= len(processors):
                    found[count] = loaded_on(program, longer, processors[:count])
            found["copy"] = copy_seconds(data)
            if shutil.which("sha256sum"):
                found["sha256sum"], _ = timed(["sha256sum"], path)
            for key, seconds in found.items():
                best[key] = min(best.get(key, seconds), seconds)
        rows = [
            ["verify of a window, MB/s", f"{WINDOW / best['verify'] / 1e6:.0f}"],
            ["its rate to that of root", f"{best['root'] / best['verify']:.2f}"],
            ["sha256sum's time a byte to verify's",
             f"{best['sha256sum'] / SIZE * WINDOW / best['verify']:.2f}" if "sha256sum" in best else "-"],
            [f"{MANY} windows loaded by one call on one processor, ms", f"{1000 * best[1]:.2f}"],
            ["on two, to that", f"{best[1] / best[2]:.2f}" if 2 in best else "-"],
            ["a hit, ns", f"{1000 * best['hits']:.1f}"],
            ["reads, GB/s", f"{1000 * WINDOW / best['reads'] / 1e9:.2f}"],
            ["a copy's time to a read's", f"{best['copy'] / best['reads']:.2f}"],
        ]
        table([f"best of {RUNS}", ""], rows)


main()
