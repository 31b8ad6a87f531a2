"""`parse` in one thread, of scripts with as many short lines as there may be, of long `hex:` words on
as many lines, and of one `hex:` word, all with random digits: MB/s, of which 100 is wanted.

Beside them, interleaved: awk, which splits the same lines into words (a whole process), and Python's
`binascii.unhexlify` over the same digits. A ratio is the other's time to ours.

The memory is the least address space in which the script is still read, less that in which a comment of as
many bytes is, and less the bytes of the data words: bytes a line, of which 64 are wanted at most. What the
allocator takes beside each piece of memory is in it, but not the 128 KiB by which glibc enlarges its heap at
a time.
"""
import binascii
import os
import pathlib
import random
import re
import resource
import shutil
import subprocess
import tempfile
import time

from measure import proved_program, table, timed

LINES = 4096
MEBIBYTE = 1 << 20
RUNS = 3


def hex_line(number, digits):
    return f"{number % 16} add hex:{os.urandom(digits // 2).hex()}\n"


def scripts():
    """Each kind of script by its name."""
    random.seed(20260112)
    short = []
    for number in range(LINES):
        slot, size = random.randrange(64), random.randrange(10, 5000)
        short.append(random.choice([
            f"{number % 16} add seq:{number % 256}:{size}\n", f"{number % 16} open {slot} fill:0a:{size}\n",
            f"{number % 16} read {slot} {size} {size % 4000}\n", f"{number % 16} close {slot}\n",
            f"{number % 16} unlink fill:0a:{size}\n", f"{number % 16} sync\n",
        ]))
    digits = (MEBIBYTE // LINES - 16) // 2 * 2
    return {
        "short lines": "".join(short),
        "hex words": "".join(hex_line(number, digits) for number in range(LINES)),
        "one hex word": hex_line(0, MEBIBYTE),
    }


def unhexlify_seconds(text):
    """How long Python takes over the digits of all `hex:` words."""
    words = re.findall("hex:([0-9a-f]+)", text)
    start = time.perf_counter()
    for word in words:
        binascii.unhexlify(word)
    return time.perf_counter() - start


def least_space(program, path, lines):
    """The least address space, in bytes, in which so many lines are read."""
    low, high = 0, 1 << 28
    while high - low > 4096:
        middle = (low + high) // 2 // 4096 * 4096
        def limit(space=middle):
            resource.setrlimit(resource.RLIMIT_AS, (space, space))
        with open(path, "rb") as text:
            done = subprocess.run(
                [program], stdin=text, capture_output=True, preexec_fn=limit, check=False,
                env={**os.environ, "MALLOC_TOP_PAD_": "0"},
            )
        is_read = done.returncode == 0 and done.stdout.split()[-1:] == [str(lines).encode()]
        low, high = (low, middle) if is_read else (middle, high)
    return high


def space_a_line(program, folder, text):
    """Bytes of memory a line that parsing takes beyond the input and the data words."""
    path = pathlib.Path(folder) / "space"
    path.write_text("#" * len(text), encoding="ascii")
    least = least_space(program, path, 0)
    path.write_text(text, encoding="ascii")
    lines = text.count("\n")
    words = sum(len(word) // 2 for word in re.findall("hex:([0-9a-f]+)", text))
    return (least_space(program, path, lines) - least - words) / lines


def main():
    with tempfile.TemporaryDirectory() as folder:
        program = proved_program("script", ["bv_script"], folder)
        path = pathlib.Path(folder) / "text"
        rows = []
        for name, text in scripts().items():
            path.write_text(text, encoding="ascii")
            best = {}
            for _ in range(RUNS):
                _, said = timed([program], path)
                size, micros, lines = map(int, said.split())
                if (size, lines) != (len(text), text.count("\n")):
                    raise SystemExit(f"{name}: {lines} lines of {size} bytes")
                found = {"ours": micros / 1e6, "unhexlify": unhexlify_seconds(text)}
                if shutil.which("awk"):
                    found["awk"], _ = timed(["awk", "{n += NF} END {print n}"], path)
                for key, seconds in found.items():
                    best[key] = min(best.get(key, seconds), seconds)
            ours = best["ours"]
            rows.append([
                name, str(len(text)), f"{len(text) / ours / 1e6:.0f}",
                f"{best['awk'] / ours:.2f}" if "awk" in best else "-",
                f"{best['unhexlify'] / ours:.2f}" if "hex" in name else "-",
                f"{space_a_line(program, folder, text):.0f}",
            ])
    print(f"best of {9 * RUNS}")
    table(["", "bytes", "MB/s", "awk to ours", "unhexlify to ours", "bytes a line"], rows)


main()
