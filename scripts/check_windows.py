"""The values of tests_windows are those of an independent reading of the definition: each byte of a window
and its path changed in turn, and the rows of single mismatches. With the word `all` also for the sizes
past two blocks, which takes some minutes."""
import pathlib
import re
import sys

import windows

TOP = pathlib.Path(__file__).resolve().parent.parent
SOURCE = TOP / "crates/tests_windows/src"
EACH = re.compile(r"0x([0-9a-f]{32}),?\s+0x([0-9a-f]{32}),?\s+\];\s+assert_eq!\(rt; "
                  r"each_byte\(rt\.alloc\(\), ([\d_]+), &\[([\d, ]+)\]\)")
DIGEST = re.compile(r"const (\w+): Digest = Digest\(\[(.*?)\]\)", re.S)
QUICK = 8193


def sizes():
    """The sizes and windows that the tests have, each with the hash that is wanted."""
    text = (SOURCE / "changes.rt").read_text(encoding="utf-8")
    for front, back, size, numbers in EACH.findall(text):
        yield int(size.replace("_", "")), [int(n) for n in numbers.split(",")], front + back


def digests():
    """The digests that the rows name."""
    text = (SOURCE / "rows.rt").read_text(encoding="utf-8")
    return {name: "".join(re.findall(r"0x([0-9a-f]{2})", body)) for name, body in DIGEST.findall(text)}


def rows():
    """The same from the definition."""
    blob = bytes([0x41]) * 131072
    _, name = windows.tree(blob)
    data, path = windows.honest(blob, 0)
    changed = data[:24576] + b"\x40" + data[24577:]
    level, offset, wanted, found = windows.first_mismatch(name, 131072, 0, changed, path)
    assert (level, offset) == (0, 24576)
    short = bytes([0x41]) * 32768
    _, name = windows.tree(short)
    data, path = windows.honest(short, 0)
    place = windows.first_mismatch(name, 24576, 0, data[:24576], path)
    assert place[:3] == (1, 96, bytes(32)) and place[3] == wanted
    roots = [windows.tree(bytes([byte]) * 65536)[1] for byte in (0x41, 0x42)]
    return dict(zip(["BLOCK_3", "CHANGED_3", "ROOT_41", "ROOT_42"], [wanted, found, *roots]))


def main():
    wrong, tried = 0, 0
    found = digests()
    for name, digest in rows().items():
        tried += 1
        if found.get(name) != digest.hex():
            wrong += 1
            print(f"{name}: the tests have {found.get(name)}, wanted {digest.hex()}")
    told = list(sizes())
    if [(size, numbers) for size, numbers, _ in told] != windows.SIZES:
        wrong += 1
        print(f"the tests have the sizes and windows {[row[:2] for row in told]}")
    for size, numbers, hashed in told:
        if size <= QUICK or "all" in sys.argv[1:]:
            tried += 1
            wanted = windows.each_byte(size, numbers).hex()
            if hashed != wanted:
                wrong += 1
                print(f"size {size}: the tests have {hashed}, wanted {wanted}")
    print(f"windows: {tried} values, {wrong} wrong")
    return wrong != 0


sys.exit(main())
