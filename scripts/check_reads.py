"""The built program on stored blobs of which one byte was changed, in both versions: opening the blob
verifies its last window, and a read of its first byte the first; each answers the first failure that an
independent reading of the file gives. Bytes of the data, of its padding and of the digests are taken;
with the word `all` some thousands of each size."""
import pathlib
import subprocess
import sys
import tempfile

import built
from merkle import BLOCK
from stored import Stored
from windows import SIZES, WINDOW

TURNED = 0x5A
FEW, MANY = 60, 4000
BLOCKS = 512
COUNTS = [str(BLOCKS), "128", "16"]
DEVICE = (3 + 16 + BLOCKS) * BLOCK

program = built.program("reads")
wrong = []


def run(path, words, lines):
    """The status of a script, and what it printed."""
    done = subprocess.run([program, f"file:{path}", *words], input="\n".join(lines).encode(),
                          capture_output=True, check=False, timeout=60)
    return done.returncode, done.stdout.decode()


def wanted(stored, name, size):
    """What is answered of the last window, and of a read in the first; and the status."""
    last = max(0, size - 1) // WINDOW
    opened = stored.mismatch(name, last)
    if opened:
        return [opened, "bad-slot"], 8
    read = stored.mismatch(name, 0)
    byte = f"bytes 1 {stored.content(name)[0]:02x}" if size else "bytes 0"
    return [f"opened {size}", read or byte], 8 if read else 0


def places(count):
    """Offsets in so many stored blocks: the ends of the blocks, and others all over them."""
    ends = [BLOCK * k + at for k in range(count) for at in (0, BLOCK - 1)]
    step = max(1, BLOCK * count // (MANY if "all" in sys.argv[1:] else FEW))
    return sorted({*ends[:16], *ends[-16:], *range(0, BLOCK * count, step)})


def compare(path, image, name, size, what):
    """The answers over these bytes, and those of the independent reading."""
    path.write_bytes(image)
    answers, status = wanted(Stored(image), name, size)
    lines = [f"0 open 0 {name}", "0 read 0 0 1"]
    ended, text = run(path, ["script"], lines)
    found = text.splitlines()[1:3]
    told = [f"1 open 0 {name} {answers[0]}", f"2 read 0 0 1 {answers[1]}"]
    if (ended, found) != (status, told):
        wrong.append(f"{what}: status {ended}, {found}, wanted {status}, {told}")


def changes(path, version, size):
    """A blob of this size as it is stored, and with one byte after another changed."""
    path.write_bytes(bytes(DEVICE))
    run(path, ["fresh" if version == 1 else "fresh2", *COUNTS], [f"0 add seq:0:{size}"])
    image = path.read_bytes()
    stored = Stored(image)
    [name] = stored.blobs
    compare(path, image, name, size, f"version {version}, size {size}")
    blocks = stored.blobs[name][2]
    offsets = places(len(blocks))
    for offset in offsets:
        changed = bytearray(image)
        changed[(stored.data_at + blocks[offset // BLOCK]) * BLOCK + offset % BLOCK] ^= TURNED
        compare(path, bytes(changed), name, size, f"version {version}, size {size}, byte {offset}")
    return 1 + len(offsets)


folder = "/dev/shm" if pathlib.Path("/dev/shm").exists() else None
with tempfile.TemporaryDirectory(dir=folder) as name:
    disk = pathlib.Path(name) / "disk.img"
    tried = sum(changes(disk, version, size) for version in (1, 2) for size, _ in SIZES)

for line in wrong[:20]:
    print("reads:", line)
print(f"reads: {tried} volumes, {len(wrong)} wrong")
sys.exit(1 if wrong else 0)
