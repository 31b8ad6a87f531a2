"""The built program on random changes of lawful images, with a fixed seed: `random_images.py [RUNS]`.

No run may crash, take ten seconds, or end with a status that the command doesn't have. `list` and
`check` change no byte, and neither does a refused command. What `recover` and `upgrade` leave has the
blobs that `list` printed before. It runs outside the gate: 20,000 runs take some minutes."""
import pathlib
import random
import struct
import subprocess
import sys
import tempfile
import zlib

import built
from volume import BLOCK, entry, metadata, pending_volume, volume

program = built.program("random images")
runs = int(sys.argv[1]) if len(sys.argv) > 1 else 20000
random.seed(20260112)

COUNTS = (64, 128, 16)
INFO, RING, DATA = 3, 4, 19
STATUSES = {"list": {0, 6}, "check": {0, 6, 8}, "recover": {0, 6}, "upgrade": {0, 6}}
LIMIT = 10


def images():
    """Lawful images in both versions: without a blob, with two, and with an entry to be replayed."""
    found = []
    for version in (1, 2):
        blobs = [(b"hi", version), (bytes(range(250)) * 80, version), (b"", version)]
        meta, _ = metadata(*COUNTS, version, blobs)
        slots = b"".join(entry(n, [(t, meta[t * BLOCK : (t + 1) * BLOCK])]) for n, t in [(1, 0), (2, 2)])
        found.append(volume(*COUNTS, version))
        found.append(volume(*COUNTS, version, blobs))
        found.append(volume(*COUNTS, version, blobs, slots=slots))
        found.append(pending_volume(*COUNTS, version, b"hi" * 9000))
    found.append(volume(*COUNTS, 2, [(b"old" * 9000, 1), (b"new" * 9000, 2)]))
    return found


def places():
    """Where a change tells: the fields of the records, more often than the blocks' rest."""
    at = random.choice([0, 1, 2, 2, INFO, RING, RING + 1, RING + 2, RING + 4, DATA + 1, DATA + 2])
    inside = random.choice([96, 128, 64, 8192])
    return at * BLOCK + random.randrange(inside)


def mended(image):
    """The checksums of the info block and of the entries in the ring, made right again."""
    front = image[INFO * BLOCK : INFO * BLOCK + 32]
    struct.pack_into("<I", image, INFO * BLOCK + 32, zlib.crc32(front))
    for slot in range(13):
        at = (RING + slot) * BLOCK
        magic, _, kind, _, count = struct.unpack_from("<5Q", image, at)
        end = at + (count + 1) * BLOCK
        if magic == 0x626C6F626E747279 and kind == 1 and 1 <= count <= 12 - slot:
            struct.pack_into("<I", image, end + 32, zlib.crc32(image[at:end]))


def changed(image):
    image = bytearray(image)
    for _ in range(random.choice([1, 1, 1, 2, 3, 8])):
        kind = random.randrange(6)
        at = places()
        if kind == 0:
            image[at] = random.randrange(256)
        elif kind == 1:
            image[at] ^= 1 << random.randrange(8)
        elif kind == 2:
            number = random.choice([0, 1, 2**16, 2**48, 2**62, 2**64 - 1, random.randrange(200)])
            struct.pack_into("<Q", image, at & ~7, number)
        elif kind == 3:
            source = places()
            image[at : at + 64] = image[source : source + 64]
        elif kind == 4:
            source = random.randrange(83) * BLOCK
            image[at & ~8191 : (at & ~8191) + BLOCK] = image[source : source + BLOCK]
        else:
            image[at : at + 16] = bytes(16)
    if random.randrange(2):
        mended(image)
    if random.randrange(40) == 0:
        del image[random.randrange(len(image)) :]
    return bytes(image)


wrong = []


def run(path, word, what):
    try:
        words = [program, f"file:{path}", word]
        done = subprocess.run(words, stdout=subprocess.PIPE, timeout=LIMIT, check=False)
    except subprocess.TimeoutExpired:
        wrong.append(f"{what}: {word} takes more than {LIMIT} s")
        return None, b""
    if done.returncode not in STATUSES[word]:
        wrong.append(f"{what}: {word} ends with {done.returncode}")
    return done.returncode, done.stdout


def tried(path, data, word, what):
    """One command, and what it leaves."""
    path.write_bytes(data)
    before = run(path, "list", what) if word in ("recover", "upgrade") else None
    status, _ = run(path, word, what)
    left = path.read_bytes()
    if (word in ("list", "check") or status == 6) and left != data:
        wrong.append(f"{what}: {word} changes the image")
    if before is not None:
        if (before[0] == 6) != (status == 6):
            wrong.append(f"{what}: list ends with {before[0]}, {word} with {status}")
        if status == 0 and run(path, "list", what) != before:
            wrong.append(f"{what}: {word} changes the blobs")
    return status


lawful = images()
ended = {}
with tempfile.TemporaryDirectory(dir="/dev/shm" if pathlib.Path("/dev/shm").exists() else None) as name:
    path = pathlib.Path(name) / "disk.img"
    for n in range(runs):
        word = random.choice(list(STATUSES))
        status = tried(path, changed(random.choice(lawful)), word, f"run {n}")
        ended[word, status] = ended.get((word, status), 0) + 1
        if len(wrong) > 20:
            break

for line in wrong:
    print("random images:", line)
counts = ", ".join(f"{word} {status}: {count}" for (word, status), count in sorted(ended.items()))
print(f"random images: {sum(ended.values())} runs ({counts}), {len(wrong)} answers wrong")
sys.exit(1 if wrong else 0)
