"""The built program on random scripts and real files, with a fixed seed:
`random_scripts.py [VOLUMES [SECONDS [FIRST]]]`.

Each volume is made and then has up to five scripts run on it, lawful ones of one to sixteen sessions
and changed ones. What is printed is judged by `history.py` and `script_lines.py`, which share no code
with the program: the history is legal, each session's lines are there in order with the events that
they may make, each reply is that of its events, and what is read has the right bytes. After each run
`list` and `check` agree with the log, and the file has these blobs. Bytes of blobs are changed now and
then: each read of them then has its mismatch. A refused script leaves the file as it was. How threads
interleave isn't fixed by the seed: of a wrong answer the file before the run, the script and the text
are kept in `out/random_scripts`. It runs outside the gate."""
import pathlib
import random
import subprocess
import sys
import tempfile
import time

import built
import script_words
from core import LAST_NUMBER, Volume, Wrong
from history import judge
from script_lines import MOST_BYTES, Fault, parse, root_of
from stored import Stored
from volume import BLOCK, info_block

SEED = 20261201
LIMIT = 60
MOST_READ = 2000  # blocks of a file that is read and compared after each run
KEPT = built.TOP / "out/random_scripts"


class Disk:
    """A file with a volume, and what is known of it: its counts, version, blobs and next number."""

    def __init__(self, path, rng):
        self.path, self.rng = path, rng
        self.version = rng.choice([1, 2])
        self.is_full_of_nodes = rng.randrange(8) == 0
        blocks = rng.choice([2, 9, 33, 64, 64, 300, 1200])
        if self.is_full_of_nodes:
            blocks = rng.choice([140, 200])
        elif rng.randrange(60) == 0:
            blocks = 70000
        nodes = rng.choice([128, 128, 256])
        meta = 1 + -(-blocks // 65536) + nodes // 128
        self.counts = (blocks, nodes, meta + rng.choice([3, 3, 5, 20, 60]))
        self.total = meta + self.counts[2] + blocks + rng.choice([0, 0, 1])
        self.info_at = meta
        self.words = script_words.data_words(rng, blocks)
        if self.is_full_of_nodes:
            self.words = script_words.small_words(rng, nodes + rng.randrange(4))
        self.known_words = {root_of(word): word for word in self.words}
        self.blobs, self.next, self.calls, self.stored = {}, 1, 0, None
        self.is_damaged = False

    def run(self, *words, script=b""):
        """A command on the file, where the words name no other device."""
        device = [] if ":" in words[0] else [f"file:{self.path}"]
        command = [program, *device, *words]
        done = subprocess.run(
            command, input=script, stdout=subprocess.PIPE, timeout=LIMIT, check=False
        )
        return done.returncode, done.stdout.decode()

    def expect(self, what, got, wanted):
        if got != wanted:
            raise Wrong(f"{what}: got {got!r}, wanted {wanted!r}")

    def make(self):
        """The volume is made by `format`, or stays to be made by a `fresh` over any bytes. Gives the
        words with which the first script runs."""
        if self.rng.randrange(2):
            name = "format" if self.version == 1 else "format2"
            made = self.run(f"new:{self.total}:{self.path}", name, *map(str, self.counts))
            self.expect(name, made, (0, "formatted\n"))
            if self.rng.randrange(10) == 0:
                self.set_last_numbers()
            return ["script"]
        kind = self.rng.randrange(3)
        with open(self.path, "wb") as file:
            if kind and self.total < 2000:
                # Any bytes, or in each block what begins as an entry of the journal does.
                row = b"\xa5" * 16 if kind == 1 else b"yrtnbolb" + (1).to_bytes(8, "little")
                file.write(row * (BLOCK // 16 * self.total))
            file.truncate(self.total * BLOCK)
        return self.fresh()

    def fresh(self):
        """The words that make a volume of another version or the same over what is there."""
        self.fresh_version = self.rng.choice([1, 2])
        return ["fresh" if self.fresh_version == 1 else "fresh2", *map(str, self.counts)]

    def begin(self):
        """A volume is made anew by the script that follows."""
        self.version, self.blobs, self.next, self.calls = self.fresh_version, {}, 1, 0
        self.stored, self.is_damaged = None, False

    def set_last_numbers(self):
        """Few entries are left to be written."""
        self.next = LAST_NUMBER - self.rng.randrange(6)
        with open(self.path, "r+b") as file:
            file.seek(self.info_at * BLOCK)
            file.write(info_block(0, self.next))

    def script(self, words, script):
        """Runs a script and judges what it printed; gives the kinds of what was seen."""
        status, text = self.run(*words, script=script)
        self.text = text
        if len(script) > MOST_BYTES:
            self.expect("a long input", (status, text), (2, "input: too long\n"))
            return [("refused", "long")]
        try:
            lines = parse(script)
        except Fault as fault:
            line, kind = fault.args
            self.expect("a faulty script", (status, text), (2, f"script: line {line}: {kind}\n"))
            return [("refused", kind)]
        if words[0].startswith("mem:"):
            self.expect("a script on no volume", (status, text), (6, "volume: magic\n"))
            return [("refused", "magic")]
        volume = Volume(self.version, *self.counts[:2], self.blobs, self.next)
        seen, mismatches = judge(volume, lines, text, self.known_words, self.calls, self.stored)
        self.expect("status", status, 8 if mismatches else 0)
        is_unmounted = seen[-1][1] == "unmounted"
        self.blobs, self.next = volume.map, volume.next
        self.calls = 0 if is_unmounted else None
        if not is_unmounted and self.is_damaged:
            self.expect("status of recover", self.run("recover")[0], 0)
            self.calls = 0
        self.stored = None
        if self.calls == 0 and self.total < MOST_READ:
            self.stored = Stored(self.path.read_bytes())
            kept = {root: blob[:2] for root, blob in self.stored.blobs.items()}
            self.expect("the blobs of the file", kept, self.blobs)
        self.judge_disk(is_unmounted, volume.opening)
        return seen + [("line", "mismatch")] * mismatches

    def judge_disk(self, is_unmounted, old):
        """What `list` and `check` say. Only an old blob can have been damaged."""
        sizes = sorted((root, size) for root, (size, _) in self.blobs.items())
        listed = "".join(f"{root} {size}\n" for root, size in sizes)
        self.expect("list", self.run("list"), (0, listed))
        damaged = [root for root, _ in sizes if self.stored and not self.stored.is_whole(root)]
        self.expect("damaged blobs that are new", [root for root in damaged if root not in old], [])
        if damaged:
            report = "".join(f"damaged {root}\n" for root in damaged) + f"faults {len(damaged)}\n"
            self.expect("check", self.run("check"), (8, report))
            return
        status, report = self.run("check")
        head = f"check: clean\nblobs {len(sizes)}\nbytes {sum(size for _, size in sizes)}\nstale "
        self.expect("check", (status, report[: len(head)]), (0, head))
        if is_unmounted:
            self.expect("stale slots", report[len(head) :], "0\n")

    def damage(self):
        """Changes some bytes of the blobs of an unmounted volume, of their data or of their trees."""
        places = [places for _, _, places in self.stored.blobs.values() if places]
        if not places:
            return
        self.is_damaged, image = True, bytearray(self.stored.image)
        for _ in range(self.rng.choice([1, 1, 2, 5])):
            block = self.stored.data_at + self.rng.choice(self.rng.choice(places))
            inside = self.rng.choice([0, 31, 32, 64, self.rng.randrange(300), self.rng.randrange(BLOCK)])
            image[block * BLOCK + inside] ^= 1 << self.rng.randrange(8)
        self.path.write_bytes(image)
        self.stored = Stored(bytes(image))

    def between(self):
        """What may happen between two scripts."""
        kind = self.rng.randrange(8)
        if kind == 0 and self.calls == 0:
            self.expect("upgrade", self.run("upgrade"), (0, "upgraded 0\n"))
            self.version = 2
        elif kind == 1 and self.calls == 0:
            self.expect("recover", self.run("recover"), (0, "recovered 0\n"))
        elif kind in (2, 3) and self.stored:
            self.damage()


def device_of(rng, script, words):
    """A changed script that is none runs on the volume or on four zero blocks; a lawful one there."""
    try:
        parse(script)
    except Fault:
        return rng.choice([["mem:4", "script"], words])
    return ["mem:4", "script"]


def tried(number, path, seen, texts):
    """One volume with its scripts."""
    rng = random.Random(f"{SEED} {number}")
    path.unlink(missing_ok=True)
    disk = Disk(path, rng)
    words = disk.make()
    for turn in range(rng.choice([1, 1, 2, 3, 5])):
        before = path.read_bytes() if disk.total < 5000 else None
        disk.text, script = "", b""
        try:
            for _ in range(rng.randrange(4)):
                script = script_words.faulty(rng, disk.words)
                note(disk.script(device_of(rng, script, words), script), seen, texts)
                if before is not None:
                    disk.expect("a refused script changes the file", path.read_bytes() == before, True)
            script = script_words.script(rng, disk.words, disk.is_full_of_nodes and turn == 0)
            if words[0].startswith("fresh"):
                disk.begin()
            kinds = disk.script(words, script)
            disk.expect("a lawful script", kinds[0][0] == "refused", False)
            note(kinds, seen, texts)
            disk.between()
            words = ["script"] if rng.randrange(8) else disk.fresh()
        except (Wrong, subprocess.TimeoutExpired, ValueError, LookupError) as wrong:
            keep(number, before, script, disk.text)
            what = f"volume {number}, turn {turn}, version {disk.version} of {disk.counts}, {' '.join(words)}"
            return f"{what}: {type(wrong).__name__} {wrong}"
    return None


def note(kinds, seen, texts):
    is_refused = kinds[0][0] == "refused"
    texts["refused" if is_refused else "run"] += 1
    texts["events"] += 0 if is_refused else len(kinds)
    for kind in kinds:
        seen[kind] = seen.get(kind, 0) + 1


def keep(number, before, script, text):
    folder = KEPT / str(number)
    folder.mkdir(parents=True, exist_ok=True)
    for name, data in [("before.img", before), ("script", script), ("text", text.encode())]:
        if data is not None:
            (folder / name).write_bytes(data)


def main():
    volumes = int(sys.argv[1]) if len(sys.argv) > 1 else 1000
    seconds = int(sys.argv[2]) if len(sys.argv) > 2 else 600
    first = int(sys.argv[3]) if len(sys.argv) > 3 else 0
    end, wrong, seen, done = time.monotonic() + seconds, [], {}, 0
    texts = {"run": 0, "refused": 0, "events": 0}
    with tempfile.TemporaryDirectory(dir="/dev/shm" if pathlib.Path("/dev/shm").exists() else None) as name:
        for number in range(first, first + volumes):
            found = tried(number, pathlib.Path(name) / "disk.img", seen, texts)
            done += 1
            if found:
                wrong.append(found)
            if len(wrong) > 20 or time.monotonic() > end:
                break
    for line in wrong:
        print("random scripts:", line)
    for (what, reply), count in sorted(seen.items()):
        print(f"random scripts: {what} {reply}: {count}")
    print(
        f"random scripts: {done} volumes, {texts['run']} scripts run with {texts['events']} events, "
        f"{texts['refused']} scripts refused, {len(wrong)} answers wrong"
    )
    return 1 if wrong else 0


if __name__ == "__main__":
    program = built.program("random scripts")
    sys.exit(main())
