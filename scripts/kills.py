"""The built program killed in mid-run, on real files, with a fixed seed: `kills.py [KILLS [SECONDS
[FIRST]]]`.

A script of one session runs, by `fresh` over any bytes or by `script` on a volume with blobs, and is
ended by SIGKILL at a random moment; now and then the `recover` after it, too. What the session's
events are is known, so the list of all maps that its log goes through is known. After the kill `check`
is clean, or `format` wasn't done yet; `list` is one of these maps. How many writes the program had made
is told by the system where it has /proc, and bounds which of them: so each blob that was synced is
there. Then a further script runs on the volume and is judged as `random_scripts.py` does. The moment of
a kill isn't fixed by the seed: of a wrong answer the file after it and the script are kept in
`out/kills`. It runs outside the gate."""
import os
import pathlib
import random
import signal
import subprocess
import sys
import tempfile
import time

import built
import script_words
from core import Volume, Wrong
from history import WORDS, judge, parts
from script_lines import content, parse, root_of
from volume import BLOCK

SEED = 20261202
LIMIT = 60
KEPT = built.TOP / "out/kills"


class Disk:
    """A file, the counts of its volume, and the blobs that were there before the run that is killed."""

    def __init__(self, path, rng):
        self.path, self.rng, self.text, self.left = path, rng, "", None
        self.version = rng.choice([1, 2])
        blocks, nodes = rng.choice([200, 500, 1500]), rng.choice([256, 384])
        meta = 1 + -(-blocks // 65536) + nodes // 128
        self.counts = (blocks, nodes, meta + rng.choice([3, 5, 12, 40, 200]))
        self.total = meta + self.counts[2] + blocks
        self.meta, self.blobs, self.known_words, self.old = meta, {}, {}, None
        self.fresh = ["fresh" if self.version == 1 else "fresh2", *map(str, self.counts)]
        self.words = script_words.data_words(rng, 40) + script_words.small_words(rng, 4)
        self.words = [word for word in self.words if len(content(word)) < 400000]

    def formatting(self, is_fresh):
        """The writes of `format`: block 0 twice, the other metadata, the info block and the ring."""
        return self.meta + self.counts[2] + 1 if is_fresh else 0

    def command(self, *words):
        return [program, f"file:{self.path}", *words]

    def run(self, *words, script=b""):
        clock = time.monotonic()
        done = subprocess.run(
            self.command(*words), input=script, stdout=subprocess.PIPE, timeout=LIMIT, check=False
        )
        self.length = time.monotonic() - clock
        return done.returncode, done.stdout.decode()

    def expect(self, what, got, wanted):
        if got != wanted:
            raise Wrong(f"{what}: got {got!r}, wanted {wanted!r}")

    def judged(self, words, script, calls=0):
        """A whole run. Gives the blobs and the text."""
        status, self.text = self.run(*words, script=script)
        self.expect("status", status, 0)
        volume = Volume(self.version, *self.counts[:2], self.blobs)
        judge(volume, parse(script), self.text, self.known_words, calls)
        return volume.map, self.text

    def killed(self, words, script, after=0, target=0):
        """Runs, and kills after so many seconds and so many writes. Gives how many writes were made,
        where that is told, and whether the run had ended by itself."""
        source = self.path.with_suffix(".script")
        source.write_bytes(script)
        with open(source, "rb") as file:
            child = subprocess.Popen(self.command(*words), stdin=file, stdout=subprocess.DEVNULL)
        time.sleep(after)
        end = time.monotonic() + 1
        while (writes_of(child.pid) or target) < target and time.monotonic() < end:
            pass
        os.kill(child.pid, signal.SIGKILL)  # it isn't waited for yet, so the number is its own
        os.waitid(os.P_PID, child.pid, os.WEXITED | os.WNOWAIT)
        writes, status = writes_of(child.pid), child.wait()
        if status not in (0, -signal.SIGKILL):
            raise Wrong(f"the run that is killed ends with {status}")
        return writes, status == 0


def writes_of(pid):
    """The calls of write that a process has made which wasn't waited for yet; None where the system
    doesn't tell them."""
    try:
        rows = pathlib.Path(f"/proc/{pid}/io").read_text().split("\n")
        return next(int(row.split()[1]) for row in rows if row.startswith("syscw:"))
    except (OSError, StopIteration):
        return None


def one_session(rng, words):
    """A script of adds, unlinks and syncs, with slots opened and closed between."""
    rows, there, slots = [], [], list(range(8))
    for _ in range(rng.choice([30, 80, 200])):
        kind = rng.randrange(10)
        if kind < 5:
            new = f"seq:{rng.randrange(256)}:{rng.randrange(30000)}"
            word = rng.choice(words) if rng.randrange(3) else new
            rows.append(f"0 add {word}")
            there.append(word)
        elif kind < 7 and there:
            rows.append(f"0 unlink {root_of(there.pop(rng.randrange(len(there))))}")
        elif kind == 7 and there:
            rows.append(f"0 open {rng.choice(slots)} {root_of(rng.choice(there))}")
        elif kind == 8:
            rows.append(f"0 close {rng.choice(slots)}")
        else:
            rows.append("0 sync")
    return ("\n".join(rows) + "\n").encode()


def moment(rng, length, formatting, course):
    """When a run is killed: after so many seconds, or once it has made so many writes, any number or
    one about a settle's."""
    kind = rng.randrange(3)
    if kind == 0:
        return rng.uniform(0.001, length), 0
    if kind == 1 or not course.settles:
        return 0, rng.randrange(formatting + course.ends[-1][0] + 1)
    return 0, formatting + rng.choice(course.settles) + rng.randrange(-2, 4)


class Course:
    """What a run of one session has done by each of its events, read from the text of a whole run."""

    def __init__(self, disk, text):
        volume = Volume(disk.version, *disk.counts[:2], disk.blobs)
        self.maps = [as_list(volume.map)]  # after each event
        self.ends = [(0, 0)]  # the least and the most writes by the end of each event
        self.synced = [0]  # the last event whose changes are durable, by the end of each event
        self.settles = []  # the least writes before each settle
        before = 0
        for count, row in enumerate(parts(text)[1], 1):
            event, calls = row.rsplit(" @", 1)
            _, session, _, *words = event.split(" ")
            self.step(volume, int(session), words)
            least, most = self.ends[-1]
            syncs = SYNCS.get(words[0], (0, 0))
            self.settles += [least] if words[0] == "settle" else []
            rise, before = int(calls) - before, int(calls)
            self.ends.append((least + max(0, rise - syncs[1]), most + rise - min(rise, syncs[0])))
            self.maps.append(as_list(volume.map))
            is_sync = words[-1] in ("synced", "unmounted")
            self.synced.append(count if is_sync else self.synced[-1])

    def step(self, volume, session, words):
        """Follows the printed event, which was judged before."""
        split = WORDS[words[0]]
        volume.step(session, words[:split], " ".join(words[split:]))

    def possible(self, writes):
        """The maps that a kill after so many writes may leave: from the last sync that has surely
        ended to the last event that can have begun."""
        if writes is None:
            return self.maps
        ended = max(k for k, (_, most) in enumerate(self.ends) if k == 0 or most < writes)
        begun = max(k for k, (least, _) in enumerate(self.ends) if least <= writes)
        return self.maps[self.synced[ended] : begun + 2]


# The fewest and the most syncs of an event that makes any device call.
SYNCS = {"settle": (1, 5), "sync": (1, 6), "unmount": (1, 9)}


def as_list(blobs):
    return "".join(sorted(f"{root} {size}\n" for root, (size, _) in blobs.items()))


def after_kill(disk, course, writes, is_fresh, ended, seen):
    """What a kill has left. Gives whether a volume is there."""
    status, report = disk.run("check")
    formatting = disk.formatting(is_fresh)
    if (status, report) == (6, "volume: magic\n") and is_fresh:
        if ended or (writes is not None and writes > formatting):
            raise Wrong(f"no volume after {writes} writes, of which {formatting} make it")
        seen["within format"] += 1
        return False
    disk.expect("check", (status, report[:13]), (0, "check: clean\n"))
    status, listed = disk.run("list")
    disk.expect("status of list", status, 0)
    possible = course.possible(None if writes is None else max(0, writes - formatting))
    if ended:
        possible = course.maps[-1:]
    elif is_fresh and not writes and disk.old is not None:
        possible = [disk.old, *(possible if writes is None else [])]
    if listed not in possible:
        where = [k for k, one in enumerate(course.maps) if one == listed]
        raise Wrong(f"list is that of the events {where}, with {len(possible)} maps possible")
    seen["ended by itself" if ended else "in mid-run"] += 1
    seen["maps possible"] += len(set(possible))
    seen["with a stale slot"] += not report.endswith("stale 0\n")
    disk.blobs = blobs_of(disk, listed)
    return True


def blobs_of(disk, listed):
    """The blobs of a list. All of a file were made in the version that it has."""
    pairs = [row.split(" ") for row in listed.split("\n") if row]
    return {root: (int(size), disk.version) for root, size in pairs}


def recovered(disk, rng, seen):
    """A recovery, killed at a random moment, and one that isn't: the blobs stay."""
    listed = as_list(disk.blobs)
    disk.killed(["recover"], b"", rng.uniform(0, 0.006))
    seen["recoveries killed"] += 1
    disk.expect("list after a killed recovery", disk.run("list"), (0, listed))
    disk.expect("check after it", disk.run("check")[0], 0)
    if rng.randrange(2):
        disk.expect("recovery", disk.run("recover")[0], 0)
        disk.expect("list after a recovery", disk.run("list"), (0, listed))


def prepared(disk, rng, is_fresh):
    """The bytes of the file as the run that is killed finds them: of no volume, or of one with blobs,
    over which a `fresh` then makes another."""
    kind = rng.randrange(3) if is_fresh else 2
    with open(disk.path, "wb") as file:
        if kind == 1:
            file.write(b"\xa5" * BLOCK * disk.total)
        file.truncate(disk.total * BLOCK)
    if kind == 2:
        blobs, _ = disk.judged(disk.fresh, one_session(rng, disk.words))
        disk.old, disk.blobs = as_list(blobs), {} if is_fresh else blobs


def tried(number, path, kills, seen):
    """One script on one file, killed several times."""
    rng = random.Random(f"{SEED} {number}")
    disk = Disk(path, rng)
    is_fresh = rng.randrange(2) == 0
    what, script, writes = f"file {number}, version {disk.version} of {disk.counts}", b"", None
    try:
        prepared(disk, rng, is_fresh)
        begun, opening = path.read_bytes(), dict(disk.blobs)
        words = disk.fresh if is_fresh else ["script"]
        script = one_session(rng, disk.words)
        _, text = disk.judged(words, script)
        course = Course(disk, text)
        length = disk.length
        for _ in range(kills):
            path.write_bytes(begun)
            disk.blobs, disk.text = dict(opening), ""
            writes, ended = disk.killed(words, script, *moment(rng, length, disk.formatting(is_fresh), course))
            disk.left = path.read_bytes()
            seen["kills"] += 1
            if not after_kill(disk, course, writes, is_fresh, ended, seen):
                disk.blobs, _ = disk.judged(disk.fresh, b"0 add hex:6869\n0 sync\n0 list\n")
                continue
            if rng.randrange(3) == 0:
                recovered(disk, rng, seen)
            further = script_words.script(rng, disk.words, False)
            disk.blobs, _ = disk.judged(["script"], further, None)
            disk.expect("list at last", disk.run("list"), (0, as_list(disk.blobs)))
            disk.expect("check at last", disk.run("check")[0], 0)
    except (Wrong, subprocess.TimeoutExpired, ValueError, LookupError) as wrong:
        keep(number, disk.left, script, disk.text)
        return f"{what}, {' '.join(words)}, {writes} writes: {type(wrong).__name__} {wrong}"
    return None


def keep(number, left, script, text):
    folder = KEPT / str(number)
    folder.mkdir(parents=True, exist_ok=True)
    for name, data in [("after.img", left), ("script", script), ("text", text.encode())]:
        if data is not None:
            (folder / name).write_bytes(data)


def main():
    kills = int(sys.argv[1]) if len(sys.argv) > 1 else 1000
    seconds = int(sys.argv[2]) if len(sys.argv) > 2 else 600
    number = int(sys.argv[3]) if len(sys.argv) > 3 else 0
    end, wrong = time.monotonic() + seconds, []
    names = ["kills", "within format", "in mid-run", "ended by itself", "maps possible"]
    seen = dict.fromkeys([*names, "with a stale slot", "recoveries killed"], 0)
    with tempfile.TemporaryDirectory(dir="/dev/shm" if pathlib.Path("/dev/shm").exists() else None) as name:
        while seen["kills"] < kills and len(wrong) <= 20 and time.monotonic() < end:
            found = tried(number, pathlib.Path(name) / "disk.img", min(10, kills - seen["kills"]), seen)
            number += 1
            if found:
                wrong.append(found)
    for line in wrong:
        print("kills:", line)
    whole = seen["in mid-run"] + seen["ended by itself"]
    print(
        f"kills: {seen['kills']} kills, {seen['within format']} within format, {seen['in mid-run']} in mid-run, "
        f"{seen['ended by itself']} behind the end, {seen['with a stale slot']} with a stale slot, "
        f"{seen['maps possible'] / max(1, whole):.1f} maps possible on average; "
        f"{seen['recoveries killed']} recoveries killed, {len(wrong)} answers wrong"
    )
    return 1 if wrong else 0


if __name__ == "__main__":
    program = built.program("kills")
    sys.exit(main())
