"""The built program and the script `blobfs` as their users meet them, on real files: a link to the
script, its progress and what it builds again for (with a stand-in for `rt`), the time that it adds,
signals, two programs on one file, the cause of a fault on standard error, full and block devices.

What needs a tool or a right that isn't here is skipped, and named."""
import fcntl
import os
import pathlib
import shutil
import signal
import statistics
import subprocess
import sys
import tempfile
import time

from merkle import root
from volume import empty_volume

top = pathlib.Path(__file__).resolve().parent.parent
candidates = [top / "out/blobfs", top / "crates/bv_main/out/bv_main"]
built = [path for path in candidates if path.exists()]
if not built:
    print("files: skipped, the program isn't built")
    sys.exit(0)
wrong = []
skipped = []

HI = root(b"hi").hex().encode() + b"\n"
COUNTS = ["64", "128", "16"]
FAULT = b"device: fault\n"
KIT = "the kit of this test"

# What stands in for `rt`: it prints a few lines as the checker does, with a pause, and its program
# is the one that is there.
STAND_IN = f"""#!/bin/sh
case $1 in
version) echo "{KIT}" ;;
try) shift 2 && printf '%s\\n' "$@" ;;
run)
    echo "rt: chose --jobs 1 for spec_tree"
    echo "fn spec_tree::first: proved by auto"
    sleep 1
    echo "rt: chose --jobs 1 for bv_main"
    echo "fn bv_main::second: proved by auto"
    echo "axioms os: os::c::strerror"
    mkdir -p out && cp "$PROGRAM" out/bv_main
    ;;
esac
"""


def expect(what, got, wanted):
    if got != wanted:
        wrong.append(f"{what}: got {got!r}, wanted {wanted!r}")


def expect_in(what, part, text):
    if part not in text:
        wrong.append(f"{what}: no {part!r} in {text!r}")


def run(words, **options):
    """Runs words to their end, with `hi` as the input where nothing else is said."""
    if "stdin" not in options:
        options.setdefault("input", b"hi")
    options.setdefault("stdout", subprocess.PIPE)
    options.setdefault("stderr", subprocess.PIPE)
    return subprocess.run([str(word) for word in words], check=False, **options)


def expect_run(what, done, status, line, cause=b""):
    expect(f"{what}, status and output", (done.returncode, done.stdout), (status, line))
    expect(f"{what}, standard error", done.stderr, cause)


def cause_of(what, text):
    return f"blobfs: {what}: {text}\n".encode()


def is_newer_at(tree, path, environment):
    """Changes a file of the tree, and returns what a call says after the second that a look lasts."""
    time.sleep(1.2)
    os.utime(tree / path)
    return run([tree / "blobfs", "root"], env=environment).stderr


def check_script(folder, program):
    """Points 1 to 3: a link, the progress, what is built again, the version and the time."""
    tree = folder / "tree"
    ignored = shutil.ignore_patterns("out", "must-fail", ".rattle*")
    shutil.copytree(top / "crates", tree / "crates", ignore=ignored)
    for name in ["blobfs", "crates.txt"]:
        shutil.copy(top / name, tree / name)
    tools = folder / "tools"
    tools.mkdir()
    (tools / "rt").write_text(STAND_IN)
    (tools / "rt").chmod(0o755)
    environment = os.environ | {"PATH": f"{tools}:{os.environ['PATH']}", "PROGRAM": str(program)}
    check_progress(tree, environment)
    check_links(folder, tree)
    done = run([tree / "blobfs", "--version"])
    expect_run("--version", done, 0, run([program, "--version"]).stdout + f"{KIT}\n".encode())
    for path in ["bv_main/src/main.rt", "bv_main/specs/Files.antt", "bv_main/proofs/Lib.antt"]:
        said = is_newer_at(tree, f"crates/{path}", environment)
        expect_in(f"a change of {path}", b"have changed: building", said)
        expect(f"the first time, after {path}", b"first time" in said, False)
    done = run([tree / "blobfs", "--unproved", "file:x.img", "list"], cwd=folder, env=environment)
    expect("--unproved", done.stdout, f"file:{folder}/x.img\nlist\n".encode())
    expect_in("--unproved", b"nothing of this run is proved", done.stderr)
    check_time(tree, program)


def check_progress(tree, environment):
    """The first call tells how far it is while it builds, and a second one that it waits."""
    words = [str(tree / "blobfs"), "root"]
    pipes = {name: subprocess.PIPE for name in ["stdin", "stdout", "stderr"]}
    with subprocess.Popen(words, env=environment, **pipes) as first:
        lines = []
        while not lines or b"crate 1 of" not in lines[-1]:
            line = first.stderr.readline()
            if not line:
                break
            lines.append(line)
        began = time.monotonic()
        second = run(words, env=environment)
        out, rest = first.communicate(b"hi")
    said = b"".join(lines) + rest
    expect("live progress", time.monotonic() - began > 0.5, True)
    expect("the first call", (first.returncode, out), (0, HI))
    expect("the second call", (second.returncode, second.stdout), (0, HI))
    for part in [b"the first time", b"crate 1 of ", b", spec_tree: ", b", bv_main: 1 functions proved"]:
        expect_in("the first call", part, said)
    expect("jargon", [line for line in said.splitlines() if b"rt: " in line or b"::" in line], [])
    if shutil.which("flock"):
        expect_in("the second call", b"waiting for it", second.stderr)
    else:
        skipped.append("a call that waits (no flock)")


def check_links(folder, tree):
    """The script is called by links from a folder of its own, and leaves nothing there."""
    links = folder / "links"
    links.mkdir()
    (links / "first").symlink_to("../tree/blobfs")
    (links / "second").symlink_to("first")
    for name in ["first", "second"]:
        expect_run(f"the {name} link", run([links / name, "root"], cwd=links), 0, HI)
        expect_run(f"./{name}", run([f"./{name}", "root"], cwd=links), 0, HI)
    expect("files beside the links", sorted(os.listdir(links)), ["first", "second"])


def check_time(tree, program):
    """The script adds at most 2 ms to a call: the middle of many, by turns with the program. Where
    other work holds the processors it is the least of them, since such work only adds to a time."""
    taken = {"program": [], "script": []}
    for _ in range(200):
        for name, path in [("program", program), ("script", tree / "blobfs")]:
            began = time.perf_counter()
            run([path, "--version", "x"], stdin=subprocess.DEVNULL)
            taken[name].append(time.perf_counter() - began)
    added = {}
    for name, of in [("least", min), ("middle", statistics.median)]:
        added[name] = (of(taken["script"]) - of(taken["program"])) * 1000
        print(f"files: the script adds {added[name]:.2f} ms to a call, the {name} of 200")
    is_quiet = os.getloadavg()[0] < os.cpu_count() / 2
    which = "middle" if is_quiet else "least"
    expect(f"the script adds at most 2 ms, the {which} of 200", added[which] <= 2, True)


def check_signals(folder, program):
    """Point 4: what ends a plain run, and a run by the script."""
    script = folder / "tree/blobfs"
    for name, path in [("plain", program), ("script", script)]:
        reader, writer = os.pipe()
        os.close(reader)
        done = run([path, "root"], stdout=writer)
        os.close(writer)
        expect(f"a pipe that nobody reads, {name}", done.returncode, 4)
        expect(f"its cause, {name}", done.stderr, cause_of("output", "Broken pipe (os error 32)"))
    limit = 'ulimit -f 64; exec "$0" "new:83:$1" format 64 128 16'
    done = run(["bash", "-c", limit, program, folder / "limit-plain.img"])
    expect("a file at its limit, plain", done.returncode, -signal.SIGXFSZ)
    done = run(["bash", "-c", limit, script, folder / "limit.img"])
    expect_run("a file at its limit", done, 5, FAULT, cause_of("device", "File too large (os error 27)"))


def check_locks(folder, program):
    """Point 5: one writer at a time, or several readers."""
    image = folder / "locked.img"
    volume = empty_volume(64, 128, 16, 1)
    image.write_bytes(volume)
    locked = cause_of("device", "another program has it locked")
    for how, words, is_open in [
        (fcntl.LOCK_SH, ["list"], True),
        (fcntl.LOCK_SH, ["root"], True),
        (fcntl.LOCK_SH, ["recover"], False),
        (fcntl.LOCK_SH, ["format", *COUNTS], False),
        (fcntl.LOCK_EX, ["check"], False),
        (fcntl.LOCK_EX, ["format", *COUNTS], False),
    ]:
        with open(image, "rb") as held:
            fcntl.flock(held, how)
            done = run([program, f"file:{image}", *words])
        if is_open:
            expect(f"{words} beside a reader", (done.returncode, done.stderr), (0, b""))
        else:
            expect_run(f"{words} of a locked file", done, 5, FAULT, locked)
    expect("bytes of the locked file", image.read_bytes() == volume, True)
    check_two_writers(folder / "two.img", program)


def check_two_writers(image, program):
    """Two `format`s at once leave a volume of one of the two, and never a mixture."""
    wanted = [empty_volume(64, 128, 1000, version) for version in [1, 2]]
    statuses = set()
    for number in range(60):
        image.write_bytes(bytes(len(wanted[0])))
        words = [str(program), f"file:{image}"]
        pair = [
            subprocess.Popen([*words, name, "64", "128", "1000"], stdout=subprocess.DEVNULL,
                             stderr=subprocess.DEVNULL)
            for name in ["format", "format2"]
        ]
        ended = tuple(sorted(process.wait() for process in pair))
        statuses.add(ended)
        expect(f"two writers, round {number}", image.read_bytes() in wanted, True)
    expect("statuses of two writers", statuses <= {(0, 0), (0, 5)}, True)


def check_causes(folder, program):
    """Point 6: the cause of a fault, one line on standard error."""
    image = folder / "image.img"
    made = [program, f"new:83:{image}", "format", *COUNTS]
    expect_run("a new file", run(made), 0, b"formatted\n")
    for what, words, text in [
        ("exists", made[1:], "File exists (os error 17)"),
        ("missing", [f"file:{folder}/absent.img", "list"], "No such file or directory (os error 2)"),
        ("no folder", [f"new:1:{folder}/absent/x", "root"], "No such file or directory (os error 2)"),
        ("a folder", [f"file:{folder}", "list"], "neither a file nor a block device"),
        ("a pipe", [f"file:{folder}/pipe", "list"], "neither a file nor a block device"),
    ]:
        if what == "a pipe":
            os.mkfifo(folder / "pipe")
        expect_run(what, run([program, *words], timeout=20), 5, FAULT, cause_of("device", text))
    source = b"source: fault\n"
    done = run(["bash", "-c", 'exec "$0" root </', program])
    expect_run("a folder as the input", done, 3, source, cause_of("input", "Is a directory (os error 21)"))
    done = run(["bash", "-c", 'exec "$0" root <&-', program])
    expect_run("a closed input", done, 3, source, cause_of("input", "Bad file descriptor (os error 9)"))
    full = cause_of("output", "No space left on device (os error 28)")
    with open("/dev/full", "wb") as device:
        done = run([program, "root"], stdout=device)
        expect("a full output", (done.returncode, done.stderr), (4, full))
    for words, status in [(["frob"], 1), (["mem:82", "format", *COUNTS], 6), (["mem:4", "check"], 6)]:
        done = run([program, *words])
        expect(f"no cause of {words}", (done.returncode, done.stderr), (status, b""))
    done = run(["bash", "-c", 'exec "$0" "file:$1" list 2>&-', program, folder / "absent.img"])
    expect("a closed standard error", (done.returncode, done.stdout), (5, FAULT))
    check_rights(image, program)


def check_rights(image, program):
    """A file that may only be read is listed and checked, and not written."""
    image.chmod(0o444)
    options = {"user": 65534, "group": 65534} if os.geteuid() == 0 else {}
    denied = cause_of("device", "Permission denied (os error 13)")
    expect_run("list of a file to be read", run([program, f"file:{image}", "list"], **options), 0, b"")
    done = run([program, f"file:{image}", "format", *COUNTS], **options)
    expect_run("format of a file to be read", done, 5, FAULT, denied)


def check_devices(folder, program):
    """Points 6 and 7: full and read-only file systems, a block device, no memory, a name that lasts."""
    if os.geteuid() == 0 and shutil.which("mount"):
        check_small_disk(folder / "disk", program)
    else:
        skipped.append("a full and a read-only disk (no mount)")
    check_loop(folder / "loop.img", program)
    limited = 'ulimit -v 200000; exec "$0" mem:16467 format 64 128 16400'
    done = run(["bash", "-c", limited, program])
    expect_run("no memory for a write", done, 5, FAULT, cause_of("device", "out of memory"))
    for words, line in [(["root"], HI), (["mem:83", "format", *COUNTS], b"formatted\n")]:
        done = run(["bash", "-c", 'ulimit -S -s 640; exec "$0" "$@"', program, *words])
        expect_run(f"640 KiB of stack for {words}", done, 0, line)
    if not shutil.which("strace"):
        skipped.append("the sync of a new file's folder (no strace)")
        return
    (folder / "new").mkdir()
    words = ["strace", "-f", "-y", "-e", "trace=fsync", program, f"new:1:{folder}/new/x.img", "root"]
    said = run(words).stderr
    for name in ["new/x.img>", "new>"]:
        expect_in("the syncs of new:", f"{folder}/{name}".encode(), said)


def check_small_disk(disk, program):
    """A disk of 400 KiB is filled by a volume, and nothing is made on it once it is read-only."""
    disk.mkdir()
    if run(["mount", "-t", "tmpfs", "-o", "size=400k", "tmpfs", disk]).returncode:
        skipped.append("a full and a read-only disk (no tmpfs)")
        return
    try:
        done = run([program, f"new:83:{disk}/x.img", "format", *COUNTS])
        expect("a small disk", done.returncode, 0)
        done = run([program, f"new:400:{disk}/y.img", "format", "64", "128", "300"])
        full = cause_of("device", "No space left on device (os error 28)")
        expect_run("a full disk", done, 5, FAULT, full)
        run(["mount", "-o", "remount,ro", disk])
        only_read = cause_of("device", "Read-only file system (os error 30)")
        done = run([program, f"file:{disk}/x.img", "format", *COUNTS])
        expect_run("format of a read-only disk", done, 5, FAULT, only_read)
        done = run([program, f"new:1:{disk}/z.img", "root"])
        expect_run("new: of a read-only disk", done, 5, FAULT, only_read)
        expect_run("list of a read-only disk", run([program, f"file:{disk}/x.img", "list"]), 0, b"")
    finally:
        run(["umount", disk])


def check_loop(image, program):
    """A block device has as many blocks as its end says."""
    image.write_bytes(bytes(84 * 8192))
    done = run(["losetup", "--find", "--show", image]) if shutil.which("losetup") else None
    if done is None or done.returncode:
        skipped.append("a block device (no loop file)")
        return
    device = done.stdout.decode().strip()
    try:
        done = run([program, f"file:{device}", "format", "66", "128", "16"])
        expect_run("too many blocks for a block device", done, 6, b"volume: short 85 84\n")
        done = run([program, f"file:{device}", "format", *COUNTS])
        expect_run("format of a block device", done, 0, b"formatted\n")
        expect_run("list of a block device", run([program, f"file:{device}", "list"]), 0, b"")
    finally:
        run(["losetup", "--detach", device])
    expect("bytes of a block device", image.read_bytes()[: 83 * 8192] == empty_volume(64, 128, 16, 1), True)


with tempfile.TemporaryDirectory() as name:
    folder = pathlib.Path(name)
    folder.chmod(0o755)
    program = folder / "program"
    shutil.copy(max(built, key=lambda path: path.stat().st_mtime), program)
    check_script(folder, program)
    check_signals(folder, program)
    check_locks(folder, program)
    check_causes(folder, program)
    check_devices(folder, program)

for line in wrong:
    print("files:", line)
for what in skipped:
    print("files: skipped,", what)
print(f"files: {len(wrong)} answers wrong, {len(skipped)} parts skipped")
sys.exit(1 if wrong else 0)
