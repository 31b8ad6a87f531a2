"""The built program from outside: roots against hashlib, usage, help, closed and broken streams,
the bytes of the volumes that it makes against their format, what it says of volumes that are whole
and damaged, and what the script `blobfs` adds."""
import os
import pathlib
import re
import shutil
import subprocess
import sys
import tempfile

import built
from merkle import root
from volume import empty_volume, pending_volume

top = built.TOP
program = built.program("program")
wrong = []


def run(words, data=b"", **streams):
    streams.setdefault("stdout", subprocess.PIPE)
    streams.setdefault("stderr", subprocess.DEVNULL)
    return subprocess.run([program, *words], input=data, check=False, **streams)


def expect(what, got, wanted):
    if got != wanted:
        wrong.append(f"{what}: got {got!r}, wanted {wanted!r}")


sizes = [0, 1, 8191, 8192, 8193, 65536, 65537, 524288, 2097152, 2097153, 67108864]
for size in sizes:
    data = (bytes(range(251)) * (size // 251 + 1))[:size]
    done = run(["root"], data)
    wanted = root(data).hex().encode() + b"\n"
    expect(f"root of {size} bytes", (done.returncode, done.stdout), (0, wanted))

done = run(["root"], bytes(67108865))
expect("too much input", (done.returncode, done.stdout), (2, b"input: too long\n"))

for words in [[], ["root", "x"], ["frob"], [""], [b"\xff"], ["root", b"\xff"]]:
    done = run(words)
    expect(f"status of {words}", done.returncode, 1)
    expect(f"line of {words}", done.stdout.split(b" ")[0], b"usage:")

for word in ["--help", "--version"]:
    done = run([word])
    expect(f"status of {word}", done.returncode, 0)
    expect(f"text of {word}", len(done.stdout) > 10, True)

# The program names no kit, and README.md the one that is here.
expect("--version", run(["--version"]).stdout, b"blobfs 0.1.0\n")
if shutil.which("rt"):
    kit = subprocess.run(["rt", "version"], stdout=subprocess.PIPE, check=True, text=True).stdout
    named = re.search(r"^Proved with: `(.*)`\.$", (top / "README.md").read_text(), re.MULTILINE)
    expect("the kit of README.md", named and named[1], kit.strip())

with open("/dev/full", "wb") as full:
    expect("a full disk", run(["root"], stdout=full).returncode, 4)
    expect("a full disk under a refusal", run(["frob"], stdout=full).returncode, 1)



def run_in_shell(line, *arguments):
    """Runs a line of bash, in which $0 is the program."""
    return subprocess.run(
        ["bash", "-c", line, program, *arguments], stdout=subprocess.PIPE,
        stderr=subprocess.DEVNULL, check=False,
    )


# Reading a directory fails at the first read.
for name, line in [("a directory", 'exec "$0" root < /'), ("a closed input", 'exec "$0" root <&-')]:
    done = run_in_shell(line)
    expect(f"{name} as the source", (done.returncode, done.stdout), (3, b"source: fault\n"))

with tempfile.TemporaryDirectory() as name:
    folder = pathlib.Path(name)

    # Volumes: the file is the format's, byte by byte.
    for command, counts, version in [
        ("format", (64, 128, 16), 1),
        ("format2", (64, 128, 16), 2),
        ("format", (65537, 256, 8), 1),
    ]:
        image = folder / f"{command}-{counts[0]}.img"
        wanted = empty_volume(*counts, version)
        made = f"new:{len(wanted) // 8192}:{image}"
        done = run([made, command, *map(str, counts)])
        expect(f"{command} {counts}", (done.returncode, done.stdout), (0, b"formatted\n"))
        expect(f"bytes of {command} {counts}", image.read_bytes() == wanted, True)
        done = run([made, command, *map(str, counts)])
        expect(f"{command} twice", (done.returncode, done.stdout), (5, b"device: fault\n"))
        expect(f"bytes of {command} twice", image.read_bytes() == wanted, True)

    # A file that is there: formatted over, and what lies behind its whole blocks stays.
    image = folder / "old.img"
    image.write_bytes(b"\xa5" * (84 * 8192 + 100))
    done = run([f"file:{image}", "format2", "64", "128", "16"])
    wanted = empty_volume(64, 128, 16, 2)[: 19 * 8192] + b"\xa5" * (65 * 8192 + 100)
    expect("format of a file", (done.returncode, done.stdout), (0, b"formatted\n"))
    expect("bytes of a file", image.read_bytes() == wanted, True)
    for size, has in [(0, 0), (8191, 0), (82 * 8192 + 8191, 82)]:
        image.write_bytes(bytes(size))
        done = run([f"file:{image}", "format", "64", "128", "16"])
        line = f"volume: short 83 {has}\n".encode()
        expect(f"a file of {size} bytes", (done.returncode, done.stdout), (6, line))
        expect(f"length of a file of {size} bytes", image.stat().st_size, size)

    # A volume is listed, checked and recovered; the first two change no byte, and the third none here.
    image = folder / "read.img"
    whole = empty_volume(64, 128, 16, 1)
    damage = {
        "an empty volume": (whole, (0, b""), (0, b"check: clean\nblobs 0\nbytes 0\nstale 0\n")),
        "zeros": (bytes(83 * 8192), (6, b"volume: magic\n"), (6, b"volume: magic\n")),
        "a file without a block": (b"", (6, b"volume: magic\n"), (6, b"volume: magic\n")),
    }
    for what, (data, listed, checked) in damage.items():
        image.write_bytes(data)
        for word, wanted in [("list", listed), ("check", checked)]:
            done = run([f"file:{image}", word])
            expect(f"{word} of {what}", (done.returncode, done.stdout), wanted)
            expect(f"bytes after {word} of {what}", image.read_bytes() == data, True)
    image.write_bytes(whole)
    done = run([f"file:{image}", "recover"])
    expect("recover of an empty volume", (done.returncode, done.stdout), (0, b"recovered 0\n"))
    expect("bytes after a recover", image.read_bytes() == whole, True)
    # A bit of the bitmap too many: block 1, bit 5.
    marked = bytearray(whole)
    marked[8192] |= 1 << 5
    image.write_bytes(marked)
    done = run([f"file:{image}", "check"])
    wanted = (8, b"fault: bitmap 5 1\nfaults 1\n")
    expect("check of a wrong bit", (done.returncode, done.stdout), wanted)
    done = run([f"file:{image}", "list"])
    expect("list of a wrong bit", (done.returncode, done.stdout), (6, b"volume: bitmap 5 1\n"))
    # A stale header behind the journal: the next entry's number, in a slot of the ring.
    stale = bytearray(whole)
    stale[(4 + 2) * 8192 : (4 + 2) * 8192 + 16] = b"yrtnbolb" + (5).to_bytes(8, "little")
    image.write_bytes(stale)
    done = run([f"file:{image}", "check"])
    wanted = (0, b"check: clean\nblobs 0\nbytes 0\nstale 1\n")
    expect("check of a stale slot", (done.returncode, done.stdout), wanted)
    done = run([f"file:{image}", "recover"])
    expect("recover of a stale slot", (done.returncode, done.stdout), (0, b"recovered 0\n"))
    done = run([f"file:{image}", "check"])
    wanted = (0, b"check: clean\nblobs 0\nbytes 0\nstale 0\n")
    expect("check after its recovery", (done.returncode, done.stdout), wanted)

    # A volume of version 1 whose journal holds an entry: it is replayed, and the version becomes 2.
    pending = pending_volume(64, 128, 16, 1, b"hi")
    listed = f"{root(b'hi').hex()} 2\n".encode()
    image.write_bytes(pending)
    for word, wanted in [
        ("upgrade", b"upgraded 1\n"),
        ("recover", b"recovered 0\n"),
        ("list", listed),
        ("upgrade", b"upgraded 0\n"),
    ]:
        done = run([f"file:{image}", word])
        expect(f"{word} of a volume with an entry", (done.returncode, done.stdout), (0, wanted))
    upgraded = image.read_bytes()
    expect("version of an upgraded volume", upgraded[16:20], b"\2\0\0\0")
    image.write_bytes(pending)
    done = run([f"file:{image}", "recover"])
    expect("recover of an entry", (done.returncode, done.stdout), (0, b"recovered 1\n"))
    recovered = bytearray(image.read_bytes())
    recovered[16] = 2
    expect("bytes of an upgraded volume", upgraded == recovered, True)

    # A standard stream that is closed stays closed: no file gets its descriptor.
    image = folder / "closed.img"
    wanted = empty_volume(64, 128, 16, 1)
    for closed in [">&-", "<&- >&-", "<&- >&- 2>&-"]:
        image.unlink(missing_ok=True)
        done = run_in_shell(f'exec "$0" "new:83:$1" format 64 128 16 {closed}', image)
        expect(f"status of new: with {closed}", done.returncode, 4)
        expect(f"bytes of new: with {closed}", image.read_bytes() == wanted, True)
        done = run_in_shell(f'exec "$0" "file:$1" format2 64 128 16 {closed}', image)
        expect(f"status of file: with {closed}", done.returncode, 4)
        expect(
            f"bytes of file: with {closed}",
            image.read_bytes() == empty_volume(64, 128, 16, 2),
            True,
        )
    done = run_in_shell('exec "$0" "file:$1" root <&-', image)
    expect("a closed input and a file", (done.returncode, done.stdout), (3, b"source: fault\n"))

    # Words of no form touch no file, and a file that can't be had is a device fault.
    absent = folder / "absent.img"
    for words in [
        [f"new:83:{absent}"],
        [f"new:83:{absent}", "frob"],
        [f"new:83:{absent}", "format", "64", "128"],
        [f"new:083:{absent}", "root"],
        [f"new:0:{absent}", "root"],
        [f"new:8388609:{absent}", "root"],
        [f"new:{absent}", "root"],
        [f"file:{absent}", "root", "x"],
        ["mem:65537", "root"],
        [f"disk:{absent}", "root"],
        ["format", "64", "128", "16"],
    ]:
        done = run(words)
        expect(f"{words}", (done.returncode, done.stdout.split(b" ")[0]), (1, b"usage:"))
        expect(f"no file after {words}", absent.exists(), False)
    for word in [f"file:{absent}", f"new:1:{absent}/below", f"file:{folder}"]:
        done = run([word, "root"])
        expect(word, (done.returncode, done.stdout), (5, b"device: fault\n"))

    # A new file stays, whatever comes of the command.
    image = folder / "stays.img"
    done = run([f"new:82:{image}", "format", "64", "128", "16"])
    expect("a new file too short", (done.returncode, done.stdout), (6, b"volume: short 83 82\n"))
    expect("bytes of a new file too short", image.read_bytes() == bytes(82 * 8192), True)
    done = run([f"new:83:{image}", "format", "64", "128", "16"])
    expect("a file that stayed", (done.returncode, done.stdout), (5, b"device: fault\n"))

    # Want of memory.
    limited = 'ulimit -v 200000; exec "$0" mem:65536 root </dev/null'
    done = run_in_shell(limited)
    expect("no memory", (done.returncode, done.stdout), (7, b"memory: none left\n"))

    # The script, over a copy of itself whose program is the built one.
    script = folder / "blobfs"
    shutil.copy(top / "blobfs", script)
    done = subprocess.run([script, "root"], capture_output=True, check=False)
    expect("the script without a program", (done.returncode, done.stdout), (125, b""))
    shutil.rmtree(folder / "out", ignore_errors=True)
    (folder / "out").mkdir()
    (folder / "out/blobfs").symlink_to(program)
    done = subprocess.run([script, "root"], input=b"hi", capture_output=True, check=False)
    wanted = (0, root(b"hi").hex().encode() + b"\n", b"")
    expect("the script", (done.returncode, done.stdout, done.stderr), wanted)
    reader, writer = os.pipe()
    os.close(reader)
    for words, status in [(["root"], 4), (["frob"], 1)]:
        done = subprocess.run(
            [script, *words], stdin=subprocess.DEVNULL, stdout=writer,
            stderr=subprocess.DEVNULL, check=False,
        )
        expect(f"a pipe that nobody reads, {words}", done.returncode, status)
    os.close(writer)
    limited = 'ulimit -f 64; exec "$1" "new:83:$2" format 64 128 16'
    done = run_in_shell(limited, script, absent)
    expect("a file at its limit", (done.returncode, done.stdout), (5, b"device: fault\n"))
    expect("what stays of it", absent.read_bytes(), b"")
    image.unlink()
    done = run_in_shell('exec "$1" "new:83:$2" format 64 128 16 >&-', script, image)
    expect("the script with a closed output", done.returncode, 4)
    expect("bytes of its file", image.read_bytes() == empty_volume(64, 128, 16, 1), True)

done = run(["mem:83", "root"], b"hi")
expect("root on a device", (done.returncode, done.stdout), (0, root(b"hi").hex().encode() + b"\n"))

for line in wrong:
    print("program:", line)
print(f"program: {program.relative_to(top)}, {len(wrong)} answers wrong")
sys.exit(1 if wrong else 0)
