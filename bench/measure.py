"""What the bench scripts share: the programs that are measured, timed runs, and tables.

A program of a bench lies in bench/NAME/main.rattle. It stands outside the gate: a script proves and
builds it, for this processor, in a folder of its own over copies of the crates that it stands on.
"""
import os
import pathlib
import resource
import shutil
import subprocess
import tempfile
import time

TOP = pathlib.Path(__file__).resolve().parent.parent


def blobfs():
    """The program as `./blobfs` builds it."""
    subprocess.run([TOP / "blobfs", "--version"], check=True, stdout=subprocess.DEVNULL)
    return TOP / "out/blobfs"


def default_blobfs():
    """The program for the processor that rt builds for by itself, kept beside the other."""
    program = TOP / "out/blobfs_default"
    crates_folder = TOP / "crates"
    sources = [TOP / "crates.txt"]
    for part in ["src", "specs", "proofs"]:
        sources += crates_folder.glob(f"*/{part}/**/*")
    newest = max(path.stat().st_mtime for path in sources)
    if not program.exists() or program.stat().st_mtime < newest:
        # What is saved while the build runs is newer than the program that comes of it.
        began = time.time()
        folder = crates_folder / "bv_main"
        subprocess.run(
            ["rt", "run", "--", "--version"], cwd=folder, check=True, stdin=subprocess.DEVNULL,
            stdout=subprocess.DEVNULL, stderr=subprocess.DEVNULL,
        )
        shutil.copy(folder / "out/bv_main", program)
        os.utime(program, (began, began))
    return program


def crates():
    """The repository's crates: the whole line of each, and what it stands on."""
    lines = {}
    for line in (TOP / "crates.txt").read_text(encoding="utf-8").splitlines():
        head, colon, below = line.partition(":")
        if colon and not line.startswith("#"):
            lines[head.split()[0]] = (line, below.split())
    return lines


def for_this_processor():
    """The flags that build for this processor, where rt can."""
    processor = pathlib.Path("/proc/cpuinfo").read_text(encoding="utf-8")
    return ["--cpu", "x86-64-v3"] if "avx2" in processor else []


def proved_program(name, below, folder):
    """Proves and builds bench/NAME/main.rattle over these crates, and gives the program's path."""
    folder = pathlib.Path(folder)
    source = folder / "crates" / name / "src"
    source.mkdir(parents=True)
    shutil.copy(TOP / "bench" / name / "main.rattle", source / "main.rt")
    shutil.copy(TOP / "HANDLES", folder)
    listed = [f"{name}: {' '.join(below)}"]
    known, wanted, seen = crates(), list(below), set()
    while wanted:
        crate = wanted.pop()
        if crate in known and crate not in seen:
            seen.add(crate)
            line, lower = known[crate]
            listed.append(line)
            wanted += lower
            for part in ["src", "specs", "proofs"]:
                if (TOP / "crates" / crate / part).is_dir():
                    shutil.copytree(TOP / "crates" / crate / part, folder / "crates" / crate / part)
    (folder / "crates.txt").write_text("\n".join(listed) + "\n", encoding="utf-8")
    subprocess.run(["git", "init", "-q"], cwd=folder, check=True)
    built = subprocess.run(
        ["rt", "run", *for_this_processor()], cwd=source.parent, stdin=subprocess.DEVNULL,
        capture_output=True, text=True, check=False,
    )
    program = source.parent / "out" / name
    if not program.exists():
        raise SystemExit(built.stdout[-2000:] + built.stderr[-2000:])
    return program


def timed(words, stdin):
    """One run: seconds, and what it printed."""
    with open(stdin, "rb") as given:
        start = time.perf_counter()
        done = subprocess.run(words, stdin=given, capture_output=True, text=True, check=True)
        return time.perf_counter() - start, done.stdout


def timed_both(words, stdin):
    """One run: seconds by the clock, the seconds that it had a processor, in its own code and in the
    kernel, and what it printed."""
    before = resource.getrusage(resource.RUSAGE_CHILDREN)
    seconds, text = timed(words, stdin)
    after = resource.getrusage(resource.RUSAGE_CHILDREN)
    return seconds, after.ru_utime + after.ru_stime - before.ru_utime - before.ru_stime, text


def processor_seconds(words, stdin):
    """One run: the seconds that it had a processor."""
    return timed_both(words, stdin)[1]


def instructions(words, stdin):
    """The instructions of one run in millions, as text; a dash where valgrind isn't there."""
    if not shutil.which("valgrind"):
        return "-"
    with open(stdin, "rb") as given, tempfile.NamedTemporaryFile() as counts:
        done = subprocess.run(
            ["valgrind", "--tool=callgrind", f"--callgrind-out-file={counts.name}", *words],
            stdin=given, capture_output=True, text=True, check=True,
        )
    counted = next(line for line in done.stderr.splitlines() if "refs:" in line)
    return f"{int(counted.split()[-1].replace(',', '')) / 1e6:.1f}"


def most_memory(words, stdin):
    """The most memory of one run in MiB, as text; a dash where GNU time isn't there to say it."""
    if not shutil.which("time"):
        return "-"
    with open(stdin, "rb") as given:
        done = subprocess.run(
            ["time", "-f", "%M", *words], stdin=given, capture_output=True, text=True, check=True
        )
    return f"{int(done.stderr.split()[-1]) / 1024:.1f}"


def table(head, rows):
    """Prints rows of text in columns."""
    widths = [max(len(row[k]) for row in [head, *rows]) for k in range(len(head))]
    for row in [head, *rows]:
        print("  ".join(cell.rjust(width) for cell, width in zip(row, widths)))
