"""1,024 blobs of about 64 KiB added to a new volume on a real file, each once, by one, four and sixteen
sessions with a sync at the end of each, by turns. The best of five is taken, and the middle.

Each is a whole run of `fresh`. A ratio is the time to that of one session; below 1 the threads gain.
`sessions.py [PROGRAM [FOLDER]]` takes a program in place of `./blobfs`, and the folder of its file.
"""
import pathlib
import statistics
import subprocess
import sys
import tempfile
import time

from measure import blobfs, table

BLOBS, RUNS, SESSIONS = 1024, 5, (1, 4, 16)
COUNTS = ["14000", "4096", "1024"]
TOTAL = 16000


def script(sessions):
    """Each session adds its share of the blobs, and syncs."""
    lines = []
    for session in range(sessions):
        for number in range(session, BLOBS, sessions):
            lines.append(f"{session} add seq:{number % 256}:{65536 - number}")
        lines.append(f"{session} sync")
    return "\n".join(lines) + "\n"


def seconds(program, folder, text):
    image = folder / "image"
    image.unlink(missing_ok=True)
    start = time.perf_counter()
    done = subprocess.run(
        [program, f"new:{TOTAL}:{image}", "fresh", *COUNTS], input=text, text=True,
        capture_output=True, check=False,
    )
    taken = time.perf_counter() - start
    if done.returncode or done.stdout.count("published") != 2 * BLOBS:
        raise SystemExit(f"sessions: status {done.returncode}: {done.stdout[-500:]}")
    return taken


def main():
    program = sys.argv[1] if len(sys.argv) > 1 else blobfs()
    texts = {sessions: script(sessions) for sessions in SESSIONS}
    taken = {sessions: [] for sessions in SESSIONS}
    with tempfile.TemporaryDirectory(dir=sys.argv[2] if len(sys.argv) > 2 else None) as name:
        for _ in range(RUNS):
            for sessions, text in texts.items():
                taken[sessions].append(seconds(program, pathlib.Path(name), text))
    rows = []
    for sessions in SESSIONS:
        best, middle = min(taken[sessions]), statistics.median(taken[sessions])
        rows.append([
            str(sessions), f"{best * 1000:.0f}", f"{middle * 1000:.0f}", f"{best / min(taken[1]):.2f}",
            f"{middle / statistics.median(taken[1]):.2f}",
        ])
    print(f"{BLOBS} blobs of about 64 KiB, {RUNS} runs by turns")
    table(["sessions", "best ms", "middle ms", "to one, best", "to one, middle"], rows)


main()
