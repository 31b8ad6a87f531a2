"""Tries the built program on what the gate doesn't: `try_everything.py [SHARE]`.

It runs the scripts that try random scripts, random changes of images, kills in mid-run and refused
memory, one after another, and says at the end what was tried and what was wrong. SHARE is a share of
the whole, 1 by default: some 100,000 random scripts, 100,000 runs on changed images, 1,000 kills and
every allocation refused, which takes some hours. 0.01 takes minutes. `docs/TRIED.md` has figures."""
import pathlib
import subprocess
import sys

import built

HERE = pathlib.Path(__file__).resolve().parent
SECONDS = 6 * 3600


def parts(scale):
    """Each script with its words: how many, and how long it may take."""
    def share(whole, least):
        return str(max(least, round(whole * scale)))

    return [
        ("random_scripts.py", [share(42000, 20), share(SECONDS, 60)]),
        ("random_images.py", [share(100000, 500)]),
        ("kills.py", [share(1000, 20), share(SECONDS, 60)]),
        ("refused_memory.py", [share(100000, 50)]),
    ]


def main():
    built.program("try everything")
    scale = float(sys.argv[1]) if len(sys.argv) > 1 else 1
    ended, last = [], []
    for name, words in parts(scale):
        command = [sys.executable, str(HERE / name), *words]
        done = subprocess.run(command, stdout=subprocess.PIPE, text=True, check=False)
        print(done.stdout, end="", flush=True)
        ended.append(done.returncode)
        last += done.stdout.strip().split("\n")[-1:]
    print("try everything: what was tried, in the last line of each part:")
    for line in last:
        print(" ", line)
    failed = sum(1 for status in ended if status)
    print(f"try everything: {failed} of {len(ended)} parts found something wrong")
    return 1 if failed else 0


if __name__ == "__main__":
    sys.exit(main())
