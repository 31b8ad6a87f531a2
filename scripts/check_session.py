"""The session of README.md, run against the built program: each line that it prints is the one that
README shows.

A line that begins with `$ ` is a command, run by bash in a folder that all of them share; what follows
`  # ` is said to the reader. The lines behind it are what the command prints, on both streams.
"""
import os
import pathlib
import re
import subprocess
import sys
import tempfile

import built

HEADING = "### A session"
program = built.program("session")
readme = (built.TOP / "README.md").read_text(encoding="utf-8")
section = readme.partition(HEADING)[2].partition("\n## ")[0]
commands = []
for block in re.findall(r"^```sh\n(.*?)^```$", section, re.MULTILINE | re.DOTALL):
    for line in block.splitlines():
        if line.startswith("$ "):
            commands.append((line[2:].partition("  # ")[0].rstrip(), []))
        else:
            commands[-1][1].append(line.partition("  # ")[0].rstrip())

# The script `blobfs` has the program ignore these two signals.
SHELL = "trap '' PIPE XFSZ; blobfs() { \"$PROGRAM\" \"$@\"; }; "
wrong = []
with tempfile.TemporaryDirectory() as folder:
    for command, shown in commands:
        done = subprocess.run(
            ["bash", "-c", SHELL + command.replace("./blobfs", "blobfs")], cwd=folder,
            env={**os.environ, "PROGRAM": str(pathlib.Path(program).resolve())}, text=True,
            stdin=subprocess.DEVNULL, stdout=subprocess.PIPE, stderr=subprocess.STDOUT, check=False,
        )
        printed = [line.rstrip() for line in done.stdout.splitlines()]
        if printed != shown:
            wrong.append(f"{command}\n  printed {printed}\n  README shows {shown}")

if not commands:
    wrong.append(f"no command under the heading {HEADING}")
for line in wrong:
    print("session:", line)
print(f"session: {len(commands)} commands, {len(wrong)} wrong")
sys.exit(1 if wrong else 0)
