"""Scripts that the built program runs on a volume in memory: what each line answers, and the status.

Each row is worked out by hand. A reply is what follows the command in the text of the run; the history is
compared in one row, without the counts of device calls.
"""
import re
import subprocess
import sys

import built
from merkle import root

program = built.program("scripts")
SMALL = ["mem:83", "fresh", "64", "128", "16"]
HI, NONE = root(b"hi").hex(), root(b"").hex()
wrong = []


def run(words, script):
    done = subprocess.run(
        [program, *words], input=script.encode(), stdout=subprocess.PIPE,
        stderr=subprocess.DEVNULL, check=False,
    )
    return done.returncode, done.stdout.decode()


def replies(text, lines):
    """The reply of each line of one session, without the number, the command and the root."""
    shown = text.partition("history\n")[0].splitlines()[1:]
    found = []
    for line, command in zip(shown, lines):
        words = len(command.split())
        found.append(" ".join(line.split()[words:]))
    return found


def expect(what, got, wanted):
    if got != wanted:
        wrong.append(f"{what}: got {got!r}, wanted {wanted!r}")


ROWS = {
    "an unlinked blob is read as long as a slot holds it": (SMALL, [
        ("0 add hex:6869", "published"), ("0 open 0 hex:6869", "opened 2"),
        ("0 read 0 0 2", "bytes 2 6869"), ("0 unlink hex:6869", "unlinked"),
        ("0 read 0 0 2", "bytes 2 6869"), ("0 close 0", "closed"), ("0 sync", "synced"), ("0 list", "0"),
    ]),
    "a blob that leaves": (SMALL, [
        ("0 add hex:6869", "published"), ("0 add hex:6869", "exists"),
        ("0 open 0 hex:6869", "opened 2"), ("0 unlink hex:6869", "unlinked"),
        ("0 add hex:6869", "leaving 1"), ("0 close 0", "closed"), ("0 add hex:6869", "leaving 0"),
        ("0 sync", "synced"), ("0 add hex:6869", "published"),
    ]),
    "blocks of a purge come free at the sync": (SMALL, [
        ("0 add fill:41:507904", "published"), ("0 add hex:00", "no-space 1 0"),
        ("0 unlink fill:41:507904", "unlinked"), ("0 add hex:00", "no-space 1 0"),
        ("0 sync", "synced"), ("0 add hex:00", "published"),
    ]),
    "reads at the edges": (SMALL, [
        ("0 add seq:0:73728", "published"), ("0 open 0 seq:0:73728", "opened 73728"),
        ("0 read 0 73728 0", "bytes 0"), ("0 read 0 100000 5", "bytes 0"),
        ("0 read 0 65534 4", "bytes 4 05060809"), ("0 scan 0", "whole 73728"),
    ]),
    "slots": (SMALL, [
        ("0 add hex:6869", "published"), ("0 open 0 hex:6869", "opened 2"),
        ("0 open 0 hex:6869", "slot-taken"), ("0 open 1 hex:6a", "not-found"),
        ("0 read 5 0 1", "bad-slot"), ("0 close 5", "bad-slot"), ("0 unlink hex:6a", "not-found"),
    ]),
    "a blob without a byte": (SMALL, [
        ("0 add hex:", "published"), ("0 open 3 hex:", "opened 0"), ("0 read 3 0 10", "bytes 0"),
        ("0 list", f"1 {NONE}:0"),
    ]),
    "as many blobs as nodes": (["mem:275", "fresh", "256", "128", "16"], [
        *((f"0 add hex:{byte:02x}", "published") for byte in range(128)), ("0 add hex:80", "no-nodes 1 0"),
    ]),
}
for what, (words, lines) in ROWS.items():
    commands = [command for command, _ in lines]
    for version, word in [(1, "fresh"), (2, "fresh2")]:
        if version == 2 and words is not SMALL:
            continue
        status, text = run([words[0], word, *words[2:]], "\n".join(commands) + "\n")
        expect(f"{what}, version {version}", (status, replies(text, commands)), (0, [reply for _, reply in lines]))

# The history, and that a list's line and the list's event stand in it.
status, text = run(SMALL, "0 add hex:6869\n0 unlink hex:6869\n")
expect("a history", re.sub(r"@\d+", "@c", text.partition("history\n")[2]), f"""1 0 1 begin {HI} 2 granted @c
2 0 1 admit {HI} admitted @c
3 0 1 put 0 written @c
4 0 1 settle {HI} published @c
5 0 2 unlink {HI} unlinked @c
6 16 0 unmount unmounted @c
""")

# Input that is no script, and devices that have no volume: nothing runs.
LINES = {
    "an empty script": (SMALL, "", (0, "history\n1 16 0 unmount unmounted @")),
    "no last newline": (SMALL, "0 sync", (0, "session 0\n1 sync synced\nhistory\n")),
    "no command": (SMALL, "0 frob\n", (2, "script: line 1: command\n")),
    "too long": (SMALL, "0 sync\n" * 149797, (2, "input: too long\n")),
    "no volume": (["mem:83", "script"], "0 sync\n", (6, "volume: magic\n")),
    "a short device": (["mem:82", *SMALL[1:]], "", (6, "volume: short 83 82\n")),
    "too many rounds": (["mem:4170", "demo", "33"], "", (1, "usage: ")),
}
for what, (words, script, (status, begins)) in LINES.items():
    got, text = run(words, script)
    expect(what, (got, text[: len(begins)]), (status, begins))

# Sixteen sessions at once: each has its lines answered in order, whatever order the history has.
script = "".join(f"{s} {line}\n" for line in ["add seq:0:70000", "sync", "list"] for s in range(16))
status, text = run(["mem:4170", "fresh", "4096", "1024", "64"], script)
sessions = re.findall(
    r"^session (\d+)\n(\d+) add \w+ (\S+)\n(\d+) sync (\S+)\n(\d+) list [01]", text, re.MULTILINE,
)
wanted = [(str(s), str(s + 1), str(s + 17), "synced", str(s + 33)) for s in range(16)]
expect("sixteen sessions", (status, [(s, a, b, sync, c) for s, a, _, b, sync, c in sessions]), (0, wanted))
added = sorted(reply for _, _, reply, *_ in sessions)
expect("one add of sixteen", added.count("published"), 1)
expect("the other adds", set(added) <= {"published", "exists", "in-flight"}, True)

for line in wrong:
    print("scripts:", line)
print(f"scripts: {program.name}, {len(ROWS) + len(LINES) + 2} rows, {len(wrong)} answers wrong")
sys.exit(1 if wrong else 0)
