"""The built program on scripts of every form: `read_scripts.py [RANDOM [SEED]]`, 50,000 random ones
where nothing is said.

Tables first: each byte from 0 to 255 at each place of a line of each command, put in and put in place of
what stands there; a script cut after each byte; each fault alone and with each other fault before and
behind it; each limit at its number, below and above; texts of one byte. Then random scripts, half of them
changed in a byte or two. The program runs each on a new volume in memory. Its answer is compared with
`script_lines.parse`, a reading of the grammar that shares no code with it: the first fault and its line,
or else each session's lines, with their numbers and with words replaced by roots. It runs outside the gate.
"""
import concurrent.futures
import random
import subprocess
import sys

import built
from script_lines import Fault, parse, root_of

VOLUME = ["mem:83", "fresh", "64", "128", "16"]
WORKERS = 3
ROOT = "0123456789abcdef" * 4
LINES = [
    "0 add hex:00ff", "15 add fill:a0:9", "3 add seq:255:10", f"7 open 63 {ROOT}", "0 open 0 seq:0:3",
    "9 read 8 0 999", "12 scan 5", "4 close 60", f"5 unlink {ROOT}", "6 unlink hex:", "1 sync", "2 list",
]
# A line of each fault that a line has by itself.
FAULTS = {
    "byte": "0 sync\t", "session": "16 sync", "command": "0 frob", "arguments": "0 add",
    "number": "0 scan 01", "slot": "0 close 64", "data": "0 add hex:0", "name": "0 unlink hex:0A",
    "length": "0 read 0 0 65537",
}
# So many of these lines are lawful, and one more has the fault.
LIMITS = {
    "0 list": 16, "0 add fill:00:4194304": 16, "0 open 1 seq:0:4194304": 16, "0 unlink fill:11:4194304": 16,
    "0 read 0 0 65536": 256, "#": 4096, "": 4096, "0 close 0": 4096,
}
EDGES = [
    "0 add fill:00:4194304", "0 add fill:00:4194305", "0 open 0 seq:1:4194305", "0 unlink seq:1:4194304",
    "0 read 0 0 65535", "0 read 0 0 65536", "0 read 0 999999999999999999 1", "0 read 0 1000000000000000000 1",
    "0 read 0 0 1000000000000000000", "0 scan 63", "0 scan 64", "15 sync", "16 sync", "0 add seq:255:1",
    "0 add seq:256:1", "0 add hex:", "0 add fill:00:0", "0 add seq:0:0", "0 add seq:0:0000000000000000000",
]


def tables():
    """All scripts of the tables, as bytes."""
    yield from (bytes([byte]) for byte in range(256))
    yield from (b"", b"\n", b"#", b"0", b"0 ", b"0  sync", b" 0 sync", b"0 sync\n0", b"\r\n")
    for line in map(str.encode, LINES):
        for place in range(len(line) + 1):
            for byte in range(256):
                yield line[:place] + bytes([byte]) + line[place + 1 :]
                if byte in b"\n 0:#aAg\x7f\x80":
                    yield line[:place] + bytes([byte]) + line[place:]
    whole = "\n".join([LINES[0], "", "# two", *LINES[1:]]).encode() + b"\n"
    yield from (whole[:count] for count in range(len(whole) + 1))
    for first in FAULTS.values():
        yield first.encode()
        yield f"# one\n\n0 sync\n{first}".encode()
        for second in FAULTS.values():
            yield f"{first}\n{second}\n".encode()
            yield f"{first} {second}".encode()
            yield f"{second.replace(' ', '  ', 1)} {first}".encode()
    for line, most in LIMITS.items():
        for count in (most - 1, most, most + 1, most + 2):
            for last in ("", "0 frob", "0 sync", "\x1f", "#"):
                yield ((line + "\n") * count + last).encode()
    yield from map(str.encode, EDGES)
    yield from (b" " * size for size in (1, 1 << 20))
    yield from (b"\n" * size for size in (1 << 20,))
    yield b"#" * (1 << 20)
    yield b"0 add hex:" + b"7" * ((1 << 20) - 10)
    yield b"0 add hex:" + b"7" * ((1 << 20) - 11)


def random_word(rng):
    size = rng.choice([0, 1, 2, 9, 8192, 8193, 65536, 70000])
    kind = rng.randrange(3)
    if kind == 0:
        return "hex:" + rng.randbytes(rng.randrange(40)).hex()
    if kind == 1:
        return f"fill:{rng.randrange(256):02x}:{size}"
    return f"seq:{rng.randrange(256)}:{size}"


def random_line(rng):
    session, slot = rng.randrange(16), rng.randrange(64)
    name = random_word(rng) if rng.randrange(3) else rng.randbytes(32).hex()
    return rng.choice([
        f"{session} add {random_word(rng)}", f"{session} open {slot} {name}",
        f"{session} read {slot} {rng.randrange(100000)} {rng.randrange(65537)}", f"{session} scan {slot}",
        f"{session} close {slot}", f"{session} unlink {name}", f"{session} sync", f"{session} list", "",
        f"# {rng.randrange(1000)}",
    ])


def random_script(rng):
    """A script of up to twelve lines, half of them changed in a byte or two."""
    text = bytearray("\n".join(random_line(rng) for _ in range(rng.randrange(1, 13))).encode())
    if rng.randrange(2):
        text += b"\n"
    if rng.randrange(2) and text:
        for _ in range(rng.choice([1, 1, 2])):
            at = rng.randrange(len(text))
            byte = rng.choice(b"\n 0:#aAgx19\x00\x1f\x7f\xff")
            if rng.randrange(2):
                text[at] = byte
            elif rng.randrange(2):
                text.insert(at, byte)
            else:
                del text[at]
                if not text:
                    break
    return bytes(text)


def shown(line):
    """A line as it is printed, up to its reply."""
    words = [str(line.number), line.command]
    if line.slot is not None:
        words.append(str(line.slot))
    if line.word is not None:
        words.append(root_of(line.word))
    words += [str(number) for number in (line.off, line.len) if number is not None]
    return " ".join(words)


def wanted(script):
    """The line that refuses the script, or the parts of the sessions without their replies."""
    try:
        lines = parse(script)
    except Fault as fault:
        number, kind = fault.args
        return f"script: line {number}: {kind}\n"
    parts = []
    for session in sorted({line.session for line in lines}):
        parts.append(f"session {session}")
        parts += [shown(line) for line in lines if line.session == session]
    return parts


def tried(script):
    """Whether the script is read, and what the program answers otherwise than the grammar says."""
    want = wanted(script)
    return isinstance(want, list), differs(script, want)


def differs(script, want):
    done = subprocess.run(
        [program, *VOLUME], input=script, stdout=subprocess.PIPE, stderr=subprocess.PIPE, check=False,
    )
    if isinstance(want, str):
        said = (done.stdout + done.stderr).decode()
        return None if (done.returncode, said) == (2, want) else f"{done.returncode} {said!r}, not {want!r}"
    rows = done.stdout.decode().partition("history\n")[0].splitlines()
    if done.returncode not in (0, 8) or len(rows) != len(want):
        return f"status {done.returncode}, {len(rows)} rows, not {len(want)}: {done.stderr!r}"
    for row, start in zip(rows, want):
        if row != start and not row.startswith(start + " "):
            return f"{row!r}, not {start!r}"
    return None


def main():
    count = int(sys.argv[1]) if len(sys.argv) > 1 else 50000
    rng = random.Random(int(sys.argv[2]) if len(sys.argv) > 2 else 20261202)
    scripts = list(tables())
    from_tables = len(scripts)
    scripts += [random_script(rng) for _ in range(count)]
    wrong = read = 0
    with concurrent.futures.ThreadPoolExecutor(WORKERS) as workers:
        for script, (is_read, found) in zip(scripts, workers.map(tried, scripts)):
            read += is_read
            if found:
                wrong += 1
                if wrong <= 20:
                    print(f"scripts: {script[:200]!r}: {found}")
    print(f"scripts: {from_tables} of the tables, {count} random; {read} were read, {wrong} differ")
    sys.exit(wrong > 0)


program = built.program("scripts")
main()
