"""The hashes of tests_script are those of an independent reading of the grammar: each byte at each place of
a line of each command, a script cut after each byte, and the demonstration's text for 1 to 32 rounds."""
import hashlib
import pathlib
import re
import sys

from script_lines import Fault, parse

SOURCE = pathlib.Path(__file__).resolve().parent.parent / "crates/tests_script/src"
LINES = re.compile(r"const LINES: \[&str; 12\] = \[(.*?)\];", re.S)
HASH = re.compile(r"fn (\w+)\(.*0x([0-9a-f]{1,32})\b", re.S)


def printed(text):
    """A script's print: its lines as they are, skipped ones empty, up to the last command."""
    numbers = [line.number for line in parse(text)]
    rows = text.split(b"\n")
    return b"".join(
        (rows[number - 1] if number in numbers else b"") + b"\n" for number in range(1, max(numbers, default=0) + 1)
    )


def answer(text):
    try:
        return printed(text)
    except Fault as fault:
        number, kind = fault.args
        return f"{number} {kind.capitalize()}".encode()


def hash_of(texts):
    """The first half of SHA-256 over all answers, each ended by a zero byte."""
    sha = hashlib.sha256()
    for text in texts:
        sha.update(answer(text) + b"\0")
    return sha.hexdigest()[:32]


def changes(lines):
    """Each byte in place of each byte of a line, then before each byte and at the end."""
    for line in lines:
        for without in (1, 0):
            for place in range(len(line) + 1 - without):
                for byte in range(256):
                    yield line[:place] + bytes([byte]) + line[place + without :]


def cuts(lines):
    text = b"".join(b"#\n\n" + line + b"\n" for line in lines)
    return (text[:count] for count in range(len(text) + 1))


def demonstration(rounds):
    """The demonstration's script."""
    for session in range(8):
        for r in range(rounds):
            size = 16384 * ((5 * session + 3 * r) % 8) + 128 * session + r + 1
            word = f"seq:{16 * session + r % 16}:{size}"
            yield f"add {word}", session
            yield f"open {r % 64} {word}", session
            if r % 2:
                yield f"unlink {word}", session
            yield f"scan {r % 64}", session
            yield f"close {r % 64}", session
        yield "sync", session


def demonstrations():
    text = "".join(f"{s} {line}\n" for rounds in range(1, 33) for line, s in demonstration(rounds))
    return hashlib.sha256(text.encode()).hexdigest()[:32]


def main():
    source = "".join((SOURCE / name).read_text(encoding="utf-8") for name in ("changes.rt", "rows.rt"))
    lines = [line.encode() for line in re.findall(r'"([^"]*)"', LINES.search(source)[1])]
    wanted = {
        "each_byte_at_each_place_of_a_line_is_read_by_the_grammar": hash_of(changes(lines)),
        "a_script_cut_after_each_byte_is_read_by_the_grammar": hash_of(cuts(lines)),
        "the_demonstration_is_spelled_as_its_rule_says": demonstrations(),
    }
    tests = (HASH.search(test) for test in source.split("#[test]")[1:])
    found = {test[1]: test[2].zfill(32) for test in tests if test}
    wrong = [name for name, hashed in wanted.items() if found.get(name) != hashed]
    for name in wrong:
        print(f"{name}: the tests have {found.get(name)}, wanted {wanted[name]}")
    print(f"scripts of tests: {len(wanted)} hashes, {len(wrong)} wrong")
    return bool(wrong)


sys.exit(main())
