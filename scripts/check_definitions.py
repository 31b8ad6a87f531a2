"""The documents say of definitions how many files and lines there are.

A row of a table with a file of `crates/` and two numbers has its files and lines, as
`definitions.py` counts them; so has each sentence of README that names the command. READING has the
lines of all definitions together, and those of the edge that no proof covers.
"""
import re
import sys

from definitions import TOP, lines_of, reached_from

ROW = re.compile(r"\| `(crates/\S+\.antt)` \| ([\d,]+) \| ([\d,]+) \|")
ALL = re.compile(r"All `spec_\*` crates together have about ([\d,]+) such lines")
EDGE = re.compile(r"`crates/bv_main/src/`: ([^|]*) \| ([\d,]+) \|")
SENTENCE = re.compile(r"(\d+) files with ([\d,]+) lines\s+\(`python3 scripts/definitions.py (\S+)`\)")


def number(text):
    """The number that is written with commas."""
    return int(text.replace(",", ""))


reading = (TOP / "docs" / "READING.md").read_text(encoding="utf-8")
readme = (TOP / "README.md").read_text(encoding="utf-8")
said = [("docs/READING.md", file, number(files), number(lines)) for file, files, lines in ROW.findall(reading)]
said += [("README.md", file, number(files), number(lines)) for files, lines, file in SENTENCE.findall(readme)]
wrong = []
for page, file, files, lines in said:
    reached = reached_from([TOP / file])
    found = (len(reached), sum(map(lines_of, reached)))
    if found != (files, lines):
        wrong.append(f"{page}: {file} is {found[0]} files, {found[1]:,} lines")
every = sum(map(lines_of, TOP.glob("crates/spec_*/specs/*.antt")))
wrong += [f"docs/READING.md: all crates spec_* have {every:,} lines" for said_lines in ALL.findall(reading)
          if abs(number(said_lines) - every) > 250]
for files, lines in EDGE.findall(reading):
    edge = [TOP / "crates/bv_main/src" / name for name in re.findall(r"`([\w.]+)`", files)]
    found = sum(len(place.read_text(encoding="utf-8").splitlines()) for place in edge)
    if found != number(lines):
        wrong.append(f"docs/READING.md: the edge has {found:,} lines")
for line in wrong:
    print("definitions:", line)
print(f"definitions: {len(said) + 2} counts, {len(wrong)} wrong")
sys.exit(1 if wrong else 0)
