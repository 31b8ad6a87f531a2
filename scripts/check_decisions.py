"""The decisions have a number each, and the marks of those that replace one another agree.

No number stands twice. The page names the next free one. Where a decision is superseded by another,
that one says that it supersedes it, and the other way round.
"""
import pathlib
import re
import sys

TOP = pathlib.Path(__file__).resolve().parent.parent
ROW = re.compile(r"^\| (\d+) \|.*\| ([^|]*) \|$", re.MULTILINE)

text = (TOP / "docs/DECISIONS.md").read_text(encoding="utf-8")
rows = [(int(number), status) for number, status in ROW.findall(text)]
status_of = dict(rows)
found = [f"{number} stands twice" for number in status_of if [row[0] for row in rows].count(number) > 1]
free = re.search(r"next free number: (\d+)", text)
if not free or int(free[1]) != max(status_of) + 1:
    found.append(f"the next free number is {max(status_of) + 1}")
supersedes = {
    number: {int(old) for part in re.findall(r"supersedes ([\d, ]+)", status) for old in re.findall(r"\d+", part)}
    for number, status in rows
}
for number, status in rows:
    for by in map(int, re.findall(r"superseded by (\d+)", status)):
        if number not in supersedes.get(by, set()):
            found.append(f"{number} is superseded by {by}, which doesn't say so")
for number, olds in supersedes.items():
    for old in olds:
        if f"superseded by {number}" not in status_of.get(old, ""):
            found.append(f"{number} supersedes {old}, which doesn't say so")
for line in found:
    print("decisions:", line)
print(f"decisions: {len(rows)}, {len(found)} found")
sys.exit(1 if found else 0)
