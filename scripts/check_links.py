"""Each relative link of a Markdown file, and each path in backticks, leads to a file that exists.

A path in backticks has a slash and the ending of a file of the repository. It counts from the
page's folder, from the top, from `crates/`, or from a crate that its line names.
"""
import pathlib
import re
import subprocess
import sys

TOP = pathlib.Path(__file__).resolve().parent.parent
LINK = re.compile(r"\]\(([^)#\s]+)")
PATH = re.compile(r"`([\w.-]+(?:/[\w.+-]+)+\.(?:rt|antt|edit|py|md|rattle|txt))`")


def dead_in(page):
    """The links and paths of a page that lead nowhere."""
    text = page.read_text(encoding="utf-8")
    for target in LINK.findall(text):
        if "://" not in target and not (page.parent / target).exists():
            yield target
    for line in text.splitlines():
        named = [TOP / "crates" / name for name in re.findall(r"`(\w+)`", line)]
        for path in PATH.findall(line):
            bases = [page.parent, TOP, TOP / "crates", *named]
            if not any((base / path).exists() for base in bases):
                yield path


listed = subprocess.run(
    ["git", "ls-files", "*.md"], cwd=TOP, capture_output=True, text=True, check=True
).stdout.split()
dead = [f"{name}: {target}" for name in listed for target in dead_in(TOP / name)]
for line in dead:
    print("dead link:", line)
print(f"links: {len(listed)} pages, {len(dead)} dead links")
sys.exit(1 if dead else 0)
