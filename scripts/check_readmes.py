"""Each crate has a README of one scheme, and no document names what a reader doesn't have.

A README begins with `# NAME`, says what the crate is, and where to start. Then come those of the
scheme's headings that have something under them, in their order; others may stand between them. It
has under 4,000 characters. No document names a folder of somebody's machine.
"""
import pathlib
import re
import subprocess
import sys

TOP = pathlib.Path(__file__).resolve().parent.parent
SCHEME = [
    "What a contract sees",
    "What is proved",
    "What is only tested",
    "What is neither",
    "What is trusted",
]
LONGEST = 4000
FOLDER = re.compile(r"(?<![\w.:])/(?:work|home|root|opt|tmp|mnt|srv)/[\w.-]+")


def wrong_in(name, text):
    """What is wrong with a crate's README."""
    lines = text.splitlines()
    if not lines or lines[0] != f"# {name}":
        yield f"its first line isn't '# {name}'"
    if not any(line.startswith("**Start here:**") for line in lines):
        yield "it doesn't say where to start"
    headings = [line[3:] for line in lines if line.startswith("## ")]
    places = [SCHEME.index(heading) for heading in headings if heading in SCHEME]
    if places != sorted(set(places)):
        yield f"its headings are out of order: {', '.join(headings)}"
    if len(text) >= LONGEST:
        yield f"it has {len(text):,} characters, {LONGEST:,} or more"


found = []
folders = sorted(path for path in (TOP / "crates").iterdir() if (path / "src").is_dir())
for folder in folders:
    page = folder / "README.md"
    if page.exists():
        text = page.read_text(encoding="utf-8")
        found += [f"{folder.name}: {what}" for what in wrong_in(folder.name, text)]
    else:
        found.append(f"{folder.name}: it has no README.md")
listed = subprocess.run(
    ["git", "ls-files", "*.md"], cwd=TOP, capture_output=True, text=True, check=True
).stdout.split()
for name in listed:
    for folder in FOLDER.findall((TOP / name).read_text(encoding="utf-8")):
        found.append(f"{name}: it names {folder}")
for line in found:
    print("readmes:", line)
print(f"readmes: {len(folders)} crates, {len(found)} found")
sys.exit(1 if found else 0)
