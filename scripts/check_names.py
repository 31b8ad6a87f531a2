"""Each name of a crate's item that a document cites is there: `CRATE::NAME`, and in PROOFS.md the
labels of clauses in parentheses behind a call.

An item is a function, type, trait, module or macro of the crate's code, or a word of its definitions
and proofs. A label is one of an `ensures` or `requires`, or a field of a definition.
"""
import pathlib
import re
import subprocess
import sys

TOP = pathlib.Path(__file__).resolve().parent.parent
CITED = re.compile(r"`(\w+)::([\w:]+)`")
ITEM = re.compile(r"\b(?:fn|struct|enum|trait|mod|type|const|macro_rules!) (\w+)")
LABEL = re.compile(r"\b(?:ensures|requires) (\w+) \{")
WORD = re.compile(r"^\s*(?:abbrev |unfoldable |record |data )*pub (?:record |data |abbrev )?([\w-]+)", re.M)


def text_of(folder, pattern):
    """All files of a folder of this pattern, as one text."""
    return "\n".join(path.read_text(encoding="utf-8") for path in sorted(folder.rglob(pattern)))


def names_in(crate):
    """The items and words of a crate, and the labels of its clauses."""
    code = text_of(crate / "src", "*.rt")
    words = text_of(crate / "specs", "*.antt") + text_of(crate / "proofs", "*.antt")
    items = set(ITEM.findall(code)) | set(WORD.findall(words))
    return items, items | set(LABEL.findall(code))


def unknown_in(text):
    """The names of a document that no crate has."""
    for crate, path in CITED.findall(text):
        name = path.split("::")[-1]
        if crate in items and name not in items[crate]:
            yield f"{crate}::{path}"


def unknown_labels(text):
    """The labels of PROOFS.md that none of the crates has: a record may be cited from another one."""
    every = set().union({"requires", "ensures"}, *labels.values())
    rows = [line.strip("| ") for line in text.splitlines() if line.startswith("|")]
    for row in rows:
        for group in re.findall(r"\(([^()]*)\)", row.split(" | ")[-1]):
            for label in re.findall(r"`([\w.]+)`", group):
                if label.split(".")[-1] not in every:
                    yield label


folders = [path for path in (TOP / "crates").iterdir() if (path / "src").is_dir()]
found_names = {folder.name: names_in(folder) for folder in folders}
items = {name: found[0] for name, found in found_names.items()}
labels = {name: found[1] for name, found in found_names.items()}
listed = subprocess.run(
    ["git", "ls-files", "*.md"], cwd=TOP, capture_output=True, text=True, check=True
).stdout.split()
wrong = []
for page in listed:
    text = (TOP / page).read_text(encoding="utf-8")
    wrong += [f"{page}: {name}" for name in unknown_in(text)]
proofs = (TOP / "docs/PROOFS.md").read_text(encoding="utf-8")
wrong += [f"docs/PROOFS.md: ({label})" for label in unknown_labels(proofs)]
for line in wrong:
    print("unknown name:", line)
print(f"names: {len(listed)} pages, {len(wrong)} unknown")
sys.exit(1 if wrong else 0)
