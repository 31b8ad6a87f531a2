"""The list of crates is in order, the page of the layers has the same list, and each name is used.

`crates.txt` has a comment line `## NAME` above the crates of each layer, lowest first. A crate
stands below all crates of this repository that it names. `docs/ARCHITECTURE.md` has a heading
`### NAME` for each layer, in the same order, and in its table a row for each crate. A dependency
that no line of code, specs, proofs or edits names isn't needed.
"""
import pathlib
import re
import sys

TOP = pathlib.Path(__file__).resolve().parent.parent
LAYER = re.compile(r"## (.+)")
HEADING = re.compile(r"### (.+)")
ROW = re.compile(r"\| `(\w+)` \|")
COMMENT = {".rt": re.compile(r"//.*"), ".antt": re.compile(r"--.*"), ".edit": re.compile(r"$^")}


def listed_crates(text):
    """Each layer with its crates, and of each crate what it stands on."""
    layers, below = [], {}
    for line in text.splitlines():
        layer = LAYER.fullmatch(line)
        if layer:
            layers.append((layer[1], []))
        elif ":" in line and not line.startswith("#"):
            head, _, names = line.partition(":")
            name = head.split()[0]
            below[name] = names.split()
            if not layers:
                layers.append(("none", []))
            layers[-1][1].append(name)
    return layers, below


def shown_crates(text):
    """Each layer with its crates, as the page shows them."""
    layers = []
    for line in text.splitlines():
        heading, row = HEADING.fullmatch(line), ROW.match(line)
        if line.startswith("## ") and layers:
            break
        if heading:
            layers.append((heading[1], []))
        elif row and layers:
            layers[-1][1].append(row[1])
    return layers


def out_of_order(below):
    """Each crate that stands above one that it names."""
    seen = set()
    for name, names in below.items():
        for other in names:
            if other in below and other not in seen:
                yield f"{name} stands above {other}, which it names"
        seen.add(name)


def code_of(crate):
    """All that a crate's files say, without comments."""
    texts = []
    for path in sorted(crate.rglob("*")):
        comment = COMMENT.get(path.suffix)
        if comment and "out" not in path.relative_to(crate).parts:
            texts.append(comment.sub("", path.read_text(encoding="utf-8")))
    return "\n".join(texts)


def unused(below):
    """Each name in a crate's line that nothing in the crate names."""
    for name, names in below.items():
        code = code_of(TOP / "crates" / name)
        for other in names:
            if not re.search(rf"\b{other}\b", code):
                yield f"{name} doesn't use {other}"


def without_a_line(below):
    """Each crate's folder that the list doesn't have, and the other way round."""
    folders = {path.name for path in (TOP / "crates").iterdir() if (path / "src").is_dir()}
    for name in sorted(folders ^ set(below)):
        yield f"{name} is a folder or a line, and not both"


def unlike(listed, shown):
    """Where the page of the layers and the list differ."""
    for (layer, names), (heading, rows) in zip(listed, shown):
        if layer != heading:
            yield f"layer {layer} of the list is {heading} on the page"
        elif names != rows:
            yield f"layer {layer}: the list has {' '.join(names)}, the page {' '.join(rows)}"
    if len(listed) != len(shown):
        yield f"the list has {len(listed)} layers, the page {len(shown)}"


layers, stands_on = listed_crates((TOP / "crates.txt").read_text(encoding="utf-8"))
page = shown_crates((TOP / "docs" / "ARCHITECTURE.md").read_text(encoding="utf-8"))
found = [
    *out_of_order(stands_on),
    *without_a_line(stands_on),
    *unlike(layers, page),
    *unused(stands_on),
]
for line in found:
    print("crates:", line)
print(f"crates: {len(stands_on)} in {len(layers)} layers, {len(found)} found")
sys.exit(1 if found else 0)
