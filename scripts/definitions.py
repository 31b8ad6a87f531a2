"""Lists the files of definitions that a file of definitions stands on, with their lines.

    python3 scripts/definitions.py crates/bv_serve/specs/Serves.antt

Follows the imports `use Rattle.CRATE.specs.FILE` from file to file. A line counts where it is no
import and not empty: comments count, since a reader reads them. Types that are declared in code are
counted by the file of `src/` that declares them. Files of the kit aren't counted.
"""
import pathlib
import re
import sys

TOP = pathlib.Path(__file__).resolve().parent.parent
IMPORT = re.compile(r"use Rattle\.(\w+)\.specs\.([\w.]+?)(?:\.\{|\s+as\s|\s|$)")


def file_of(crate, path):
    """The file that an import names, or none where it is one of the kit."""
    words = path.split(".")
    if words[0] == "declared":
        return declared_in(crate, words[1:])
    place = TOP / "crates" / crate / "specs" / f"{words[0]}.antt"
    return place if place.exists() else None


def declared_in(crate, words):
    """The file of code that declares a type: its module, or else the crate's root file."""
    for word in words:
        place = TOP / "crates" / crate / "src" / f"{word}.rt"
        if place.exists():
            return place
    place = TOP / "crates" / crate / "src" / "lib.rt"
    return place if place.exists() else None


def named_in(place):
    """The files that a file's imports lead to."""
    for crate, path in IMPORT.findall(place.read_text(encoding="utf-8")):
        found = file_of(crate, path)
        if found and place.suffix == ".antt":
            yield found


def lines_of(place):
    """How many lines of a file are no imports and not empty."""
    lines = place.read_text(encoding="utf-8").splitlines()
    return sum(1 for line in lines if line.strip() and not re.match(r"(ghost )?use ", line))


def reached_from(places):
    """The files that these files stand on, themselves among them."""
    todo, seen = [place.resolve() for place in places], []
    while todo:
        place = todo.pop()
        if place not in seen:
            seen.append(place)
            todo += named_in(place)
    return seen


def main():
    """Prints the files by their crates, each with its lines, and the sums."""
    seen = reached_from(pathlib.Path(word) for word in sys.argv[1:])
    by_crate = {}
    for place in seen:
        by_crate.setdefault(place.relative_to(TOP).parts[1], []).append(place)
    for crate in sorted(by_crate):
        files = sorted(by_crate[crate])
        print(f"{crate}: {len(files)} files, {sum(map(lines_of, files))} lines")
        for place in files:
            print(f"  {place.relative_to(TOP / 'crates' / crate)} {lines_of(place)}")
    print(f"{len(seen)} files, {sum(map(lines_of, seen))} lines")


if __name__ == "__main__":
    main()
