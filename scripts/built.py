"""The built program, for the scripts that run it."""
import pathlib
import sys

TOP = pathlib.Path(__file__).resolve().parent.parent


def program(name):
    """Its newest build; without one the script of this name is skipped."""
    candidates = [TOP / "out/blobfs", TOP / "crates/bv_main/out/bv_main"]
    built = [path for path in candidates if path.exists()]
    if not built:
        print(f"{name}: skipped, the program isn't built")
        sys.exit(0)
    return max(built, key=lambda path: path.stat().st_mtime)
