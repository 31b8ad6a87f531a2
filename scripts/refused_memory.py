"""The built program where memory is refused, one allocation at a time: `refused_memory.py [MOST]`.

A small library in C stands before the system's allocator and refuses the k-th allocation that a run
makes, for each k in turn (at most MOST of them, evenly spread). Three runs are tried so: `fresh` with a
script of all commands, `check`, and a script on a volume whose journal has an entry to be replayed. A
run that is refused memory ends with status 7, or goes on without and prints what it prints else: it may
not crash or hang. `check` changes no byte. What the others leave has no fault, and has the blobs of the
volume as it was, of the script's lines so far, or of them all. It runs outside the gate, and is skipped
where there is no C compiler."""
import os
import pathlib
import shutil
import subprocess
import sys
import tempfile

import built
from script_lines import root_of
from volume import pending_volume

program = built.program("refused memory")
most = int(sys.argv[1]) if len(sys.argv) > 1 else 400
LIMIT = 60
OK, BAD_VOLUME, NO_MEMORY = 0, 6, 7

# The count stands in a file that is mapped, since a program may end without its last functions.
LIBRARY = r"""
#include <errno.h>
#include <fcntl.h>
#include <stdlib.h>
#include <sys/mman.h>
#include <unistd.h>
extern void *__libc_malloc(size_t);
extern void *__libc_realloc(void *, size_t);
static unsigned long refused, unmapped;
static unsigned long *count = &unmapped;
__attribute__((constructor)) static void begin(void) {
    const char *text = getenv("REFUSED"), *path = getenv("COUNTED");
    refused = text ? strtoul(text, 0, 10) : 0;
    int file = path ? open(path, O_RDWR | O_CREAT, 0600) : -1;
    if (file < 0 || ftruncate(file, sizeof *count)) return;
    void *place = mmap(0, sizeof *count, PROT_READ | PROT_WRITE, MAP_SHARED, file, 0);
    if (place != MAP_FAILED) count = place;
    close(file);
    *count = 0;
}
static int refuses(void) { return __atomic_add_fetch(count, 1, __ATOMIC_SEQ_CST) == refused; }
void *malloc(size_t n) {
    if (refuses()) { errno = ENOMEM; return 0; }
    return __libc_malloc(n);
}
void *realloc(void *old, size_t n) {
    if (refuses()) { errno = ENOMEM; return 0; }
    return __libc_realloc(old, n);
}
"""

WORDS = ["hex:6869", "seq:0:20000", "fill:41:9000"]
SCRIPT = "".join(
    [f"{session} add {word}\n" for session, word in enumerate(WORDS)]
    + ["0 sync\n", "1 list\n"]
    + [f"{session} open 0 {root_of(word)}\n" for session, word in enumerate(WORDS)]
    + [f"{session} read 0 0 1000\n{session} scan 0\n{session} close 0\n" for session in range(3)]
    + [f"2 unlink {root_of(WORDS[2])}\n", "2 sync\n"]
).encode()
COUNTS = ["64", "128", "16"]
BLOCKS = 83


class Tries:
    """One command, run without a refusal first, then with each allocation refused in turn."""

    def __init__(self, name, folder, library, image, words, script):
        self.name, self.library, self.image = name, library, image
        self.words, self.script = words, script
        self.path, self.counted = folder / "disk.img", folder / "count"
        self.wrong, self.ended = [], {OK: 0, NO_MEMORY: 0}
        self.path.write_bytes(image)
        self.before = self.plain("list")
        self.whole, self.made = self.run(0)
        self.after = self.plain("list")

    def plain(self, *words):
        command = [program, f"file:{self.path}", *words]
        done = subprocess.run(command, stdout=subprocess.PIPE, timeout=LIMIT, check=False)
        return done.returncode, done.stdout

    def run(self, refused):
        """The status and the text, and how many allocations were made."""
        self.path.write_bytes(self.image)
        self.counted.unlink(missing_ok=True)
        environment = {
            "LD_PRELOAD": str(self.library), "REFUSED": str(refused), "COUNTED": str(self.counted)
        }
        command = [program, f"file:{self.path}", *self.words]
        done = subprocess.run(
            command, input=self.script, stdout=subprocess.PIPE, stderr=subprocess.DEVNULL,
            timeout=LIMIT, check=False, env={**os.environ, **environment},
        )
        count = int.from_bytes(self.counted.read_bytes(), sys.byteorder)
        return (done.returncode, done.stdout), count

    def refuse(self, number):
        """Refuses one allocation, and says what is wrong then."""
        (status, text), _ = self.run(number)
        if status not in self.ended:
            return f"status {status}"
        self.ended[status] += 1
        if status == OK and (status, text) != self.whole and self.words == ["check"]:
            return "went on, and said something else"
        return self.left()

    def left(self):
        """What is wrong with what a run has left."""
        if self.words == ["check"]:
            return None if self.path.read_bytes() == self.image else "a byte was changed"
        status, text = self.plain("check")
        if (status, text) == (BAD_VOLUME, b"volume: magic\n"):
            return None if self.words[0] == "fresh" else "no volume is left"
        if (status, text[:13]) != (OK, b"check: clean\n"):
            return f"check says {status} {text!r}"
        status, listed = self.plain("list")
        known = {root_of(word).encode() for word in WORDS}
        known |= {row.split()[0] for row in self.before[1].split(b"\n") if row and self.before[0] == OK}
        if status != OK or any(row.split()[0] not in known for row in listed.split(b"\n") if row):
            return f"list says {status} {listed!r}"
        return None

    def try_all(self):
        step = max(1, self.made // most)
        tried = range(1, self.made + 1, step)
        for number in tried:
            try:
                found = self.refuse(number)
            except subprocess.TimeoutExpired:
                found = "it hangs"
            if found:
                self.wrong.append(f"{self.name}, allocation {number} of {self.made}: {found}")
        return len(tried)


def library_in(folder, compiler):
    source, made = folder / "refuse.c", folder / "refuse.so"
    source.write_text(LIBRARY)
    subprocess.run([compiler, "-shared", "-fPIC", "-O1", "-o", made, source], check=True)
    return made


def main():
    compiler = shutil.which("cc") or shutil.which("gcc")
    if not compiler:
        print("refused memory: skipped, no C compiler")
        return 0
    wrong, total = [], 0
    with tempfile.TemporaryDirectory() as name:
        folder = pathlib.Path(name)
        library = library_in(folder, compiler)
        pending = pending_volume(64, 128, 16, 1, b"hi" * 9000)
        for what, image, words, script in [
            ("fresh", b"\xa5" * 8192 * BLOCKS, ["fresh", *COUNTS], SCRIPT),
            ("check", pending, ["check"], b""),
            ("a script over a pending entry", pending, ["script"], SCRIPT),
        ]:
            tries = Tries(what, folder, library, image, words, script)
            if tries.whole[0] != OK or not tries.made:
                wrong.append(f"{what}: status {tries.whole[0]}, {tries.made} allocations without a refusal")
                continue
            count = tries.try_all()
            total += count
            wrong += tries.wrong
            print(
                f"refused memory: {what}: {count} of {tries.made} allocations refused, "
                f"{tries.ended[NO_MEMORY]} ended with status 7, {tries.ended[OK]} went on without"
            )
    for line in wrong:
        print("refused memory:", line)
    print(f"refused memory: {total} allocations refused, {len(wrong)} answers wrong")
    return 1 if wrong else 0


if __name__ == "__main__":
    sys.exit(main())
