"""Holdings a second of the lock by 1, 2 and 4 threads, beside those of std's `Mutex`."""
import subprocess
import tempfile

from measure import proved_program

with tempfile.TemporaryDirectory() as folder:
    program = proved_program("turn", ["bv_turn", "bv_turn_uses"], folder)
    subprocess.run([program], check=True)
