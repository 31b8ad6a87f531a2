"""A claim of a million free blocks in one thread, and of the last free block of 4,194,304."""
import subprocess
import tempfile

from measure import proved_program

with tempfile.TemporaryDirectory() as folder:
    program = proved_program("claims", ["bv_claims"], folder)
    subprocess.run([program], check=True)
