"""tracing: programs that strace follows."""
import os
import shutil
import subprocess
import tempfile

SECONDS = 60


def can_trace(check):
    """Whether strace is there, and may trace. Prints why not, under the name of a check."""
    if not shutil.which("strace"):
        print("%s: passed over, since strace isn't there" % check)
        return False
    with tempfile.TemporaryDirectory() as folder:
        words = ["strace", "-f", "-y", "-o", os.path.join(folder, "trace"), "true"]
        if subprocess.run(words, capture_output=True, timeout=SECONDS).returncode:
            print("%s: passed over, since strace may not trace here" % check)
            return False
    return True
