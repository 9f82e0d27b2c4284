"""Whether a store comes back from its stream."""

import subprocess
from pathlib import Path

SECONDS = 60
MOST_STREAM = 1 << 24


def stream_difference(program, folder):
    """What differs where the store that stands in f, if one does, is saved, loaded into another file and saved again; or None. A stream of more than 16 MiB is not loaded."""
    def run(given, *words):
        done = subprocess.run([program, *words], cwd=folder, input=given, stdout=subprocess.PIPE, stderr=subprocess.DEVNULL, timeout=SECONDS)
        return done.stdout, done.returncode
    _, status = run(b"", "--check", "f")
    if status != 0:
        return None
    stream, status = run(b"", "--save", "f")
    if status != 0:
        return f"its stream is not said: status {status}"
    if len(stream) > MOST_STREAM:
        return None
    said, status = run(stream, "--load", "loaded again")
    again, _ = run(b"", "--save", "loaded again")
    Path(folder, "loaded again").unlink(missing_ok=True)
    return None if status == 0 and again == stream else f"its stream of {len(stream)} bytes does not come back: {said!r}"
