"""Each program of docs/checks/ is run, and says nothing where all holds."""
import contextlib
import os
import signal
import subprocess
import time

from documents.commands import own_network
from documents.repository import LONGEST, TOP, found


def look_at_more(program):
    folder = f"{TOP}/docs/checks"
    for name in sorted(os.listdir(folder)) if os.path.isdir(folder) else []:
        path = f"{folder}/{name}"
        if not os.path.isfile(path) or not os.access(path, os.X_OK):
            continue
        if not program:
            found.note(f"skipped docs/checks/{name}: the program isn't built")
            continue
        began, how = time.monotonic(), {"stdin": subprocess.DEVNULL, "stdout": subprocess.PIPE, "stderr": subprocess.STDOUT, "start_new_session": True}
        ran = subprocess.Popen([*own_network(), path], cwd=TOP, env={**os.environ, "PIR": program}, **how)
        try:
            said, _ = ran.communicate(timeout=LONGEST)
        except subprocess.TimeoutExpired:
            found.bad(f"docs/checks/{name}", f"it had not ended after {LONGEST} seconds")
            continue
        finally:
            # (what it started ends with it)
            with contextlib.suppress(OSError):
                os.killpg(ran.pid, signal.SIGKILL)
            ran.wait()
        if ran.returncode or said:
            found.bad(f"docs/checks/{name}", f"it ended with status {ran.returncode}, and said\n{said.decode(errors='replace').rstrip()}")
        found.note(f"docs/checks/{name}: {time.monotonic() - began:.1f} s")
