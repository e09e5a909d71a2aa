"""The blocks of commands in documents: each is run, and what it prints is compared with what stands below it."""
import contextlib
import fcntl
import functools
import os
import re
import signal
import subprocess
import sys
import tempfile
from concurrent.futures import ThreadPoolExecutor

from documents.repository import LONGEST, TOP, found, lines_of

LISTS = "crates/pir_list/out/pir_list"
# Documents whose blocks stand on those before: where one can't be run, none is.
CHAINED = ("docs/WALKTHROUGH.md",)


def markdown_blocks(path):
    """Returns the blocks of a document that are run, as (line, commands, what they print), and how many aren't run."""
    blocks, others, kind, text, since = [], 0, None, [], 0
    for number, line in lines_of(path):
        if kind is None and line.startswith("```"):
            kind, text, since = line[3:].strip(), [], number
        elif kind is not None and line.startswith("```"):
            if kind == "sh":
                blocks.append([since + 1, text, []])
            elif kind == "text":
                if blocks:
                    blocks[-1][2] += text
            elif kind == "console":
                others += 1
            else:
                found.bad(f"{path}:{since}", f"a block is marked {kind or 'in no way'}, and not sh, text or console")
            kind = None
        elif kind is not None:
            text.append(line)
    if kind is not None:
        found.bad(f"{path}:{since}", "a block has no end")
    return blocks, others


def manual_blocks(path):
    """Returns the examples of the man page that have commands, in the same form."""
    blocks, inside = [], False
    for number, line in lines_of(path):
        if line.startswith(".Bd -literal"):
            inside = True
        elif line == ".Ed":
            inside = False
        elif inside:
            line = line.replace("\\e", "\\").replace("\\&", "")
            goes_on = blocks and blocks[-1][1] and blocks[-1][1][-1].endswith("\\") and not blocks[-1][2]
            if line.startswith("$ "):
                blocks.append([number, [line[2:]], []])
            elif goes_on:
                blocks[-1][1].append(line)
            elif blocks:
                blocks[-1][2].append(line)
    return blocks


@functools.lru_cache(maxsize=None)
def own_network():
    """Returns the words that run a command in a network of its own, with a loopback that is up, or none where the system lets nobody make one."""
    up = "import fcntl, os, socket, struct, sys; s = socket.socket(); fcntl.ioctl(s, 0x8914, struct.pack('16sh22x', b'lo', 0x49)); os.execvp(sys.argv[1], sys.argv[1:])"
    for words in (["unshare", "--net"], ["unshare", "--user", "--map-root-user", "--net"]):
        whole = [*words, sys.executable, "-ISc", up]
        try:
            ran = subprocess.run([*whole, "true"], stdin=subprocess.DEVNULL, stdout=subprocess.DEVNULL, stderr=subprocess.DEVNULL, timeout=20)
        except (OSError, subprocess.TimeoutExpired):
            continue
        if ran.returncode == 0:
            return whole
    return []


def run_blocks(path, blocks, program, network, as_words):
    """Runs the blocks of one document, one after the other in one bash, and compares what each prints."""
    with tempfile.TemporaryDirectory(prefix="pir-docs-") as room:
        os.makedirs(f"{room}/top")
        os.makedirs(f"{room}/tmp")
        os.symlink(program, f"{room}/top/pir")
        os.symlink(f"{TOP}/{LISTS}", f"{room}/top/pir_list")
        for folder in ("examples", "crates"):
            os.symlink(f"{TOP}/{folder}", f"{room}/top/{folder}")
        # Examples write below /tmp: each run has its own.
        mine = lambda line: line.replace("/tmp/", f"{room}/tmp/")
        script = []
        for at, (_, commands, _) in enumerate(blocks):
            # (the status of the command before stays what $? is)
            script += [f"pir_docs_status=$?; echo $EPOCHREALTIME >>{room}/times; exec >{room}/{at} 2>&1; (exit $pir_docs_status)", *map(mine, commands)]
        with open(f"{room}/script", "w", encoding="utf-8") as it:
            it.write("\n".join([*script, f"echo $EPOCHREALTIME >>{room}/times", "exec >/dev/null 2>&1", "wait", ""]))
        env = {"PATH": f"{room}/top:/usr/local/bin:/usr/bin:/bin" if as_words else "/usr/local/bin:/usr/bin:/bin", "HOME": f"{room}/tmp", "LANG": "C.UTF-8", "TMPDIR": f"{room}/tmp"}
        how = {"cwd": f"{room}/top", "env": env, "stdin": subprocess.DEVNULL, "stdout": subprocess.DEVNULL, "stderr": subprocess.DEVNULL}
        run = subprocess.Popen([*network, "bash", f"{room}/script"], start_new_session=True, **how)
        try:
            run.wait(LONGEST)
        except subprocess.TimeoutExpired:
            found.bad(path, f"its commands had not ended after {LONGEST} seconds")
        finally:
            try:
                os.killpg(run.pid, signal.SIGKILL)
            except OSError:
                pass
            run.wait()
        for at, (number, commands, wanted) in enumerate(blocks):
            try:
                with open(f"{room}/{at}", encoding="utf-8", errors="replace") as it:
                    printed = it.read().replace(f"{room}/tmp/", "/tmp/").splitlines()
            except OSError:
                found.bad(f"{path}:{number}", "these commands were not come to")
                continue
            wanted = [it.rstrip() for it in wanted]
            printed = [it.rstrip() for it in printed]
            if printed != wanted:
                told = lambda rows: "\n".join(f"    {it}" for it in rows) or "    (nothing)"
                found.bad(f"{path}:{number}", f"these commands print\n{told(printed)}\n  and below them stands\n{told(wanted)}")
        with contextlib.suppress(OSError, ValueError):
            with open(f"{room}/times", encoding="utf-8") as it:
                times = [float(line.replace(",", ".")) for line in it]
            for (number, commands, _), since, until in zip(blocks, times, times[1:]):
                found.note(f"{path}:{number}: {until - since:.1f} s: {commands[-1].strip()[:70]}")
    found.note(f"{path}: {len(blocks)} blocks of commands were run")


def can_run(path, block):
    """Returns whether the other programs that a block names are built."""
    number, commands, _ = block
    text = "\n".join(commands)
    named = {it[0] for it in re.findall(r"(?<![\w/])(crates/(\w+)/out/\2)(?![\w/])", text)} | ({LISTS} if "./pir_list " in text else set())
    lacking = {it for it in named if not os.access(f"{TOP}/{it}", os.X_OK)}
    if lacking:
        found.note(f"{path}:{number}: skipped: {', '.join(sorted(lacking))} isn't built")
    return not lacking


def look_at_commands(program):
    manual = manual_blocks("docs/pir.1")
    texts = [("docs/pir.1", manual, True)]
    for path in ("README.md", "docs/WALKTHROUGH.md", "docs/SHARED_DATABASES.md", "docs/FRONT_SERVER.md", "docs/OPERATING.md"):
        blocks, others = markdown_blocks(path)
        can_be_run = [it for it in blocks if can_run(path, it)]
        if path in CHAINED and len(can_be_run) < len(blocks):
            found.note(f"{path}: skipped whole")
        else:
            texts.append((path, can_be_run, False))
        if others:
            found.note(f"{path}: skipped {others} block(s) marked console, which need other machines or the kit")
    if not program:
        found.note("skipped: the program isn't built")
        return
    network = own_network()
    found.note("in a network of its own" if network else "in this machine's network, since none of its own can be made")
    with open(f"{tempfile.gettempdir()}/pir-docs-check.lock" if not network else os.devnull, "w") as lock:
        if not network:
            # (the ports of the documents are taken by one run at a time)
            fcntl.flock(lock, fcntl.LOCK_EX)
        # Where each has a network of its own they run side by side.
        with ThreadPoolExecutor(len(texts) if network else 1) as pool:
            runs = [pool.submit(run_blocks, path, blocks, program, network, as_words) for path, blocks, as_words in texts]
        for run, (path, blocks, _) in zip(runs, texts):
            run.result()
            if not blocks:
                found.bad(path, "it has no block of commands that is run")
