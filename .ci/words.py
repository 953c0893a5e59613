"""What the scripts do alike: their words, signs of life, programs, sources, workspaces. It needs Python 3.8."""

import os
import re
import subprocess
import sys
import threading
import time
from concurrent.futures import ThreadPoolExecutor
from contextlib import suppress
from pathlib import Path

TOP = Path(__file__).resolve().parent.parent


def say(text, end="\n"):
    """Writes to standard error. Where that is closed or full, the script goes on without it."""
    with suppress(OSError):
        os.write(2 if sys.stderr else -1, f"{text}{end}".encode(errors="surrogateescape"))


def stop_if(holds, why):
    if holds:
        sys.exit(f"{os.path.basename(sys.argv[0])}: {why}")


def show_life():
    """Writes a dot every few seconds."""
    while True:
        time.sleep(4)
        say(".", end="")


def words_of(says, accepted):
    """The words behind a script's name, if they are as accepted, each with a zero behind it. `--help` prints all that
    the script says of itself, and other words its line of usage, with status 2. From then on the script shows that it
    is at work, unless another that runs it does."""
    words, me = sys.argv[1:], str(os.getpid())
    if "--help" in words:
        print(says.strip())
        sys.exit()
    if not re.fullmatch(accepted, "".join(f"{it}\0" for it in words)):
        say(*(it for it in says.split("\n") if it.startswith("usage: ")))
        sys.exit(2)
    if os.environ.setdefault("SHOWN_BY", me) == me:
        threading.Thread(target=show_life, daemon=True).start()
    return words


def run(*words, text="", **how):
    """How a program ends: its status, what it writes, and what it says on standard error."""
    how = {"stdout": subprocess.PIPE, "stderr": subprocess.PIPE, "input": text, "cwd": TOP, "errors": "replace", **how}
    done = subprocess.run(words, text=True, **how)
    return done.returncode, done.stdout or "", done.stderr or ""


def at_once(job, *lists):
    """What a job returns for each element, as of `map`. The jobs run side by side."""
    with ThreadPoolExecutor(os.cpu_count()) as threads:
        return [*threads.map(job, *lists)]


def is_current(made, crates="*"):
    """Whether the file is there, and no source of these crates is newer."""
    # A folder is newer where a file was added to it or taken out.
    parts = [it for part in ("src", "specs", "proofs") for it in TOP.glob(f"crates/{crates}/{part}")]
    sources = [TOP / "crates.txt", *parts, *(it for part in parts for it in part.rglob("*"))]
    return made.exists() and all(it.lstat().st_mtime_ns <= made.stat().st_mtime_ns for it in sources)


def workspace(folder, name, below, files):
    """Makes a workspace of these crates of ours, and of one over them that has these files. Returns where that is."""
    folder.mkdir(exist_ok=True)
    status, _, errors = run(TOP / "take-into", folder, *below)
    stop_if(status, errors)
    with open(folder / "crates.txt", "a") as listed:
        listed.write(f"{name}: {' '.join(below)}\n")
    for path, text in files.items():
        at = folder / "crates" / name / path
        at.parent.mkdir(parents=True, exist_ok=True)
        at.write_text(text)
    return folder / "crates" / name
