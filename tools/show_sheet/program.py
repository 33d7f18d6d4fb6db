"""Finding and running the proved program."""
import os
import re
import subprocess
from pathlib import Path
from typing import NamedTuple

from show_sheet import script

MAX_BYTES = 65536  # of a script, and of all its answers
HINT = "`rt run < stdin` in crates/robinlocker builds it; --program or ROBINLOCKER names another"


class Unavailable(Exception):
    """The program is missing or broke off."""


class Run(NamedTuple):
    answers: list  # answer lines, as bytes
    result: int  # 0, or the number of the question that stopped the run
    message: str  # what standard error said


def find(named):
    """The program: the named one, else that of the environment, else the one that `rt run` in crates/robinlocker leaves."""
    built = Path(__file__).resolve().parents[2] / "crates" / "robinlocker" / "out" / "robinlocker"
    path = named or os.environ.get("ROBINLOCKER") or str(built)
    if not os.access(path, os.X_OK) or os.path.isdir(path):
        raise Unavailable(f"no program {path}: {HINT}")
    return os.path.abspath(path)


def run(path, text):
    """Answers a script."""
    try:
        # A byte more than a script may have tells a longer one, and the program reads no further.
        done = subprocess.run([path], input=text[:MAX_BYTES + 1], stdout=subprocess.PIPE, stderr=subprocess.PIPE, check=False)
    except OSError as error:
        raise Unavailable(f"{path} cannot be run: {error.strerror}; {HINT}") from error
    message = done.stderr.decode("utf-8", "replace").strip()
    stopped = re.match(r"robinlocker: ([0-9]+): ", message)
    if done.returncode != 0 or (message and not stopped):
        raise Unavailable(f"{path} broke off with status {done.returncode}: {message}")
    return Run(script.lines(done.stdout), int(stopped[1]) if stopped else 0, message)
