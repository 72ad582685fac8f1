"""Programs that end with the script which started them: at a time limit, at a signal (timeout and batch queues send SIGTERM), and, by Linux's
PR_SET_PDEATHSIG, where the script itself is killed."""

from __future__ import annotations

import ctypes
import io
import json
import os
import signal
import subprocess
import sys
import time
from dataclasses import dataclass
from typing import IO, Callable, Optional, Sequence, Tuple

from failure import UNREADABLE, Failure

TOP = os.path.dirname(os.path.dirname(os.path.abspath(__file__)))
ENDING_SIGNALS = (signal.SIGTERM, signal.SIGHUP, signal.SIGINT)
PR_SET_PDEATHSIG = 1
SECONDS_TO_END = 2.0

try:
    LIBC: Optional[ctypes.CDLL] = ctypes.CDLL(None)
except OSError:
    LIBC = None


class OutOfTime(Exception):
    """The time limit was reached."""


class Stopped(BaseException):
    """A signal asks the script to end."""

    def __init__(self, number: int):
        super().__init__(f"stopped by {signal.Signals(number).name}")
        self.status = 128 + number


@dataclass(frozen=True)
class Done:
    """A program that ended: its status, what it wrote, and how long it took."""

    status: int
    output: bytes
    error: bytes
    seconds: float


def program(variable: str, name: str) -> str:
    """A program of the repository: what the environment names, or what stands beside this folder and is built at its first use."""
    return os.environ.get(variable) or os.path.join(TOP, name)


def die_with_parent(parent: int) -> Callable[[], None]:
    """What a child does first: it asks to be killed with its parent, and ends where that is gone already."""

    def ask() -> None:
        if LIBC is not None:
            LIBC.prctl(PR_SET_PDEATHSIG, signal.SIGKILL)
        if os.getppid() != parent:
            os._exit(1)

    return ask


def end_group(process: subprocess.Popen) -> None:
    """Ends a child and all of its group: it is asked first, and killed where it goes on."""
    for number in (signal.SIGTERM, signal.SIGKILL):
        try:
            os.killpg(process.pid, number)
        except ProcessLookupError:
            break
        try:
            process.wait(timeout=SECONDS_TO_END)
        except subprocess.TimeoutExpired:
            continue
    process.wait()


def run(
    command: Sequence[str],
    *,
    seconds: Optional[float] = None,
    output: Optional[IO[bytes]] = None,
    text: Optional[bytes] = None,
    passes_errors: bool = False,
    folder: Optional[str] = None,
) -> Done:
    """Runs a program in a group of its own, with a text as its input. Its output is kept, or goes to a file; so do its errors, or they are passed
    on. Whatever ends the wait ends the group."""
    if seconds is not None and seconds <= 0:
        raise OutOfTime
    began = time.monotonic()
    try:
        process = subprocess.Popen(
            list(command),
            stdin=subprocess.DEVNULL if text is None else subprocess.PIPE,
            stdout=subprocess.PIPE if output is None else output,
            stderr=None if passes_errors else subprocess.PIPE,
            cwd=folder,
            start_new_session=True,
            preexec_fn=die_with_parent(os.getpid()),
        )
    except OSError as error:
        raise Failure(UNREADABLE, f"{command[0]}: {error.strerror}") from error
    try:
        written, said = process.communicate(text, timeout=seconds)
    except subprocess.TimeoutExpired as limit:
        raise OutOfTime from limit
    finally:
        if process.returncode is None:
            end_group(process)
    return Done(process.returncode, written or b"", said or b"", time.monotonic() - began)


def stop_at_signals() -> None:
    """From here on the first signal that asks the script to end raises Stopped, and further ones are passed over while it cleans up."""

    def stop(number: int, _frame: object) -> None:
        for each in ENDING_SIGNALS:
            signal.signal(each, signal.SIG_IGN)
        raise Stopped(number)

    for each in ENDING_SIGNALS:
        if signal.getsignal(each) != signal.SIG_IGN:
            signal.signal(each, stop)


def ended(name: str, main: Callable[[list], int], words: list) -> Tuple[int, str]:
    """A main function's status, and the line that a failure or a signal ends it with."""
    try:
        return main(words), ""
    except Failure as failure:
        return failure.status, f"{name}: {failure}"
    except Stopped as stopped:
        return stopped.status, f"{name}: {stopped}"


def as_json(name: str, main: Callable[[list], int], words: list) -> int:
    """Runs a main function, and prints its status, its output and its message as a line of JSON; answers the status."""
    kept, sys.stdout = sys.stdout, io.TextIOWrapper(io.BytesIO(), encoding="utf-8", errors="replace")
    try:
        status, message = ended(name, main, words)
        sys.stdout.flush()
        output = sys.stdout.buffer.getvalue().decode(errors="replace")  # type: ignore[attr-defined]
    finally:
        sys.stdout = kept
    print(json.dumps({"status": status, "output": output, "message": message}))
    return status


def run_script(name: str, page: Optional[str], main: Callable[[list], int], has_json: bool = True) -> None:
    """Runs a script's main function on the command's words, and ends with its status. A failure and a signal end with one line. For a script that
    has no JSON of its own, the first word --json makes one line of JSON of all that."""
    words = sys.argv[1:]
    if words == ["--help"]:
        print((page or "").strip())
        sys.exit(0)
    stop_at_signals()
    try:
        if words[:1] == ["--json"] and not has_json:
            status, message = as_json(name, main, words[1:]), ""
        else:
            status, message = ended(name, main, words)
        sys.stdout.flush()
    except BrokenPipeError:
        os.dup2(os.open(os.devnull, os.O_WRONLY), sys.stdout.fileno())
        status, message = 1, ""
    if message:
        print(message, file=sys.stderr)
    sys.exit(status)
