"""The one way to ask `tsl`: the program that the variable TSL names, or `tsl` beside `tslx`, or one on the PATH. None is ever built."""
import atexit
import os
import subprocess
import sys
import threading
from dataclasses import dataclass
from typing import List, Optional, Sequence, Set, Union

from .files import Stop

YES, NO, USAGE, FAULT, LARGE, SPENT = range(6)


@dataclass(frozen=True)
class Answer:
    """What `tsl` answered: its status and both outputs."""
    status: int
    out: str
    err: str

    @property
    def first(self) -> List[str]:
        """The words of the first line of the error output."""
        return self.err.split("\n", 1)[0].split(" ")


found: Optional[str] = None
running: Set["subprocess.Popen[bytes]"] = set()
# A question that starts is among those that run before an interrupt ends them; `starting` is so of the main thread, where interrupts come.
lock = threading.Lock()
starting = interrupted = stopped = False


def program() -> str:
    """The program that is asked, as `scripts/which` tells it, which also says what can be done where there is none."""
    global found
    if found is None:
        scripts = os.path.dirname(os.path.dirname(os.path.abspath(__file__)))
        here = os.environ.get("TSLX_FOLDER") or os.path.dirname(scripts)
        sys.stdout.flush()
        it = subprocess.run(["sh", os.path.join(scripts, "which"), here], stdin=subprocess.DEVNULL, stdout=subprocess.PIPE, check=False)
        if it.returncode:
            raise Stop("", it.returncode)
        found = os.fsdecode(it.stdout.rstrip(b"\n"))
        os.environ["TSL_QUIET"] = "1"
    return found


def ended(status: int) -> int:
    """The status of a program, as a shell tells it where a signal ended it."""
    return 128 - status if status < 0 else status


def start(words: Sequence[str], out: Optional[int]) -> "subprocess.Popen[bytes]":
    """The program at work; it is ended with this one."""
    global starting
    main = threading.current_thread() is threading.main_thread()
    asked = program()
    with lock:
        if stopped:
            raise Stop("", 130)
        try:
            starting = starting or main
            it = subprocess.Popen([asked, *words], stdin=subprocess.PIPE, stdout=out, stderr=subprocess.PIPE)
            running.add(it)
        except OSError as error:
            raise Stop(f"cannot run {asked}: {(error.strerror or str(error)).lower()}", 125)
        finally:
            starting = starting and not main
    if main and interrupted:
        sys.exit(130)
    return it


def interrupt() -> None:
    """Ends the command, or where a question is about to start, has it end then."""
    global interrupted
    interrupted = True
    if not starting:
        sys.exit(130)


def bytes_of(text: Union[str, bytes]) -> bytes:
    """A text as bytes."""
    return text if isinstance(text, bytes) else text.encode("latin-1")


def ask(words: Sequence[str], text: Union[str, bytes] = b"") -> Answer:
    """Asks a question, and gives the answer."""
    it = start(words, subprocess.PIPE)
    out, err = it.communicate(bytes_of(text))
    running.discard(it)
    return Answer(ended(it.returncode), out.decode("latin-1"), err.decode("latin-1"))


def ask_through(words: Sequence[str], text: Union[str, bytes]) -> Answer:
    """Asks a question whose answer goes to standard output as it comes."""
    sys.stdout.flush()
    it = start(words, None)
    _, err = it.communicate(bytes_of(text))
    running.discard(it)
    return Answer(ended(it.returncode), "", err.decode("latin-1"))


def end_running() -> None:
    """Ends the questions that are asked now; others may start."""
    for it in list(running):
        if it.poll() is None:
            it.kill()
            it.wait()


@atexit.register
def stop_all() -> None:
    """Ends the questions that are still asked, and lets none start."""
    global stopped
    with lock:
        stopped = True
    end_running()
