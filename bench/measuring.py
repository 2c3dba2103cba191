"""How the benchmarks run the program on a text: the least time of some runs, the peak of memory, and the status."""
import contextlib
import pathlib
import re
import shutil
import subprocess
import tempfile

HERE = pathlib.Path(__file__).resolve().parent
PROGRAM = HERE.parent / "out" / "tsl"
SOLVER = HERE.parent / "out" / "solve"


@contextlib.contextmanager
def built(program=PROGRAM, builds="./tsl --built"):
    """A folder to build in, with `measure` built there. The program has to be there."""
    if not program.exists():
        raise SystemExit(f"build the program first: {builds}")
    with tempfile.TemporaryDirectory() as name:
        folder = pathlib.Path(name)
        subprocess.run(["cc", "-O2", "-o", folder / "measure", HERE / "measure.c"], check=True)
        yield folder


def measured(folder, text, command, statuses=("0",)):
    """The least seconds of as many runs as take half a second, the peak KiB, and the status, which is one of these."""
    with tempfile.NamedTemporaryFile() as file:
        file.write(text)
        file.flush()
        done = subprocess.run([folder / "measure", file.name, *command], capture_output=True, text=True)
    nanoseconds, peak, status = done.stdout.split() if done.returncode == 0 else (0, 0, "none")
    if status not in statuses:
        raise SystemExit("a run failed")
    return int(nanoseconds) / 1e9, int(peak), status


def instructions(text, command):
    """How many instructions a run takes, as valgrind counts them: a number without noise. None where it is not installed."""
    if not shutil.which("valgrind"):
        return None
    count = ["valgrind", "--tool=cachegrind", "--cache-sim=no", "--cachegrind-out-file=/dev/null"]
    done = subprocess.run([*count, *command], input=text, capture_output=True)
    found = re.search(rb"I\s+refs:\s+([\d,]+)", done.stderr)
    if not found:
        raise SystemExit("valgrind counted nothing")
    return int(found.group(1).replace(b",", b""))


def spent_in(text, command, functions):
    """How many instructions a run takes in all, and in each of these functions with what they call, as valgrind counts them; 0 for
    one that is never called. A function is named by its crate and its own name. None where valgrind is not installed."""
    if not shutil.which("valgrind"):
        return None
    with tempfile.NamedTemporaryFile() as counts:
        trace = ["valgrind", "--tool=callgrind", f"--callgrind-out-file={counts.name}"]
        subprocess.run([*trace, *command], input=text, capture_output=True)
        listed = ["callgrind_annotate", "--inclusive=yes", "--threshold=100", counts.name]
        shown = subprocess.run(listed, capture_output=True, text=True).stdout
    found = re.search(r"([\d,]+) \(100\.0%\) +PROGRAM TOTALS", shown)
    if not found:
        raise SystemExit("valgrind counted nothing")
    number = lambda digits: int(digits.replace(",", ""))
    path = lambda name: r"(?:::\w+)*::".join(map(re.escape, name.split("::")))
    one = lambda name: re.search(r"([\d,]+) \( ?[\d.]+%\) +[^ ]*:" + path(name) + r" ", shown)
    return number(found.group(1)), [number(one(name).group(1)) if one(name) else 0 for name in functions]
