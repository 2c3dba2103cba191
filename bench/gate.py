"""Where the time of a gate goes: python3 bench/gate.py rt ci --anew

Runs the command that it is given at the top of the repository, watches the provers that it starts, and prints, for each
crate, the processor minutes and the elapsed minutes of its code, its tests, the check that its edits begin from, and its edits;
then the sums, and how much of the processors was idle. What the command itself writes goes to the error output, and its
status is the answer's. A prover that lives less than a fifth of a second may be missed.
"""

import os
import re
import subprocess
import sys
import threading
import time

KINDS = ("code", "tests", "start", "edits")
TICKS = os.sysconf("SC_CLK_TCK")
PAUSE = 0.2


def status_of(pid):
    """The parent of a process, the ticks that it has used itself, and when it began; None where it has ended."""
    try:
        with open(f"/proc/{pid}/stat", encoding="utf-8", errors="replace") as it:
            fields = it.read().rpartition(")")[2].split()
    except OSError:
        return None
    return int(fields[1]), int(fields[11]) + int(fields[12]), int(fields[19])


def words_of(pid):
    try:
        with open(f"/proc/{pid}/cmdline", encoding="utf-8", errors="replace") as it:
            return it.read().split("\0")
    except OSError:
        return []


def work_of(words):
    """The crate and the kind of work of a prover's command line; None for another program."""
    if not words or os.path.basename(words[0]) != "rattle" or "--crate-name" not in words:
        return None
    crate = words[words.index("--crate-name") + 1]
    kept = words[words.index("--incremental") + 1] if "--incremental" in words else ""
    if re.search(r"rt-edits-[^/]*/seed$", kept):
        return crate, "start"
    if re.search(r"rt-edits-[^/]*/\d+$", kept):
        return crate, "edits"
    return crate, "tests" if "--test" in words else "code"


class Watch:
    """The processor seconds and the span of each crate's work, as far as they were seen."""

    def __init__(self, pid):
        self.top, self.work, self.ticks, self.spans = pid, {}, {}, {}

    def look(self):
        now, seen = time.monotonic(), {}
        for name in os.listdir("/proc"):
            if name.isdigit():
                status = status_of(int(name))
                if status:
                    seen[int(name)] = status
        for pid, (_, ticks, begun) in seen.items():
            work = self.work_above(pid, seen)
            if work:
                self.ticks[pid, begun, work] = ticks
                first, _ = self.spans.get(work, (now, now))
                self.spans[work] = first, now

    def work_above(self, pid, seen):
        """The work of the prover that a process is, or is a child of, under the command that is watched."""
        found, at = None, pid
        while at in seen and at not in (0, 1):
            if at == self.top:
                return found
            # A number is used again for another process, and a process may yet become a prover.
            process = at, seen[at][2]
            if not self.work.get(process):
                self.work[process] = work_of(words_of(at))
            found = self.work[process] or found
            at = seen[at][0]
        return None

    def minutes(self):
        used = {}
        for (_, _, work), ticks in self.ticks.items():
            used[work] = used.get(work, 0) + ticks / TICKS / 60
        return used


def main():
    begun = time.monotonic()
    command = subprocess.Popen(sys.argv[1:], stdout=sys.stderr)
    watch, ended = Watch(command.pid), threading.Event()

    def look_on():
        while not ended.wait(PAUSE):
            watch.look()

    looking = threading.Thread(target=look_on)
    looking.start()
    status = command.wait()
    ended.set()
    looking.join()
    elapsed = (time.monotonic() - begun) / 60
    used = watch.minutes()
    crates = sorted({crate for crate, _ in used}, key=lambda it: -sum(used.get((it, kind), 0) for kind in KINDS))
    print("| Crate | " + " | ".join(KINDS) + " | sum | elapsed |")
    print("|---" * 7 + "|")
    for crate in crates:
        row = [used.get((crate, kind), 0) for kind in KINDS]
        spans = [watch.spans[crate, kind] for kind in KINDS if (crate, kind) in watch.spans]
        span = (max(last for _, last in spans) - min(first for first, _ in spans)) / 60
        print(f"| `{crate}` | " + " | ".join(f"{it:.1f}" if it else "" for it in row) + f" | {sum(row):.1f} | {span:.1f} |")
    sums = [sum(used.get((crate, kind), 0) for crate in crates) for kind in KINDS]
    print("| all | " + " | ".join(f"{it:.0f}" for it in sums) + f" | {sum(sums):.0f} | {elapsed:.0f} |")
    processors = len(os.sched_getaffinity(0))
    print(f"\n{processors} processors for {elapsed:.1f} minutes: {sum(sums):.0f} processor minutes of proofs, {processors * elapsed - sum(sums):.0f} idle or for other work")
    return status


if __name__ == "__main__":
    sys.exit(main())
