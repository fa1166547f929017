#!/usr/bin/env python3
"""Runs the gate and measures the processor time of each crate, of its tests and of its edits.

usage: tools/gate_times.py LOG [-- COMMAND ..]

Run it at the top of the repository. COMMAND is `rt ci --anew` where none is given. What the command prints goes
to LOG. When it has ended, these lines are added to LOG and printed:

    gate_times CRATE crate|tests|edits SECONDS
    gate_times all rest SECONDS       what belongs to no crate: rt itself, listings, copies
    gate_times all total SECONDS      all processor time of the command
    gate_times all elapsed SECONDS    the time on the clock

tools/gate_table.py makes the table of docs/GATE.md from LOG. The status is the command's.

The processes below the command are looked at ten times a second. What a process has used since the last look counts
once, for the crate that its command line or its folder names now. The total is exact; what a process uses after the
last look at it, at most a tenth of a second, is counted as rest.
"""

import ctypes
import os
import re
import resource
import subprocess
import sys
import time

INTERVAL = 0.1
TICKS = os.sysconf("SC_CLK_TCK")
# prctl's option by which orphans below this process become its children.
PR_SET_CHILD_SUBREAPER = 36


def stat_of(pid):
    """Returns a process' parent, when it began, its own ticks, and its ticks with those of its ended children."""
    with open(f"/proc/{pid}/stat", encoding="utf-8", errors="replace") as file:
        words = file.read().rpartition(")")[2].split()
    own = int(words[11]) + int(words[12])
    return int(words[1]), int(words[19]), own, own + int(words[13]) + int(words[14])


def processes():
    """Returns what stat_of says of each process, by its number."""
    found = {}
    for name in os.listdir("/proc"):
        if name.isdigit():
            try:
                found[int(name)] = stat_of(name)
            except (OSError, IndexError, ValueError):
                pass  # it has ended
    return found


def job_of(pid):
    """Returns the crate and the part of the gate that a process works for, or None where it names none."""
    try:
        with open(f"/proc/{pid}/cmdline", "rb") as file:
            words = file.read().decode(errors="replace").split("\0")
        folder = os.readlink(f"/proc/{pid}/cwd")
    except OSError:
        return None
    if "--crate-name" in words[:-1]:
        crate = words[words.index("--crate-name") + 1]
        if "/rt-edit-" in folder:
            return crate, "edits"
        return crate, "tests" if "--test" in words else "crate"
    made = next((it for it in (re.search(r"/rt-run-[^/]*/bin/(\w+?)(_tests)?$", word) for word in words) if it), None)
    if made:
        return made[1], "tests" if made[2] else "crate"
    place = re.search(r"/crates/(\w+)$", folder)
    if place:
        return place[1], "tests" if f"out/{place[1]}_tests" in words else "crate"
    return None


class Times:
    """The ticks of each crate and part: those of the processes that work for it, each with all that it starts."""

    def __init__(self):
        self.ticks = {}
        # Of each process the ticks at the last look at it, and its job then.
        self.seen = {}

    def count(self, process, ticks, job):
        """Counts what a process used since the last look at it, for its job, and returns that. It keeps a job that it had."""
        before, last = self.seen.get(process, (0, None))
        job = job or last
        self.seen[process] = max(before, ticks), job
        if job:
            self.ticks[job] = self.ticks.get(job, 0) + max(0, ticks - before)
        return job

    def look(self, top):
        """Goes over the processes below one."""
        found, below = processes(), {}
        for pid, (parent, *_) in found.items():
            below.setdefault(parent, []).append(pid)

        def whole(pid):
            return found[pid][3] + sum(whole(child) for child in below.get(pid, ()))

        left = list(below.get(top, ()))
        while left:
            pid = left.pop()
            if not self.count((pid, found[pid][1]), whole(pid), job_of(pid)):
                left += below.get(pid, ())

    def seconds(self):
        """Returns the seconds of each crate and part."""
        return {job: ticks / TICKS for job, ticks in self.ticks.items()}


def measured(log, command):
    """Runs the command and returns its status, the times of the crates, and the whole time."""
    ctypes.CDLL(None).prctl(PR_SET_CHILD_SUBREAPER, 1, 0, 0, 0)
    times, began = Times(), time.monotonic()
    running = subprocess.Popen(command, stdin=subprocess.DEVNULL, stdout=log, stderr=subprocess.STDOUT)
    while running.poll() is None:
        times.look(os.getpid())
        time.sleep(INTERVAL)
    elapsed, used = time.monotonic() - began, resource.getrusage(resource.RUSAGE_CHILDREN)
    return running.returncode, times.seconds(), used.ru_utime + used.ru_stime, elapsed


def main(words):
    if not words or words[0] in ("-h", "--help") or words[1:2] not in ([], ["--"]):
        print(__doc__, end="", file=sys.stderr)
        return 2
    with open(words[0], "w", encoding="utf-8") as log:
        status, seconds, total, elapsed = measured(log, words[2:] or ["rt", "ci", "--anew"])
    lines = [f"gate_times {crate} {part} {used:.1f}" for (crate, part), used in sorted(seconds.items())]
    lines.append(f"gate_times all rest {max(0, total - sum(seconds.values())):.1f}")
    lines.append(f"gate_times all total {total:.1f}")
    lines.append(f"gate_times all elapsed {elapsed:.1f}")
    with open(words[0], "a", encoding="utf-8") as log:
        print("\n".join(lines), file=log)
    print("\n".join(lines))
    return status


if __name__ == "__main__":
    sys.exit(main(sys.argv[1:]))
