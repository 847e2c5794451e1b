#!/usr/bin/env python3
"""Runs each load by this project's programs and by those over the Rust crate in turn, and writes what was measured to a table:
`bench/measure.py OURS RUST WORK FIGURES [GROUP..]`, of the groups script, call, memory, sync and blocking, or of all. OURS has
`schedule`, `bench_calls` and `bench_sync`, RUST what bench/rust/build.sh makes, WORK is a folder for scripts and FIGURES the table's
file. bench/all.sh calls it."""
import csv
import os
import re
import subprocess
import sys
import time

HERE = os.path.dirname(os.path.abspath(__file__))
# The other side of each group: the Rust crate, or where calls block, which it has no calls for, Rust's std.
OTHERS = {"blocking": "std"}
GROUPS = ("script", "call", "memory", "sync", "blocking")
SIZES = (10_000, 100_000, 1_000_000)
# The largest size whose instructions are counted: a run under callgrind takes some fifty times as long.
COUNTED = int(os.environ.get("COUNTED", "100000"))
LARGEST = int(os.environ.get("LARGEST", "1000000"))
# Each batch of runs has some 500,000 lines, futures or calls (a fifth where threads meet), and of so many batches the least is taken.
BATCH = 500_000
BATCHES = 3
# The scripts of bench/script.sh, and how many lines each future takes.
SCRIPTS = {
    "event": 3, "cancel": 3, "oneshot": 3, "oneshot-broadcast": 3, "state-broadcast": 3, "channel": 6,
    "mutex": 4, "semaphore": 4, "unfair": 4, "reused": 5, "timer": 3.1, "pool": 3,
}
CALLS = (
    "event-kept", "event-fresh", "cancels", "timer", "lock-pairs", "locks-served", "acquire-pairs", "acquires-served",
    "acquires-at-once", "channel-pairs", "full-sends", "rendezvous", "receive-cancels",
)
HEAPS = ("heap-sorted", "heap-reversed", "heap-drawn")
# What the Rust crate has not.
ALONE = (
    "pool-jobs", "journal-bare", "journal-recorded", "list-slots", "list-links", "list-look-ups", "list-fresh", "outbox-tickets",
)
SYNC = ("try-lock", "lock", "lock-queue", "try-acquire", "acquire", "try-send", "send", "end-try-send", "end-send")
BLOCKING = ("lock-blocking", "acquire-blocking", "send-blocking", "end-blocking", "wait-blocking")
IN_THREADS = (
    "try-lock", "try-acquire", "try-send", "end-try-send", "lock-blocking", "acquire-blocking", "send-blocking",
)
# What waits in each of these loads at its peak.
WAITING = ("event-kept", "timer", "locks-served", "acquires-served", "full-sends", "receive-cancels")


class Program:
    """A program with its arguments and its input."""

    def __init__(self, words, script="/dev/null"):
        self.words = words
        self.script = script

    def run(self):
        """The processor time, of user and system, and the elapsed time of one run, in seconds."""
        files = [(os.POSIX_SPAWN_OPEN, 0, self.script, os.O_RDONLY, 0), (os.POSIX_SPAWN_OPEN, 1, "/dev/null", os.O_WRONLY, 0)]
        start = time.monotonic()
        process = os.posix_spawn(self.words[0], self.words, os.environ, file_actions=files)
        _, status, usage = os.wait4(process, 0)
        if status != 0:
            sys.exit(f"{self.words} ended with {status}")
        return usage.ru_utime + usage.ru_stime, time.monotonic() - start

    def told(self, words, pattern, preload=None):
        """The number that a run before these words tells on standard error."""
        environment = dict(os.environ, **({"LD_PRELOAD": preload} if preload else {}))
        with open(self.script, "rb") as script:
            run = subprocess.run(
                words + self.words, stdin=script, stdout=subprocess.DEVNULL, stderr=subprocess.PIPE, env=environment, check=True)
        return int(re.search(pattern, run.stderr.decode())[1])

    def instructions(self):
        """How many instructions one run takes."""
        return self.told(["valgrind", "--tool=callgrind", "--callgrind-out-file=/dev/null"], r"Collected : (\d+)")


def least_times(programs, runs, kind):
    """For each program the least time of a batch of so many runs, in turn, in seconds a run."""
    least = [float("inf")] * len(programs)
    for _ in range(BATCHES):
        for i, program in enumerate(programs):
            least[i] = min(least[i], sum(program.run()[kind] for _ in range(runs)) / runs)
    return least


def without_start(few, many, measure):
    """What the larger of two runs takes more than the smaller, for each side."""
    return [high - low for low, high in zip(measure(few), measure(many))]


def is_drawable(number):
    """Whether a drawn order of so many places meets each once."""
    for factor in (2, 3, 5, 23, 29):
        while number % factor == 0:
            number //= factor
    return number == 1


def drawable(number):
    """The greatest number up to this one of whose places a drawn order meets each once."""
    return next(fewer for fewer in range(number, 0, -1) if is_drawable(fewer))


class Run:
    """One run of all loads."""

    def __init__(self, ours, rust, work):
        self.ours, self.rust, self.work = ours, rust, work
        self.peak = os.path.join(work, "peak.so")
        self.rows = []

    def note(self, group, load, size, measure, count, values):
        """Notes a measure of each side, for each of so many."""
        for side, value in zip(("ours", OTHERS.get(group, "crate")), values):
            self.rows.append((group, load, size, measure, side, f"{value / count:.3f}"))
        print(group, load, size, measure, *(f"{value / count:.1f}" for value in values), flush=True)

    def sides(self, ours, rust, words, script="/dev/null"):
        """Both programs of a load."""
        return [Program([os.path.join(folder, name)] + words, script)
                for folder, name in ((self.ours, ours), (self.rust, rust))]

    def script(self, kind, size):
        """Measures one script."""
        futures = drawable(int(size / SCRIPTS[kind]))
        script = os.path.join(self.work, f"{kind}-{size}")
        with open(script, "w", encoding="ascii") as file:
            subprocess.run([os.path.join(HERE, "script.sh"), kind, str(futures)], stdout=file, check=True)
        with open(script, "rb") as file:
            lines = sum(1 for _ in file)
        programs = self.sides("schedule", "schedule-rust", [], script)
        if kind == "pool":
            programs = programs[:1]
        elif len({subprocess.run(program.words, stdin=open(script, "rb"), stdout=subprocess.PIPE, check=True).stdout
                  for program in programs}) > 1:
            sys.exit(f"{kind}: the answers differ")
        self.rows.append(("script", kind, size, "lines", "both", lines))
        self.note("script", kind, size, "ns", lines, [1e9 * t for t in least_times(programs, max(BATCH // size, 1), 0)])
        if size <= COUNTED:
            self.note("script", kind, size, "instructions", lines, [program.instructions() for program in programs])

    def call(self, load, size):
        """Measures one load by call: what two more rounds take after the first."""
        def programs(rounds):
            both = self.sides("bench_calls", "heap" if load in HEAPS else "calls", [load, str(size), str(rounds)])
            return both[:1] if load in ALONE else both
        rounds = max(BATCH // size, 2)
        self.note("call", load, size, "ns", rounds * size, [1e9 * t for t in without_start(
            programs(1), programs(1 + rounds), lambda both: least_times(both, 1, 0))])
        if size <= COUNTED:
            self.note("call", load, size, "instructions", 2 * size, without_start(
                programs(1), programs(3), lambda both: [program.instructions() for program in both]))

    def shared(self, group, load, threads):
        """Measures one load of what threads share, by calls of that group."""
        rust = "blocking" if group == "blocking" else "sync"
        count = BATCH if threads == 1 else BATCH // 5
        programs = self.sides("bench_sync", rust, [load, str(count), str(threads)])
        self.note(group, load, threads, "ns", count, [1e9 * t for t in least_times(programs, 1, 0 if threads == 1 else 1)])
        if threads == 1:
            self.note(group, load, threads, "instructions", 20_000, without_start(*(
                self.sides("bench_sync", rust, [load, str(number), "1"]) for number in (10_000, 30_000)),
                lambda both: [program.instructions() for program in both]))

    def memory(self, load, size=100_000):
        """Measures how many bytes a program has for each future that waits."""
        programs = self.sides("bench_calls", "calls", [load, str(size), "1"])
        self.note("memory", load, size, "bytes", size, [program.told([], r"peak (\d+)", self.peak) for program in programs])

    def all(self, groups):
        """Measures every load of these groups."""
        for size in SIZES:
            for kind in SCRIPTS if "script" in groups and size <= LARGEST else ():
                self.script(kind, size)
            for load in CALLS + HEAPS + ALONE if "call" in groups and size <= LARGEST else ():
                self.call(load, size)
        for load in WAITING if "memory" in groups else ():
            self.memory(load)
        for group, loads in (("sync", SYNC), ("blocking", BLOCKING)):
            for load in loads if group in groups else ():
                for threads in (1, 2, 4) if load in IN_THREADS else (1,):
                    self.shared(group, load, threads)


HEAD = ("group", "load", "size", "measure", "side", "figure")


def kept(figures, groups):
    """The rows of other groups that the table has already."""
    if not os.path.exists(figures):
        return []
    with open(figures, encoding="ascii", newline="") as file:
        return [row for row in csv.reader(file) if row[0] not in groups + ["group"]]


def main():
    """Measures the groups, or all, and writes the table."""
    ours, rust, work, figures, *groups = sys.argv[1:]
    groups = groups or list(GROUPS)
    run = Run(ours, rust, work)
    subprocess.run(["cc", "-O2", "-shared", "-fPIC", "-o", run.peak, os.path.join(HERE, "peak.c"), "-ldl"], check=True)
    run.all(groups)
    rows = kept(figures, groups) + run.rows
    with open(figures, "w", encoding="ascii", newline="") as file:
        table = csv.writer(file, lineterminator="\n")
        table.writerow(HEAD)
        table.writerows(rows)


if __name__ == "__main__":
    main()
