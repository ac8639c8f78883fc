"""Times and peak memory of whole processes."""
import subprocess
import sys

RUNS = 3

# Runs its words and prints the seconds, the peak memory in bytes and the exit status: a process of its own, since a
# child's peak counts what its parent held when it was made.
LAUNCHER = """
import os, sys, time
start = time.perf_counter()
child = os.fork()
if not child:
    quiet = os.open(os.devnull, os.O_WRONLY)
    os.dup2(quiet, 1), os.dup2(quiet, 2)
    os.execvp(sys.argv[1], sys.argv[1:])
_, status, usage = os.wait4(child, 0)
print(time.perf_counter() - start, usage.ru_maxrss * 1024, os.waitstatus_to_exitcode(status))
"""


def timed(words, statuses=(0,), before=lambda: None):
    """The least time of some runs in seconds, and the greatest peak memory in bytes. `before` is called before each run."""
    best, peak = float("inf"), 0
    for _ in range(RUNS):
        before()
        launched = subprocess.run([sys.executable, "-S", "-c", LAUNCHER, *words], stdout=subprocess.PIPE, check=True)
        seconds, memory, status = launched.stdout.split()
        if int(status) not in statuses:
            sys.exit(f"{words[0]} ends with {int(status)}")
        best, peak = min(best, float(seconds)), max(peak, int(memory))
    return best, peak


def summary(seconds, peak, size):
    """A time and a peak memory as they are printed, beside the size of the sources in bytes."""
    return (f"whole process, best of {RUNS}: {seconds * 1000:.0f} ms, {size / seconds / 1e6:.1f} MB/s; "
            f"peak memory {peak / 1e6:.1f} MB, {peak / size:.1f} times the sources")


def growth(what, seconds_of, count):
    """Prints the times for half as many and for all, and their ratio, which is about 2 where the time is linear."""
    half, all_ = seconds_of(count // 2), seconds_of(count)
    print(f"{what}: {half * 1000:.0f} ms for {count // 2}, {all_ * 1000:.0f} ms for {count}: {all_ / half:.1f}", flush=True)
