#!/bin/sh
# Times the calls of a table over N and over 10 N classes of a base: adding them in one call, reading name, kind and life
# of each, setting the name of each, a tidied table, a copy, and adding as many of a lesser tag in one call after those
# of a greater one. Then the time of adding K classes of a lesser tag, one call each, after K of a greater tag, where N
# and where 10 N classes of a base stand before them and K is a tenth of N: that of a replay of a merged log.
# Each time is the least of 5 runs of the whole process; of a step that works on a filled table the time of filling it
# (and for `set` that of reading the names back) is taken off. A time in proportion to N has the ratio 10; one that does
# not grow with the base has the ratio 1.
# Usage: bench/table.sh [PROGRAM [N]], where PROGRAM is the built crate bench_table: crates/bench_table/out/bench_table after `rt run`
# there, where it is not given; and N is 10000.
set -eu
top=$(cd "$(dirname "$0")/.." && pwd)
program=$(readlink -f "${1:-$top/crates/bench_table/out/bench_table}")
[ -x "$program" ] || { echo "usage: bench/table.sh [PROGRAM [N]]: $program is no program"; exit 2; }
python3 - "$program" "${2:-10000}" <<'PY'
import os, subprocess, sys, time

PROGRAM, N, RUNS = sys.argv[1], int(sys.argv[2]), 5
K = N // 10


def timed(line, wanted):
    """The least time of some runs of a line, in seconds; ends the script at a wrong answer."""
    best = float("inf")
    for _ in range(RUNS):
        start = time.perf_counter()
        answer = subprocess.run([PROGRAM], input=line + "\n", capture_output=True, text=True).stdout
        best = min(best, time.perf_counter() - start)
        if answer != f"{line}: {wanted}\n":
            sys.exit(f"wrong answer: {answer!r}")
    return best


def show(step, what, own):
    ratio = f"{own[1] / own[0]:.1f}" if min(own) > 0 else "none"
    print(f"{step}: {what[0]} in {own[0] * 1000:.1f} ms, {what[1]} in {own[1] * 1000:.1f} ms, ratio {ratio}")


print(f"cores {len(os.sched_getaffinity(0))}, load {os.getloadavg()[0]:.1f}")
sizes = (N, 10 * N)
times = {step: [timed(f"{step} {n}", n) for n in sizes] for step in ("add", "read", "set", "tidy", "copy")}
times["together"] = [timed(f"together 0 {n}", 2 * n) for n in sizes]
less = {"read": "add", "set": "read", "tidy": "add", "copy": "add", "together": "add"}
for step, taken in times.items():
    show(step, sizes, [t - (times[less[step]][i] if step in less else 0) for i, t in enumerate(taken)])
own = [timed(f"each {n} {K}", n + 2 * K) - timed(f"greater {n} {K}", n + K) for n in sizes]
show("each", [f"{K} over a base of {n}" for n in sizes], own)
PY
