#!/bin/sh
# Checks a thousand generated sources with `molref check`, and those of the machine's own Java sources that are of the subset, beside
# javac's parsing, entering and attributing of the same files, in one run: the least time of several runs of the whole process, the ratio,
# and the peak memory beside the size of the sources. Then 16 MB of sources; and programs of one shape (bench/shapes.py), half as large and
# whole, where the ratio of the times is about 2 if the time is linear and 4 if it is the square.
# Without javac, or without such sources, their part is left out.
# Usage: bench/check.sh [PROGRAM], where PROGRAM is the built crate molref.
set -eu
here=$(dirname "$(readlink -f "$0")")
program=$(readlink -f "${1:-$here/../crates/molref/out/molref}")
[ -x "$program" ] || { echo "usage: bench/check.sh [PROGRAM]: $program is no program"; exit 2; }
work=$(mktemp -d)
trap 'rm -rf "$work"' EXIT
PYTHONDONTWRITEBYTECODE=1 PYTHONPATH=$here python3 - "$program" "$work" <<'PY'
import os, shutil, sys

import programs
from measured import RUNS, growth, summary, timed
from shapes import SHAPES

PROGRAM, WORK = sys.argv[1:]
FILES, MOST, TOGETHER = 2048, 1 << 20, 16 << 20


def write_clean(what, sources):
    """Writes sources that are a program."""
    base = programs.write(f"{WORK}/{what}", sources)
    answer = programs.check(PROGRAM, base)
    if answer != f"clean {len(sources)}":
        sys.exit(f"{what}: {answer}")
    return base


def measure(what, sources):
    """Prints the time and the peak memory of a check, and answers the folder of the sources and the time."""
    base = write_clean(what, sources)
    ours, peak = timed([PROGRAM, "check", base])
    size = sum(map(len, sources.values()))
    print(f"{what}: {len(sources)} files, {size} bytes")
    print(f"  molref check, {summary(ours, peak, size)}", flush=True)
    return base, ours


def compare(what, sources):
    """Measures a check beside javac over the same files."""
    base, ours = measure(what, sources)
    if shutil.which("javac") is None:
        print("  no javac on this machine")
        return
    with open(f"{WORK}/names", "w") as out:
        out.write("\n".join(f"{base}/{path}" for path in sources))
    # Classes of packages of the JDK may be compiled as of release 8. What other files would be needed for is an error, which ends nothing.
    words = ["javac", "-proc:none", "-nowarn", "-source", "8", "-Xmaxerrs", "1", "-XDshould-stop.ifError=ATTR", "-XDshould-stop.ifNoError=ATTR",
             "-d", f"{WORK}/classes", f"@{WORK}/names"]
    os.makedirs(f"{WORK}/classes", exist_ok=True)
    theirs, their_peak = timed(words, (0, 1))
    print(f"  javac up to attributing, whole process, best of {RUNS}: {theirs * 1000:.0f} ms, peak memory {their_peak / 1e6:.1f} MB; "
          f"ratio of the times {ours / theirs:.2f}", flush=True)


print(f"cores {os.cpu_count()}, load {os.getloadavg()[0]:.1f}")
compare("generated", programs.generated(1000))
measure("generated, 16 MB", programs.generated(2000))
for what, shape, count in SHAPES:
    growth(what, lambda number: timed([PROGRAM, "check", write_clean(what, shape(number))])[0], count)
if real := programs.of_machine(PROGRAM, WORK, FILES, MOST, TOGETHER):
    compare("real", real)
else:
    print("no Java sources of the subset on this machine")
PY
