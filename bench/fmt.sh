#!/bin/sh
# Formats a thousand generated sources, and those of the machine's own Java sources that are a program of the subset, with
# `molref fmt`, and the same files with clang-format and google-java-format where the machine has them, in one run: the
# least time of several runs of the whole process, the ratio to each, and the peak memory beside the size of the sources.
# What was formatted is formatted again, and has to stay. Then 16 MB of sources, and programs of one shape (bench/shapes.py), half as large
# and whole, where the ratio of the times is about 2 if the time is linear and 4 if it is the square.
# Without such sources, or without a peer, their part is left out.
# Usage: bench/fmt.sh [PROGRAM], where PROGRAM is the built crate molref.
set -eu
here=$(dirname "$(readlink -f "$0")")
program=$(readlink -f "${1:-$here/../crates/molref/out/molref}")
[ -x "$program" ] || { echo "usage: bench/fmt.sh [PROGRAM]: $program is no program"; exit 2; }
work=$(mktemp -d)
trap 'rm -rf "$work"' EXIT
PYTHONDONTWRITEBYTECODE=1 PYTHONPATH=$here python3 - "$program" "$work" <<'PY'
import filecmp, os, shutil, subprocess, sys, tempfile

import programs
from measured import RUNS, growth, summary, timed
from shapes import SHAPES

PROGRAM, WORK = sys.argv[1:]
FILES, MOST, TOGETHER = 4096, 1 << 20, 16 << 20


def moved_away(folder):
    """Makes room for a folder. What stands there is kept under another name: where files were deleted just now, some file systems make new
    ones slowly."""
    if os.path.exists(folder):
        os.rename(folder, tempfile.mkdtemp(dir=WORK) + "/before")


def formatted(base):
    """The time and the peak memory of formatting a folder into a new one, and that folder."""
    out = f"{base}.out"
    return *timed([PROGRAM, "fmt", base, out], before=lambda: moved_away(out)), out


def measure(what, sources):
    """Prints the time and the peak memory, and answers the folder of the sources and the time."""
    base = programs.write(f"{WORK}/{what}", sources)
    ours, peak, out = formatted(base)
    size = sum(map(len, sources.values()))
    print(f"{what}: {len(sources)} files, {size} bytes")
    print(f"  molref fmt, {summary(ours, peak, size)}", flush=True)
    again = f"{base}.again"
    subprocess.run([PROGRAM, "fmt", out, again], stdout=subprocess.DEVNULL, check=True)
    for path in sources:
        if not filecmp.cmp(f"{out}/{path}", f"{again}/{path}", shallow=False):
            sys.exit(f"{path}: formatted again it differs")
    return base, ours


def compare(what, sources):
    """Measures beside other formatters. They write to files of their own, so that each run has the same input."""
    base, ours = measure(what, sources)
    for peer in ("clang-format", "google-java-format"):
        if shutil.which(peer) is None:
            print(f"  no {peer} on this machine")
            continue
        copy = f"{base}.{peer}"

        def fresh():
            moved_away(copy)
            shutil.copytree(base, copy)

        with open(f"{WORK}/names", "w") as file:
            file.write("\n".join(f"{copy}/{path}" for path in sources))
        words = [peer, "-i", f"--files={WORK}/names"] if peer == "clang-format" else ["sh", "-c", f"xargs {peer} -r <{WORK}/names"]
        theirs, their_peak = timed(words, before=fresh)
        print(f"  {peer}, whole process, best of {RUNS}: {theirs * 1000:.0f} ms, peak memory {their_peak / 1e6:.1f} MB; "
              f"ratio of the times {ours / theirs:.2f}", flush=True)


print(f"cores {os.cpu_count()}, load {os.getloadavg()[0]:.1f}")
compare("generated", programs.generated(1000))
measure("generated, 16 MB", programs.generated(2000))
for what, shape, count in SHAPES:
    growth(what, lambda number: formatted(programs.write(f"{WORK}/{what}", shape(number)))[0], count)
if real := programs.of_machine(PROGRAM, WORK, FILES, MOST, TOGETHER):
    compare("real", real)
else:
    print("no Java sources of the subset on this machine")
PY
