#!/bin/sh
# Replays logs with `molref replay` over a thousand generated sources in the one layout, in one run with its peers: the least time of several
# runs of the whole process, and the peak memory.
# - A log of 65,535 entries (bodies, first values, signatures, names), beside `molref fmt` of the same base and, where the program bench_log
#   is built (bench/log.sh), the reading of the log alone; and a log of half as many, where the ratio is about 2 if the time of an entry does
#   not grow with their number.
# - A log of a thousand renames of methods, one in each class, beside `git am` of a thousand patches that make the same renames as text. Both
#   have to leave the same files.
# Usage: bench/replay.sh [PROGRAM [BENCH_LOG]], where PROGRAM is the built crate molref, and BENCH_LOG the built crate bench_log.
set -eu
here=$(dirname "$(readlink -f "$0")")
program=$(readlink -f "${1:-$here/../crates/molref/out/molref}")
reader=$(readlink -f "${2:-$here/../crates/bench_log/out/bench_log}" || true)
[ -x "$program" ] || { echo "usage: bench/replay.sh [PROGRAM [BENCH_LOG]]: $program is no program"; exit 2; }
work=$(mktemp -d)
trap 'rm -rf "$work"' EXIT
PYTHONDONTWRITEBYTECODE=1 PYTHONPATH=$here python3 - "$program" "$reader" "$work" <<'PY'
import difflib, itertools, os, re, subprocess, sys

import programs
from logs import GIT, changes, files_of, listed, log, moved_away, repository
from measured import RUNS, timed

PROGRAM, READER, WORK = sys.argv[1:]
CLASSES, ENTRIES = 1000, 65535
BASE = f"{WORK}/base"


def renames(ids):
    """A rename of the first method of each class, with the path of its file."""
    for address, method in ids["method"].items():
        if address.endswith(".get1/2"):
            yield address[: -len(".get1/2")].replace(".", "/") + ".java", {"op": "rename-method", "method": method, "name": f"renamed{method[1:]}"}


def patch(number, path, name):
    """The patch of such a rename, as a mail."""
    with open(f"{BASE}/{path}", encoding="utf-8") as file:
        before = file.read()
    after = re.sub(r"\bget1\(", f"{name}(", before)
    lines = difflib.unified_diff(before.splitlines(True), after.splitlines(True), f"a/{path}", f"b/{path}")
    return (f"From {number:040x} Mon Sep 17 00:00:00 2001\nFrom: bench <bench@example.org>\nDate: Mon, 17 Sep 2001 00:00:00 +0000\n"
            f"Subject: [PATCH] rename {number}\n\n---\n{''.join(lines)}-- \n2.0\n\n")


def replay(path):
    """The time and the peak memory of replaying a log, and the folder that it left."""
    out = f"{path}.out"
    seconds, peak = timed([PROGRAM, "replay", BASE, path, out], before=lambda: moved_away(out, WORK))
    return seconds, peak, out


def show(what, seconds, peak, more=""):
    print(f"{what}, whole process, best of {RUNS}: {seconds * 1000:.0f} ms, peak memory {peak / 1e6:.1f} MB{more}", flush=True)


def many_entries(digest, ids):
    """A log of as many entries as there may be, beside the layout of the base and the reading of the log."""
    whole = log(f"{WORK}/many.mol", digest, itertools.islice(changes(ids), ENTRIES))
    half = log(f"{WORK}/half.mol", digest, itertools.islice(changes(ids), ENTRIES // 2))
    print(f"base: {len(files_of(BASE))} files, {sum(map(len, files_of(BASE).values()))} bytes; log: {ENTRIES} entries, {os.path.getsize(whole)} bytes")
    formatted, format_peak = timed([PROGRAM, "fmt", BASE, f"{WORK}/formatted"], before=lambda: moved_away(f"{WORK}/formatted", WORK))
    show("molref fmt of the base", formatted, format_peak)
    ours, peak, out = replay(whole)
    show(f"molref replay of {ENTRIES} entries", ours, peak, f"; ratio to fmt {ours / formatted:.2f}, of the memory {peak / format_peak:.2f}")
    halved, _, _ = replay(half)
    print(f"replay without fmt: {(halved - formatted) * 1000:.0f} ms for {ENTRIES // 2} entries, {(ours - formatted) * 1000:.0f} ms for {ENTRIES}")
    check = programs.check(PROGRAM, out)
    if check != f"clean {CLASSES}":
        sys.exit(f"what was replayed: {check}")
    if os.access(READER, os.X_OK):
        reading, reading_peak = timed(["sh", "-c", f"exec {READER} <{whole}"])
        show("reading the log alone", reading, reading_peak, f"; ratio of replay to fmt and reading {ours / (formatted + reading):.2f}")
    else:
        print("bench_log is not built: the reading of the log alone is left out")


def beside_git(digest, ids):
    """A log of renames beside patches."""
    rows = list(renames(ids))
    path = log(f"{WORK}/renames.mol", digest, [row for _, row in rows])
    with open(f"{WORK}/renames.mbox", "w", encoding="utf-8") as out:
        out.write("".join(patch(number, file, row["name"]) for number, (file, row) in enumerate(rows, 1)))
    ours, peak, out = replay(path)
    show(f"molref replay of {len(rows)} renames", ours, peak)
    copy = f"{WORK}/repository"
    repository(copy, BASE)

    def back():
        subprocess.run([*GIT, "-C", copy, "checkout", "-q", "-f", "--detach", "base"], check=True)

    theirs, their_peak = timed([*GIT, "-C", copy, "am", "-q", f"{WORK}/renames.mbox"], before=back)
    show(f"git am of {len(rows)} patches", theirs, their_peak, f"; ratio of replay to it {ours / theirs:.2f}, of the memory {peak / their_peak:.2f}")
    if files_of(copy) != files_of(out):
        sys.exit("git am and replay leave other files")


print(f"cores {len(os.sched_getaffinity(0))}, load {os.getloadavg()[0]:.1f}")
programs.write(f"{WORK}/sources", programs.generated(CLASSES))
subprocess.run([PROGRAM, "fmt", f"{WORK}/sources", BASE], stdout=subprocess.DEVNULL, check=True)
many_entries(*listed(PROGRAM, BASE))
beside_git(*listed(PROGRAM, BASE))
PY
