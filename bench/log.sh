#!/bin/sh
# Reads and writes logs at the limits of size beside Python's json module and, where it is there, `jq`, on the same file in
# one run: one of 65,535 entries of all thirteen kinds in turn, and one of 16 MiB with one body. The program reads the log
# whole, to the trees of types, values and bodies, and writes it from these, which must give the same bytes. Each time is
# processor time, the least of 5 runs: of the program and of `jq` that of the whole process, of Python that of the calls on
# the lines, without its start. `jq empty` reads alone; `jq -c .` reads and writes.
# Then logs that are refused, of half the greatest size and of the whole: a line of `[`, of digits, of one text, and line
# ends alone. The ratio of both times is about 2 where the time is linear.
# Usage: bench/log.sh [PROGRAM], where PROGRAM is the built crate bench_log: crates/bench_log/out/bench_log after `rt run`
# there, where it is not given.
set -eu
top=$(cd "$(dirname "$0")/.." && pwd)
program=$(readlink -f "${1:-$top/crates/bench_log/out/bench_log}")
[ -x "$program" ] || { echo "usage: bench/log.sh [PROGRAM]: $program is no program"; exit 2; }
work=$(mktemp -d)
trap 'rm -rf "$work"' EXIT
python3 - "$program" "$work" <<'PY'
import gc, itertools, json, os, shutil, subprocess, sys, time

program, work = sys.argv[1:]
MOST_BYTES, MOST_ENTRIES, RUNS = 1 << 24, 65535, 5
HEADER = b'{"base":"' + b"5a" * 32 + b'","format":1,"tags":["ann"]}\n'
BODY = ["block", "1", "return", "some", "binary", "+", "own", ":4", "param", ":13", "0"]
PARAMS = [
    {"filler": "0", "id": "ann:5", "name": "amount", "type": ["int"]},
    {"filler": "null", "id": "ann:6", "name": "cart", "type": ["class", ":1"]},
]
NOTES = {"front": ["// goods"], "head": [], "tail": []}
CLASS = {"name": "Basket", "notes": NOTES, "package": "shop.store", "super": ["class", ":2"], "words": ["public"]}
FIELD = {"name": "count", "notes": [], "owner": ":1", "type": ["long"], "value": ["lit", "1L"], "words": ["private"]}
METHOD = {"body": BODY, "notes": [], "owner": ":1", "words": ["public"]}
OF_NAME = {"name": "total", "kind": "static", "result": ["int"]}
ROWS = [
    {"op": "add-class", "class": "ann:1", **CLASS},
    {"op": "add-field", "field": "ann:2", **FIELD},
    {"op": "add-method", "method": "ann:3", "decl": "ann:4", "params": PARAMS, **OF_NAME, **METHOD},
    {"op": "add-override", "decl": "ann:7", "method": ":11", **METHOD},
    {"op": "add-constructor", "method": "ann:8", "decl": "ann:9", "params": PARAMS, **METHOD},
    {"op": "delete", "id": ":6"},
    {"op": "set-body", "decl": ":5", "body": BODY},
    {"op": "set-value", "field": ":4", "type": ["array", "int"], "value": None},
    {"op": "rename-class", "class": ":1", "name": "Basket"},
    {"op": "rename-method", "method": ":11", "name": "sum"},
    {"op": "move-class", "class": ":1", "package": "store"},
    {"op": "move-method", "decl": ":6", "owner": ":2"},
    {"op": "change-signature", "method": ":14", "params": PARAMS, "result": ["void"]},
]

# A process of its own, since a process has at least the peak of memory of the one that starts it.
MEASURE = """
import resource, subprocess, sys
with open(sys.argv[1], "rb") as source, open(sys.argv[2], "wb") as answer:
    subprocess.run(sys.argv[3:], stdin=source, stdout=answer, check=True)
usage = resource.getrusage(resource.RUSAGE_CHILDREN)
print(usage.ru_utime + usage.ru_stime, usage.ru_maxrss)
"""


def written(value):
    """The form in which a log is written."""
    return json.dumps(value, sort_keys=True, separators=(",", ":")).encode()


def many_entries():
    """A log of the greatest number of entries."""
    rows = enumerate(itertools.islice(itertools.cycle(ROWS), MOST_ENTRIES), 1)
    return HEADER + b"".join(written({"at": f"ann@{number}", **row}) + b"\n" for number, row in rows)


def one_body():
    """A log of about the greatest size with one body."""
    statement = b',"do","assign","=","own",":4","binary","+","own",":4","lit","1"'
    front, back = HEADER + b'{"at":"ann@1","body":["block","', b',"0"],"decl":":5","op":"set-body"}\n'
    count = (MOST_BYTES - len(front + back) - len('1000000"')) // len(statement)
    return front + str(count).encode() + b'"' + statement * count + back


def measured(words, answer, runs=RUNS):
    """The least processor time of some runs on the log, in seconds, and the peak of memory, in KiB."""
    command = [sys.executable, "-c", MEASURE, f"{work}/log", answer, *words]
    usages = [subprocess.run(command, capture_output=True, check=True).stdout.split() for _ in range(runs)]
    return min(float(usage[0]) for usage in usages), max(int(usage[1]) for usage in usages)


def timed(log, wanted, words=(), runs=RUNS):
    """The same of the program with these words; ends the script at a wrong answer."""
    with open(f"{work}/log", "wb") as out:
        out.write(log)
    took, peak = measured([program, *words], f"{work}/answer", runs)
    with open(f"{work}/answer", "rb") as answer:
        if (found := answer.read()) != wanted:
            sys.exit(f"wrong answer, in place of {wanted[:80]!r}: {found[:80]!r}")
    return took, peak


def line(text):
    return f"{text}\n".encode()


def in_python(call):
    """The least processor time of some calls, without the cycle collector of Python, in seconds."""
    best = float("inf")
    for _ in range(RUNS):
        gc.disable()
        start = time.process_time()
        call()
        best = min(best, time.process_time() - start)
        gc.enable()
    return best


def beside(name, log, took, peak, others):
    """Prints what the program took, and what others took for the same."""
    print(f"  {name} by the program: {took * 1e3:.0f} ms, {len(log) / took / 1e6:.0f} MB/s, peak {peak} KiB", flush=True)
    for other, time_beside in others.items():
        print(f"  {name} by {other}: {time_beside * 1e3:.0f} ms; ratio of the program to it {took / time_beside:.2f}", flush=True)


def compare(name, log):
    lines = log.splitlines()
    print(f"{name}: {len(log)} bytes, {len(lines) - 1} entries")
    took, peak = timed(log, line(f"entries {len(lines) - 1}"))
    others = {"Python": in_python(lambda: [json.loads(text) for text in lines])}
    if shutil.which("jq"):
        others["jq"] = measured(["jq", "empty"], os.devnull)[0]
    beside("read", log, took, peak, others)
    took, peak = timed(log, log, ["write"])
    others = {"Python": in_python(lambda: [written(json.loads(text)) for text in lines])}
    if shutil.which("jq"):
        others["jq"] = measured(["jq", "-c", "."], os.devnull)[0]
    beside("read and written", log, took, peak, others)


def refused(name, make, fault):
    half, _ = timed(make(MOST_BYTES // 2), line(fault(MOST_BYTES // 2)), runs=3)
    whole, peak = timed(make(MOST_BYTES), line(fault(MOST_BYTES)), runs=3)
    ratio = f"{whole / half:.1f}" if half > 0 else "none"
    times = f"{half * 1e3:.0f} ms for half, {whole * 1e3:.0f} ms for the whole: {ratio}"
    print(f"{name}: {times}, peak {peak} KiB, {fault(MOST_BYTES)}", flush=True)


def second_line(text):
    """Makes a header and a line of the size that is left."""
    return lambda size: HEADER + text(size - len(HEADER) - 1) + b"\n"


print(f"cores {len(os.sched_getaffinity(0))}, load {os.getloadavg()[0]:.1f}")
if not shutil.which("jq"):
    print("no jq: its times are left out")
compare("many entries", many_entries())
compare("one body", one_body())
refused("line of [", second_line(lambda size: b"[" * size), lambda _: "NotJson(2)")
refused("line of digits", second_line(lambda size: b"1" * size), lambda _: "NotJson(2)")
refused("line of one text", second_line(lambda size: b'"' + b"x" * (size - 2) + b'"'), lambda _: "BadOp(2)")
refused("line ends", lambda size: b"\n" * size, lambda size: f"TooLong(Operations, {size - 1})")
PY
