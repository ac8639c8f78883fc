#!/bin/sh
# Lexes and parses a generated megabyte of ordinary Java, and those of the machine's own Java sources that are of the
# subset (of the `src.zip` of a JDK, of `*-sources.jar`, and single files below /usr), beside the time that javac's parser
# takes for the same files in one run; and then a megabyte, and half of one, of one thing after the other: the ratio of
# both times, about 2 where the time is linear. Without javac, or without such sources, their part is left out.
# Usage: bench/parse.sh PROGRAM, where PROGRAM is the built crate bench_parse: crates/bench_parse/out/bench_parse after
# `rt run` there.
set -eu
program=$(readlink -f "$1")
here=$(dirname "$(readlink -f "$0")")
work=$(mktemp -d)
trap 'rm -rf "$work"' EXIT
if command -v javac >/dev/null && command -v java >/dev/null; then
    "$here/javac_parser" "$work"
else
    echo "no javac: its times are left out"
fi
PYTHONDONTWRITEBYTECODE=1 PYTHONPATH=$here python3 - "$program" "$work" <<'PY'
import os, subprocess, sys, time

import java_sources

program, work = sys.argv[1:]
MILLION = 1 << 20


def run(sources):
    """Hands the sources to the program; the lines that it prints."""
    answer = subprocess.run([program], input=b"\0".join(sources), capture_output=True)
    if answer.returncode:
        sys.exit(f"the program ends with {answer.returncode}")
    return answer.stdout.decode().splitlines()


def micros(sources, runs=5):
    """The least time of several runs of the whole process, in microseconds."""
    path = f"{work}/input"
    with open(path, "wb") as out:
        out.write(b"\0".join(sources))
    best = None
    for _ in range(runs):
        with open(path, "rb") as source:
            start = time.perf_counter()
            subprocess.run([program], stdin=source, stdout=subprocess.DEVNULL, check=True)
            took = time.perf_counter() - start
        best = took if best is None else min(best, took)
    return int(best * 1e6)


def compare(what, sources):
    lines = run(sources)
    if not all(line.startswith("tokens ") for line in lines):
        sys.exit(f"{what}: {[line for line in lines if not line.startswith('tokens ')][0]}")
    names = []
    for k, source in enumerate(sources):
        os.makedirs(f"{work}/{what}/{k}", exist_ok=True)
        names.append(f"{work}/{what}/{k}/Source.java")
        with open(names[-1], "wb") as out:
            out.write(source)
    with open(f"{work}/names", "w") as out:
        out.write("\n".join(names))
    size, tokens = sum(map(len, sources)), sum(int(line.split()[1]) for line in lines)
    ours = micros(sources)
    print(f"{what}: {len(sources)} files, {size} bytes, {tokens} tokens")
    print(f"  lex and parse, whole process, best of 5: {ours} us, {size * 1000000 // ours} bytes/s", flush=True)
    if not os.path.exists(f"{work}/ParseOnly.class"):
        return
    first, best = map(int, subprocess.run(["java", "-cp", work, "ParseOnly", f"{work}/names"], capture_output=True, check=True).stdout.split())
    print(f"  javac parser, first run in its process: {first} us; best of 15: {best} us")
    print(f"  ratio to the first run {ours / first:.2f}, to the best run {ours / best:.2f}", flush=True)


print(f"cores {os.cpu_count()}, load {os.getloadavg()[0]:.1f}")
compare("generated", [java_sources.generated("Source", MILLION)])

found = java_sources.of_machine(MILLION)
if found:
    real = [source for source, line in zip(found, run(found)) if line.startswith("tokens ")]
    print(f"Java sources of the machine: {len(found)} files, of which {len(real)} are of the subset")
    if real:
        compare("real", real)
else:
    print("no Java sources on this machine")

head, tail = "package p; class A { void f() { ", " } }"
value = "package p; class A { int x = "
runs = {
    "(": (value, "("), "[": (value + "a", "["), "a[": (value, "a["), "a.": (head, "a."), "!": (value, "!"), "a+": (value, "a+"), "x=": (value, "x="), "{ after =": (value, "{"),
    "{": (head, "{"), "{{": (head, "{{"), ";": (head, ";"), "if(a)": (head, "if(a)"), "if(a);else ": (head, "if(a);else "), "else ": (head, "else "), "int a;": (head, "int a;"),
    "a.b();": (head, "a.b();"), "/**/": (head, "/**/"), "f(),": (head + "for(;;", "f(),"), "int a,": ("package p; class A { int ", "a,"), "import a;": ("package p; ", "import a;"),
    "int f(){}": ("package p; class A { ", "int f(){}"), "1,": (value + "{", "1,"),
}
for name, (front, piece) in runs.items():
    half, whole = [front + piece * (count // len(piece)) + tail for count in (MILLION // 2, MILLION)]
    times = [micros([text.encode()], 3) for text in (half, whole)]
    print(f"{name!r}: {times[0]} us for half, {times[1]} us for the whole: {times[1] / times[0]:.1f}, {run([whole.encode()])[0]}", flush=True)
PY
