#!/bin/sh
# Lexes a generated megabyte of ordinary Java, beside the time that javac's parser takes for the same file
# (it lexes and parses), and long runs of single characters, which have to take linear time.
# Usage: bench/lex.sh PROGRAM, where PROGRAM is the built crate bench_lex: crates/bench_lex/out/bench_lex after `rt run` there.
set -eu
program=$1
work=$(mktemp -d)
trap 'rm -rf "$work"' EXIT
python3 - "$work" <<'PY'
import sys
work = sys.argv[1]
parts, size, k = ["package gen;\n\npublic class Big {\n"], 0, 0
while size < 1 << 20:
    k += 1
    part = (f"    private int value{k} = {k};\n\n    /* The sum of step and a value. */\n"
            f"    public int get{k}(int step, String name) {{\n        // {k} steps\n        int sum = 0;\n"
            f"        for (int i = 0; i < step; i++) {{\n            sum += this.value{k} * i - 0x{k:x};\n        }}\n"
            f"        if (sum >= 10 && !name.equals(\"n{k}\\n\")) {{\n            return sum;\n        }}\n"
            f"        return new Big().get{max(1, k - 1)}(step >> 1, \"a\");\n    }}\n\n")
    parts.append(part)
    size += len(part)
parts.append("}\n")
open(f"{work}/Big.java", "w").write("".join(parts))
million = 1_000_000
for name, text in {"slashes": "/" * million, "quote": '"' * 2 + " " + '"' + "a" * million, "backslashes": "\\" * million,
                   "identifier": "a" * million, "comments": "/**/" * (million // 4), "digits": "1_0" * (million // 3)}.items():
    open(f"{work}/{name}.txt", "w").write(text)
PY
"$(dirname "$(readlink -f "$0")")/javac_parser" "$work"
echo "$work/Big.java" > "$work/names"
micros() { # the least time of five runs of the program on a file, in microseconds
    python3 - "$program" "$1" <<'PY'
import subprocess, sys, time
best = 1e9
for _ in range(5):
    with open(sys.argv[2]) as source:
        start = time.perf_counter()
        subprocess.run([sys.argv[1]], stdin=source, stdout=subprocess.DEVNULL, check=True)
        best = min(best, time.perf_counter() - start)
print(int(best * 1e6))
PY
}
bytes=$(wc -c < "$work/Big.java")
ours=$(micros "$work/Big.java")
set -- $(java -cp "$work" ParseOnly "$work/names")
echo "cores $(nproc)"
echo "source bytes $bytes tokens $("$program" < "$work/Big.java")"
echo "lex, whole process, best of 5: $ours us, $((bytes * 1000000 / ours)) bytes/s"
echo "javac parser, first run in its process: $1 us; best of 15: $2 us"
python3 -c "print(f'ratio to the first run {$ours / $1:.2f}, to the best run {$ours / $2:.2f}')"
for name in slashes quote backslashes identifier comments digits; do
    echo "$name: $(micros "$work/$name.txt") us"
done
