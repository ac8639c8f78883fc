#!/bin/sh
# Merges logs with `molref merge`, in one run with its peers: the least time of several runs of the whole process, and the peak memory. What
# each run answers, and what the first one leaves, is compared with what has to be.
# - A thousand generated sources, of which one log renames every method, and the other one sets every second body, each of which calls one:
#   beside `git merge` of two branches with the same changes as text, with its conflicts and, where javac is there, the calls in the
#   files without conflicts that no longer compile; and beside `cp -r` of the sources.
# - Two logs of 65,535 entries together over the same sources (names and signatures; first values and bodies), beside `fmt` of them; and
#   half as many, where the ratio is about 2 if the time of an entry does not grow with their number.
# - Logs with ten thousand conflicts, of each of three sorts: cells set twice, uses of what is deleted, faults of both together.
# - Two logs of 16,384 renames each over 4,096 classes without members in 64 packages, which merge, and which conflict at every class: beside
#   `cp -r` of the base and `cat` of the logs and, where an earlier program is given, beside that one.
# Usage: bench/merge.sh [PROGRAM [EARLIER]], where PROGRAM is the built crate molref, and EARLIER one that was built before.
set -eu
here=$(dirname "$(readlink -f "$0")")
program=$(readlink -f "${1:-$here/../crates/molref/out/molref}")
[ -x "$program" ] || { echo "usage: bench/merge.sh [PROGRAM [EARLIER]]: $program is no program"; exit 2; }
earlier=${2:+$(readlink -f "$2")}
work=$(mktemp -d)
trap 'rm -rf "$work"' EXIT
PYTHONDONTWRITEBYTECODE=1 PYTHONPATH=$here python3 - "$program" "$earlier" "$work" <<'PY'
import itertools, os, re, shutil, subprocess, sys

import programs
from logs import GIT, changes, files_of, listed, log, moved_away, repository
from measured import RUNS, timed

PROGRAM, EARLIER, WORK = sys.argv[1:]
FILES, ENTRIES, CONFLICTS = 1000, 65535, 10000
PACKAGES, CLASSES, RENAMES = 64, 4096, 16384
BASE, OUT = f"{WORK}/base", f"{WORK}/out"
wrong = []


def show(what, seconds, peak, more=""):
    print(f"{what}, best of {RUNS}: {seconds * 1000:.0f} ms, peak memory {peak / 1e6:.1f} MB{more}", flush=True)


def needs(right, what):
    """Notes what is not as it has to be."""
    if not right:
        wrong.append(what)
        print(f"WRONG: {what}", flush=True)


def merge(what, one, other, answer, status=0, base=BASE, program=PROGRAM):
    """The time and the peak memory of a merge, of which the first lines have to be these."""
    seconds, peak = timed([program, "merge", base, one, other, OUT], (status,), before=lambda: moved_away(OUT, WORK))
    moved_away(OUT, WORK)
    done = subprocess.run([program, "merge", base, one, other, OUT], capture_output=True, text=True)
    needs(done.returncode == status and done.stdout.startswith(answer), f"{what}: {done.stdout[:200]!r}")
    needs(os.path.exists(OUT) == (status == 0), f"{what}: what is written")
    return seconds, peak


# ---- renames and bodies that call


def body(k, called, ids, name, quiet):
    """The words of the body of method number k of a class, with one call more, or with another argument in its last call."""
    step, text, value = (ids["param"][f"{name}.get{k}/2#step"], ids["param"][f"{name}.get{k}/2#name"], ids["field"][f"{name}.value{k}"])
    to_step, to_name = ids["param"][f"{name}.get{called}/2#step"], ids["param"][f"{name}.get{called}/2#name"]
    method, cls = ids["method"][f"{name}.get{called}/2"], ids["class"][name]
    new_call = f"do assign += local 0 call {method} 2 {to_step} lit 1 {to_name} param {text}".split() if quiet else []
    turns = f"for let plain int 1 i init lit 0 some binary < local 1 param {step} 1 post ++ local 1".split()
    added = f"block 1 do assign += local 0 binary - binary * own {value} local 1 lit 0x{k:x} 0".split()
    asked = ["if", *f"binary && binary >= local 0 lit 10 unary ! outcallon equals param {text} 1 lit".split(), f'"n{k}\\n"',
             *"block 1 return some local 0 0 none".split()]
    last = f"return some callon {method} newd {cls} 2 {to_step} binary >> param {step} lit {1 if quiet else 2} {to_name} lit".split() + ['"a"']
    return ["block", "5" if quiet else "4", "note", f"// {k} steps", *"let plain int 1 sum init lit 0".split(), *new_call, *turns, *added, *asked,
            *last, "0"]


def is_quiet(name):
    """In the classes of even numbers a new body has a call more, on a line that the other branch does not touch."""
    return int(name[len("gen.Source"):]) % 2 == 0


def bodies(ids):
    """A body for every second method."""
    for address, decl in ids["decl"].items():
        name, k = re.fullmatch(r"(.*)\.get(\d+)/2", address).groups()
        if int(k) % 2 == 0:
            yield {"op": "set-body", "decl": decl, "body": body(int(k), int(k) - 1, ids, name, is_quiet(name))}


def with_bodies(text, name):
    """The same as a change of text."""
    lines, k = [], 0
    for line in text.split("\n"):
        if header := re.search(r"public int get(\d+)\(", line):
            k = int(header[1])
        if k % 2 == 0 and not is_quiet(name):
            line = line.replace("(step >> 1,", "(step >> 2,")
        lines.append(line)
        if k % 2 == 0 and is_quiet(name) and line == "        int sum = 0;":
            lines.append(f"        sum += get{k - 1}(1, name);")
    return "\n".join(lines)


def with_names(text, name, ids):
    """The other change of text: each method has its new name."""
    return re.sub(r"\bget(\d+)\(", lambda found: f"renamed{ids['method'][f'{name}.get{found[1]}/2'][1:]}(", text)


def write_branch(copy, branch, sources):
    subprocess.run([*GIT, "-C", copy, "checkout", "-q", "-b", branch, "base"], check=True)
    for path, text in sources.items():
        with open(f"{copy}/{path}", "w", encoding="utf-8") as out:
            out.write(text)
    subprocess.run([*GIT, "-C", copy, "commit", "-q", "-a", "-m", branch], check=True)


def broken_calls(copy, paths):
    """How often javac finds no method of the name in these files; None without javac."""
    if shutil.which("javac") is None:
        return None
    with open(f"{WORK}/names", "w") as out:
        out.write("\n".join(f"{copy}/{path}" for path in paths))
    done = subprocess.run(["javac", "-proc:none", "-nowarn", "-Xmaxerrs", "1000000", "-d", f"{WORK}/classes", f"@{WORK}/names"], capture_output=True, text=True)
    return len(re.findall(r"error: cannot find symbol", done.stderr))


def by_git(one, other):
    """The time and the peak memory of `git merge` of two branches with these sources, and what it leaves."""
    copy = f"{WORK}/repository"
    repository(copy, BASE)
    write_branch(copy, "ann", one)
    write_branch(copy, "bob", other)

    def back():
        subprocess.run([*GIT, "-C", copy, "reset", "-q", "--hard"], check=True)
        subprocess.run([*GIT, "-C", copy, "checkout", "-q", "-f", "--detach", "ann"], check=True)

    taken = timed([*GIT, "-C", copy, "merge", "-q", "-m", "merge", "bob"], (0, 1), before=back)
    unmerged = subprocess.run([*GIT, "-C", copy, "diff", "--name-only", "--diff-filter=U"], capture_output=True, text=True).stdout.split()
    places = sum(file.count(b"\n<<<<<<< ") for file in files_of(copy).values())
    broken = broken_calls(copy, sorted(set(one) - set(unmerged)))
    said = "no javac on this machine" if broken is None else f"{broken} calls in the other files that do not compile"
    return *taken, f"; {places} conflicts in {len(unmerged)} files, {said}"


def names_and_bodies(digest, ids):
    """A rename of every method beside new bodies that call methods."""
    ann = log(f"{WORK}/ann.mol", digest, ({"op": "rename-method", "method": m, "name": f"renamed{m[1:]}"} for m in ids["method"].values()))
    bob = log(f"{WORK}/bob.mol", digest, bodies(ids), "bob")
    count = sum(len(open(path).readlines()) - 1 for path in (ann, bob))
    ours, peak = merge("names and bodies", ann, bob, f"merged\nfiles {FILES}\noperations {count}\n")
    base = {path: text.decode() for path, text in files_of(BASE).items()}
    name_of = {path: path[: -len(".java")].replace("/", ".") for path in base}
    other = {path: with_bodies(text, name_of[path]) for path, text in base.items()}
    wanted = {path: with_names(text, name_of[path], ids).encode() for path, text in other.items()}
    left = files_of(OUT)
    del left["merged.mol"]
    needs(left == wanted, "names and bodies: other sources are written")
    copied, _ = timed(["cp", "-r", BASE, f"{WORK}/copy"], before=lambda: moved_away(f"{WORK}/copy", WORK))
    theirs, their_peak, said = by_git({path: with_names(text, name_of[path], ids) for path, text in base.items()}, other)
    show(f"molref merge of {len(ids['method'])} renames and {count - len(ids['method'])} bodies", ours, peak)
    show("git merge of the same as text", theirs, their_peak, said)
    print(f"cp -r of the base: {copied * 1000:.0f} ms; ratio of molref to git merge {ours / theirs:.2f}, to cp -r {ours / copied:.1f}", flush=True)


# ---- many entries


def pair(name, digest, rows):
    """Two logs of these rows: names and signatures; values and bodies."""
    rows = list(rows)
    first = [row for row in rows if row["op"] in ("rename-method", "change-signature")]
    second = [row for row in rows if row["op"] not in ("rename-method", "change-signature")]
    return log(f"{WORK}/{name}.1.mol", digest, first), log(f"{WORK}/{name}.2.mol", digest, second, "bob")


def many_entries(digest, ids):
    """As many entries as a merged log may have, beside the layout of the base. Answers the time."""
    formatted, format_peak = timed([PROGRAM, "fmt", BASE, f"{WORK}/formatted"], before=lambda: moved_away(f"{WORK}/formatted", WORK))
    show("molref fmt of the base", formatted, format_peak)
    half = pair("half", digest, itertools.islice(changes(ids), ENTRIES // 2))
    whole = pair("whole", digest, itertools.islice(changes(ids), ENTRIES))
    halved, _ = merge("half the entries", *half, f"merged\nfiles {FILES}\noperations {ENTRIES // 2}\n")
    ours, peak = merge("many entries", *whole, f"merged\nfiles {FILES}\noperations {ENTRIES}\n")
    needs(programs.check(PROGRAM, OUT) == f"clean {FILES}", "many entries: what is written")
    show(f"molref merge of {ENTRIES} entries", ours, peak, f"; ratio to fmt {ours / formatted:.2f}, of the memory {peak / format_peak:.2f}")
    print(f"merge without fmt: {(halved - formatted) * 1000:.0f} ms for {ENTRIES // 2} entries, {(ours - formatted) * 1000:.0f} ms for {ENTRIES}")
    return ours


# ---- many conflicts


def values(ids, tag):
    """First values of as many fields as there are to be conflicts, in turn, again and again."""
    fields = list(itertools.islice(ids["field"].values(), CONFLICTS))
    for turn, field in zip(range(ENTRIES // 2), itertools.cycle(fields)):
        yield {"op": "set-value", "field": field, "type": ["int"], "value": ["binary", tag, "lit", str(turn), "lit", "2"]}


def by_class(ids):
    """The declarations of each class, by their addresses."""
    return {name: [a for a in ids["decl"] if a.startswith(f"{name}.")] for name in ids["class"]}


def deleted(ids):
    """The last method of each class, which nothing calls."""
    for addresses in by_class(ids).values():
        yield {"op": "delete", "id": ids["decl"][addresses[-1]]}


def users(ids):
    """Bodies of ten others in each class, which call it."""
    for addresses in by_class(ids).values():
        last = addresses[-1]
        step, name = ids["param"][f"{last}#step"], ids["param"][f"{last}#name"]
        for address in addresses[: CONFLICTS // FILES]:
            words = f"block 1 return some call {ids['method'][last]} 2 {step} param {ids['param'][f'{address}#step']} {name} lit null 0"
            yield {"op": "set-body", "decl": ids["decl"][address], "body": words.split()}


def additions(ids, tag):
    """Ten new methods in each class, which have the same names in both logs."""
    numbers = itertools.count(1)
    for owner in ids["class"].values():
        for k in range(CONFLICTS // FILES):
            method, decl = (f"{tag}:{next(numbers)}" for _ in range(2))
            yield {"op": "add-method", "method": method, "decl": decl, "owner": owner, "name": f"added{k}", "kind": "instance", "result": ["void"],
                   "params": [], "words": ["public"], "notes": [], "body": ["block", "0", "0"]}


def many_conflicts(digest, ids, merged):
    """Logs that conflict in many places, beside the merge of as many entries as there may be."""
    sorts = [("cells set twice", "twice ", values(ids, "+"), values(ids, "-")), ("uses of what is deleted", "gone-used ", deleted(ids), users(ids)),
             ("faults of both together", "fault same-address ", additions(ids, "ann"), additions(ids, "bob"))]
    for what, line, first, second in sorts:
        one, other = log(f"{WORK}/one.mol", digest, first), log(f"{WORK}/other.mol", digest, second, "bob")
        seconds, peak = merge(what, one, other, f"conflicts {CONFLICTS}\n{line}", 1)
        show(f"molref merge with {CONFLICTS} {what}", seconds, peak, f"; ratio to the merge of {ENTRIES} entries {seconds / merged:.2f}")


# ---- renames of classes without members


def class_renames(digest, ids, name, tag, numbers, last):
    """A log that renames the classes of these numbers in turn, again and again; the last names are last(k)."""
    def rows():
        for entry in range(RENAMES):
            k = numbers[entry % len(numbers)]
            yield {"op": "rename-class", "class": f":{k}", "name": last(k) if entry + len(numbers) >= RENAMES else f"{tag.capitalize()}{entry}"}
    return log(f"{WORK}/{name}.mol", digest, rows(), tag)


def small_classes():
    """Renames over many classes without members."""
    base = f"{WORK}/small"
    places = [(f"bench/p{k // (CLASSES // PACKAGES):02}", f"C{k:04}") for k in range(CLASSES)]
    programs.write(base, {f"{folder}/{name}.java": f"package {folder.replace('/', '.')};\n\nclass {name} {{\n}}\n".encode() for folder, name in places})
    digest, ids = listed(PROGRAM, base)
    whole = list(range(1, CLASSES + 1))
    # Each renames five eighths of the classes; the quarter that both rename has equal last names.
    ann = class_renames(digest, ids, "small.ann", "ann", whole[: CLASSES * 5 // 8], lambda k: f"Renamed{k}")
    bob = class_renames(digest, ids, "small.bob", "bob", whole[CLASSES * 3 // 8 :], lambda k: f"Renamed{k}")
    left = class_renames(digest, ids, "small.left", "left", whole, lambda k: f"Left{k}")
    right = class_renames(digest, ids, "small.right", "right", whole, lambda k: f"Right{k}")
    copied, _ = timed(["sh", "-c", f"cp -r {base} {WORK}/copy && cat {ann} {bob}"], before=lambda: moved_away(f"{WORK}/copy", WORK))
    wanted = {f"{folder}/Renamed{k}.java": f"package {folder.replace('/', '.')};\n\nclass Renamed{k} {{\n}}\n".encode() for k, (folder, _) in enumerate(places, 1)}
    for what, one, other, answer, status in [("merging", ann, bob, f"merged\nfiles {CLASSES}\noperations {2 * RENAMES}\n", 0),
                                             ("conflicting", left, right, f"conflicts {CLASSES}\ntwice :1[", 1)]:
        what = f"{CLASSES} classes, {what}"
        ours, peak = merge(what, one, other, answer, status, base)
        if status == 0:
            needs({path: text for path, text in files_of(OUT).items() if path != "merged.mol"} == wanted, f"{what}: other sources are written")
        more = f"; ratio to cp -r and cat {ours / copied:.1f}"
        if EARLIER:
            more += f", to the earlier program {ours / merge(what, one, other, answer, status, base, EARLIER)[0]:.2f}"
        show(f"molref merge over {what}", ours, peak, more)


print(f"cores {len(os.sched_getaffinity(0))}, load {os.getloadavg()[0]:.1f}")
programs.write(f"{WORK}/sources", programs.generated(FILES))
subprocess.run([PROGRAM, "fmt", f"{WORK}/sources", BASE], stdout=subprocess.DEVNULL, check=True)
print(f"base: {FILES} files, {sum(map(len, files_of(BASE).values()))} bytes")
digest, ids = listed(PROGRAM, BASE)
names_and_bodies(digest, ids)
many_conflicts(digest, ids, many_entries(digest, ids))
small_classes()
sys.exit(1 if wrong else 0)
PY
