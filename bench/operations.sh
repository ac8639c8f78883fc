#!/bin/sh
# Times operations of all thirteen kinds in turn on a table of N entities, which were added by operations too. Of each 13
# in a row, five add seven entities (add-class, add-field, add-method, add-override, add-constructor), seven change cells
# of what was there (rename-class, rename-method, move-class, move-method, change-signature, set-body, set-value), and one
# deletes a declaration. Each body is `{}`, and no method has parameters. Each time is processor time, the least of 5 runs
# of the whole process, with that of filling the table taken off; 1,000 operations are applied to 20 tables, one after
# the other. What is shown is the time per operation of 1,000 of them and of the greatest number that a log may hold:
# where it does not grow with the log, the ratio is 1.
# Beside it stands a Python program that makes the same operations and applies them to two dictionaries, of what is known
# and of the cells. It looks up each identity that is named and writes the same cells; its values are texts and numbers, it
# has no trees to copy, and it keeps no identities in order. Its time is that of the loop over the operations alone, without
# the cycle collector of Python.
# Usage: bench/operations.sh [PROGRAM [N]], where PROGRAM is the built crate bench_op: crates/bench_op/out/bench_op after `rt run`
# there, where it is not given; and N is 10000.
set -eu
top=$(cd "$(dirname "$0")/.." && pwd)
program=$(readlink -f "${1:-$top/crates/bench_op/out/bench_op}")
[ -x "$program" ] || { echo "usage: bench/operations.sh [PROGRAM [N]]: $program is no program"; exit 2; }
python3 - "$program" "${2:-10000}" <<'PY'
import gc, os, resource, subprocess, sys, time

PROGRAM, N, RUNS = sys.argv[1], int(sys.argv[2]), 5
ADDED = (0, 0, 0, 0, 0, 0, 0, 1, 1, 2, 1, 2, 0)  # how many entities each of 13 operations in a row adds


def used():
    """The processor time of all processes that were waited for, in seconds."""
    usage = resource.getrusage(resource.RUSAGE_CHILDREN)
    return usage.ru_utime + usage.ru_stime


def timed(line, wanted, times):
    """The least processor time of some runs over so many of a line, in seconds; ends the script at a wrong answer."""
    best = float("inf")
    for _ in range(RUNS):
        start = used()
        answer = subprocess.run([PROGRAM], input=f"{line}\n" * times, capture_output=True, text=True).stdout
        best = min(best, used() - start)
        if answer != f"{line}: {wanted}\n" * times:
            sys.exit(f"wrong answer: {answer!r}")
    return best


def ratio(each):
    """The second time by the first; none where one of them is lost in noise."""
    return f"{each[1] / each[0]:.2f}" if min(each) > 0 else "none"


class Tables:
    """What is known, and the cells, in dictionaries."""

    def __init__(self, entities):
        self.known, self.cells = {}, {}
        for place in range(entities // 4):
            group = self.group(place)
            self.add(group[0], "class", {"package": "p", "name": "C", "super": None, "words": (), "notes": ()})
            self.add(group[1], "field", {"owner": group[0], "name": "f", "words": (), "notes": (), "value": ("int", None)})
            self.add(group[2], "static", {"name": "m", "result": "void", "params": (), "kind": "static", "fixed": False})
            self.add(group[3], "decl", {"owner": group[0], "method": group[2], "words": (), "notes": (), "body": "{}"})

    def group(self, place):
        return tuple(("", 4 * place + k) for k in (1, 2, 3, 4))

    def need(self, identity, kinds):
        if self.known.get(identity) not in kinds:
            raise KeyError(identity)

    def set(self, identity, kinds, slot, value):
        self.need(identity, kinds)
        self.cells[identity, slot] = value

    def add(self, identity, kind, cells):
        if identity in self.known:
            raise KeyError(identity)
        self.known[identity] = kind
        if kind in ("class", "field", "decl"):
            self.cells[identity, "live"] = True
        for slot, value in cells.items():
            self.cells[identity, slot] = value

    def add_decl(self, decl, method, owner):
        self.need(owner, ("class",))
        self.add(decl, "decl", {"owner": owner, "method": method, "words": (), "notes": (), "body": "{}"})

    def add_method(self, method, kind, name, decl, owner):
        self.add(method, kind, {"name": name, "result": "void", "params": (), "kind": kind, "fixed": False})
        self.add_decl(decl, method, owner)

    def apply(self, place, groups):
        a_round, kind = divmod(place, 13)
        a_class, field, method, decl = self.group(a_round % groups)
        own = [("ann", 7 * a_round + k) for k in range(1, 8)]
        if kind == 0:
            self.set(a_class, ("class",), "name", "D")
        elif kind == 1:
            self.set(method, ("static", "instance"), "name", "n")
        elif kind == 2:
            self.set(a_class, ("class",), "package", "q")
        elif kind == 3:
            self.need(a_class, ("class",))
            self.set(decl, ("decl",), "owner", a_class)
        elif kind == 4:
            self.set(method, ("static", "instance"), "result", "int")
            self.cells[method, "params"] = ()
        elif kind == 5:
            self.set(decl, ("decl",), "body", "{}")
        elif kind == 6:
            self.set(field, ("field",), "value", ("long", None))
        elif kind == 7:
            self.add(own[0], "class", {"package": "p", "name": "C", "super": None, "words": (), "notes": ()})
        elif kind == 8:
            self.need(a_class, ("class",))
            self.add(own[1], "field", {"owner": a_class, "name": "f", "words": (), "notes": (), "value": ("int", None)})
        elif kind == 9:
            self.add_method(own[2], "instance", "m", own[3], a_class)
        elif kind == 10:
            self.need(own[2], ("instance",))
            self.add_decl(own[4], own[2], own[0])
        elif kind == 11:
            self.add_method(own[5], "constructor", "", own[6], a_class)
        else:
            self.set(decl, ("class", "field", "decl"), "live", False)


def timed_python(count):
    """The least time of some loops over so many operations on new tables, in seconds."""
    best = float("inf")
    for _ in range(RUNS):
        tables = Tables(N)
        gc.disable()
        start = time.process_time()
        for place in range(count):
            tables.apply(place, N // 4)
        best = min(best, time.process_time() - start)
        gc.enable()
    return best


print(f"cores {len(os.sched_getaffinity(0))}, load {os.getloadavg()[0]:.1f}")
each = []
for count, times in ((1000, 20), (65535, 1)):
    filling = timed(f"fill {N}", N, times)
    added = count // 13 * sum(ADDED) + sum(ADDED[:count % 13])
    own = timed(f"mixed {N} {count}", N + added, times) - filling
    each.append(own / times / count)
    print(f"{count} operations: {own / times * 1000:.1f} ms, {each[-1] * 1e6:.2f} us each; filling: {filling / times * 1000:.1f} ms")
print(f"ratio {ratio(each)}")
each = []
for count in (1000, 65535):
    own = timed_python(count)
    each.append(own / count)
    print(f"Python, {count} operations: {own * 1000:.1f} ms, {each[-1] * 1e6:.2f} us each")
print(f"ratio {ratio(each)}")
PY
