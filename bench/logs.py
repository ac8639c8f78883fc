"""Logs over a base, made by the identities that `molref ids` prints, and what a run leaves in a folder."""
import itertools
import json
import os
import subprocess
import tempfile

GIT = ["git", "-c", "user.name=bench", "-c", "user.email=bench@example.org", "-c", "gc.auto=0", "-c", "core.autocrlf=false"]


def moved_away(folder, work):
    """Makes room for a folder. What stands there is kept under another name: where files were deleted just now, some file systems make new
    ones slowly."""
    if os.path.exists(folder):
        os.rename(folder, tempfile.mkdtemp(dir=work) + "/before")


def files_of(folder):
    """The bytes of the files below a folder, by their paths."""
    found = {}
    for at, _, names in os.walk(folder):
        if ".git" not in at.split(os.sep):
            for name in names:
                with open(f"{at}/{name}", "rb") as file:
                    found[os.path.relpath(f"{at}/{name}", folder)] = file.read()
    return found


def listed(program, base):
    """What `ids` prints of a base: its digest, and the identities of each kind, by their addresses."""
    lines = subprocess.run([program, "ids", base], capture_output=True, text=True, check=True).stdout.splitlines()
    ids = {kind: {} for kind in ("class", "field", "decl", "method", "param")}
    for line in lines[1:]:
        identity, kind, address = line.split(" ")[:3]
        ids[kind][address] = identity
    return lines[0].split(" ")[1], ids


def log(path, digest, rows, tag="ann"):
    """Writes a log of these rows, and answers its path."""
    with open(path, "w") as out:
        for row in ({"base": digest, "format": 1, "tags": [tag]}, *({"at": f"{tag}@{k}", **row} for k, row in enumerate(rows, 1))):
            out.write(json.dumps(row, sort_keys=True, separators=(",", ":")) + "\n")
    return path


def changes(ids):
    """Changes of all methods and fields in turn, again and again: a name, both parameters in the other order, and a first value; and a body
    of the first method of each class."""
    turn = 0
    while True:
        turn += 1
        for (address, method), field in zip(ids["method"].items(), itertools.cycle(ids["field"].values())):
            step, name = (ids["param"][f"{address}#{text}"] for text in ("step", "name"))
            params = [{"filler": "0", "id": step, "name": "step", "type": ["int"]},
                      {"filler": "null", "id": name, "name": "name", "type": ["written", "String"]}]
            yield {"op": "rename-method", "method": method, "name": f"turn{turn}of{method[1:]}"}
            yield {"op": "change-signature", "method": method, "params": params[:: 1 if turn % 2 else -1], "result": ["int"]}
            yield {"op": "set-value", "field": field, "type": ["int"], "value": ["binary", "+", "lit", str(turn), "lit", "0x1f"]}
            if address.endswith(".get1/2"):
                body = ["block", "2", "let", "plain", "int", "1", "sum", "init", "own", field, "return", "some", "binary", "+", "local", "0", "param", step, "0"]
                yield {"op": "set-body", "decl": ids["decl"][address], "body": body}


def repository(folder, base):
    """A repository of a base, with the branch `base`."""
    subprocess.run(["cp", "-r", base, folder], check=True)
    for words in (["init", "-q", "-b", "base"], ["add", "-A"], ["commit", "-q", "-m", "base"]):
        subprocess.run([*GIT, "-C", folder, *words], check=True, stdout=subprocess.DEVNULL)
