"""Java sources that are a program together, by `molref check`, each at the path of its package and class."""
import os
import re
import shutil
import subprocess

import java_sources


def path_of(source):
    """Where a source lies by its package and its class, or None."""
    package = re.search(rb"^package\s+([\w.]+)\s*;", source, flags=re.M)
    name = re.search(rb"\bclass\s+(\w+)", source)
    return f"{package[1].decode().replace('.', '/')}/{name[1].decode()}.java" if package and name else None


def write(base, sources):
    """Writes sources by their paths below a new folder, and answers the folder."""
    shutil.rmtree(base, ignore_errors=True)
    for path, source in sources.items():
        os.makedirs(os.path.dirname(f"{base}/{path}"), exist_ok=True)
        with open(f"{base}/{path}", "wb") as out:
            out.write(source)
    return base


def check(program, base):
    """What `check` prints of a folder."""
    done = subprocess.run([program, "check", base], capture_output=True)
    return (done.stdout + done.stderr).decode(errors="replace").strip()


def generated(count):
    """So many classes of ordinary Java, of 8,000 bytes and a little more each."""
    return {f"gen/Source{k}.java": java_sources.generated(f"Source{k}", 8000) for k in range(count)}


def of_machine(program, work, files, most, together):
    """The machine's sources of the subset that are a program, each by itself and all together: at most so many files, of at most so
    many bytes each and together."""
    found, size = {}, 0
    for source in java_sources.of_machine(most):
        path = path_of(source) if java_sources.may_be_of_subset(source) else None
        if path is None or path in found or len(found) == files or size + len(source) > together:
            continue
        if check(program, write(f"{work}/single", {path: source})) == "clean 1":
            found[path] = source
            size += len(source)
    while found:
        answer = check(program, write(f"{work}/together", found))
        if answer == f"clean {len(found)}":
            return found
        refused = re.match(r"base (.*?):\d+:\d+ ", answer)
        if refused is None:
            raise SystemExit(answer)
        del found[refused[1]]
    return found
