"""Java sources: the machine's own, and generated ones."""
import glob
import os
import re
import zipfile


def of_machine(most):
    """The Java sources of the machine's packages of at most so many bytes, each once: of the `src.zip` of a JDK, of
    `*-sources.jar`, and single files below /usr."""
    archives, files = set(glob.glob("/usr/lib/jvm/*/src.zip") + glob.glob("/usr/lib/jvm/*/lib/src.zip")), set()
    for folder, _, names in os.walk("/usr"):
        archives.update(f"{folder}/{name}" for name in names if name.endswith("-sources.jar"))
        files.update(f"{folder}/{name}" for name in names if name.endswith(".java"))
    sources = {}
    for path in sorted({os.path.realpath(path) for path in archives if os.path.exists(path)}):
        with zipfile.ZipFile(path) as archive:
            for name in archive.namelist():
                if name.endswith(".java"):
                    sources.setdefault(archive.read(name))
    for path in sorted({os.path.realpath(path) for path in files if os.path.exists(path)}):
        with open(path, "rb") as source:
            sources.setdefault(source.read())
    return [source for source in sources if b"\0" not in source and len(source) <= most]


def generated(name, size):
    """The source of a class of ordinary Java, of this size in bytes and a little more."""
    parts, written, k = [f"package gen;\n\npublic class {name} {{\n"], 0, 0
    while written < size:
        k += 1
        part = (f"    private int value{k} = {k};\n\n    /* The sum of step and a value. */\n"
                f"    public int get{k}(int step, String name) {{\n        // {k} steps\n        int sum = 0;\n"
                f"        for (int i = 0; i < step; i++) {{\n            sum += this.value{k} * i - 0x{k:x};\n        }}\n"
                f"        if (sum >= 10 && !name.equals(\"n{k}\\n\")) {{\n            return sum;\n        }}\n"
                f"        return new {name}().get{max(1, k - 1)}(step >> 1, \"a\");\n    }}\n\n")
        parts.append(part)
        written += len(part)
    parts.append("}\n")
    return "".join(parts).encode()


def may_be_of_subset(source):
    """Whether a source has none of the parts of Java that are most often left out: a quick look before it is read."""
    code = re.sub(rb'/\*.*?\*/|//[^\n]*|"(?:\\.|[^"\\\n])*"|\'(?:\\.|[^\'\\\n])*\'', b" ", source, flags=re.S)
    return not re.search(rb"@(?!Override\b)|->|::|<\w+>|\b(?:switch|try|interface|enum|float|double|do|assert|synchronized|native|implements|throws)\b", code)
