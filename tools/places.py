#!/usr/bin/env python3
"""Lists, by the shape of the text, the places in src/ where an older way of writing may stand.

    tools/places.py [POINT] [--count]      POINT is 1 to 8; none means all
    tools/places.py --at COMMIT ..         the same of a commit

A line that is listed is a place to look at, not yet one to change: docs/DESIGN-PASS.md says of each what became of it.
"""
import collections
import io
import re
import subprocess
import sys
import tarfile


def sources(commit):
    """The text of each file of src/ and proofs/, by its path."""
    if commit:
        pack = subprocess.run(["git", "archive", commit, "crates"], check=True, capture_output=True).stdout
        tar = tarfile.open(fileobj=io.BytesIO(pack))
        names = [m for m in tar.getmembers() if m.isfile()]
        return {m.name: tar.extractfile(m).read().decode() for m in names if wanted(m.name)}
    listed = subprocess.run(["git", "ls-files", "crates"], check=True, capture_output=True, text=True).stdout.split()
    return {name: open(name).read() for name in listed if wanted(name)}


def wanted(name):
    return name.endswith(".rt") or "/proofs/" in name and name.endswith(".antt")


def lines(files, pattern, of=".rt"):
    """Each line that the pattern fits, comments left out."""
    found = []
    for name in sorted(files):
        if name.endswith(of):
            for n, line in enumerate(files[name].split("\n"), 1):
                if not line.strip().startswith("//") and re.search(pattern, line):
                    found.append(f"{name}:{n}: {line.strip()}")
    return found


FUNCTION = re.compile(
    r"\n *(?:pub(?:\(\w+\))? )?(?:final )?fn (\w+)(<[^(]*>)?\((.*?)\)( -> [^\n{;]*)?(.*?)(?=\n *\{\}|\n *\{\n|\n *;|;\n)", re.S
)


def functions(files):
    for name in sorted(files):
        if name.endswith(".rt"):
            for m in FUNCTION.finditer(files[name]):
                yield name, m, files[name]


def body(text, start):
    """The text from the brace at or after start to the one that closes it."""
    at = text.find("{", start)
    depth = 0
    for i in range(at, len(text)):
        depth += {"{": 1, "}": -1}.get(text[i], 0)
        if depth == 0:
            return text[at : i + 1]
    return text[at:]


def twins(files):
    """Functions whose code is the same but for types, numbers and the names that a path begins with."""
    alike = collections.defaultdict(list)
    for name, m, text in functions(files):
        code = m.group(3) + (m.group(4) or "") + body(text, m.end())
        code = re.sub(r"//[^\n]*", "", code)
        code = re.sub(r"\b[A-Z]\w*\b", "T", code)
        code = re.sub(r"\b[ui](8|16|32|64|128|size)\b", "N", code)
        code = re.sub(r"\b\d[\d_]*\b", "0", code)
        code = re.sub(r"\s+", "", code)
        if len(code) > 60:
            alike[code].append(f"{name}: {m.group(1)}")
    return [" = ".join(group) for group in alike.values() if len(group) > 1]


def said_often(files):
    """Clauses that stand in the contracts of three or more functions."""
    where = collections.defaultdict(list)
    for name, m, _ in functions(files):
        for c in re.finditer(r"(requires|ensures)(?: \w+)? \{ (.*?) \}\n", m.group(5) + "\n", re.S):
            where[c.group(1) + " " + re.sub(r"\s+", " ", c.group(2))].append(f"{name}: {m.group(1)}")
    return [f"{len(v)} x {k}: {', '.join(v)}" for k, v in sorted(where.items()) if len(v) >= 3]


def together(files):
    """Three or more parameters that stand together in three or more functions of one crate."""
    where = collections.defaultdict(set)
    for name, m, _ in functions(files):
        names = [p.split(":")[0].replace("mut ", "").strip() for p in re.split(r",\s*", m.group(3)) if ":" in p]
        names = sorted(set(names))
        crate = name.split("/")[1]
        for i in range(len(names)):
            for j in range(i + 1, len(names)):
                for k in range(j + 1, len(names)):
                    where[(crate, names[i], names[j], names[k])].add(f"{name}: {m.group(1)}")
    return [f"{len(v)} x {', '.join(k)}" for k, v in sorted(where.items()) if len(v) >= 3]


POINTS = {
    "1": ("enums, codes and sentinels", lambda f: lines(f, r"^(pub )?enum |fn number\(")),
    "2": ("functions alike but for types and numbers", twins),
    "3": ("loops over a counted index", lambda f: lines(f, r"\bwhile\b|\bfor [^&]* in .*\.\.")),
    "4": (
        "equality, order, conversion and errors by hand",
        lambda f: lines(f, r"impl.* (PartialEq|Eq|PartialOrd|Ord|Clone|Copy|Debug|Hash) for|=> (return )?Err\(|=> Ok\(\w+\),|fn number\(|b'0'|fn same\("),
    ),
    "5": ("facts said often, and parameters that travel together", lambda f: said_often(f) + together(f)),
    "6": ("arrays held beside a length or beside one another", lambda f: lines(f, r"^\s*(pub )?\w+: \[[^\]]+; *\w+\],$")),
    "7": ("steps chosen by a switch, tables of functions", lambda f: lines(f, r"\bdyn\b|: fn\(|\[fn\(")),
    "8": ("answers in proofs/", lambda f: lines(f, r"^(pub|abbrev pub) \S+ : goal\.", ".antt")),
}


def main():
    words = sys.argv[1:]
    commit = None
    if "--at" in words:
        commit = words[words.index("--at") + 1]
        words = [w for w in words if w not in ("--at", commit)]
    only = [w for w in words if w in POINTS] or list(POINTS)
    files = sources(commit)
    for point in only:
        title, find = POINTS[point]
        found = find(files)
        print(f"{point}. {title}: {len(found)}")
        if "--count" not in words:
            for place in found:
                print("   ", place)


main()
