#!/usr/bin/env python3
"""Sets what the repository promises beside what it promised at a commit, as a page: tools/beside.py COMMIT

Of each crate: the signatures and contracts of public functions and of traits' methods in src/, public types with their ghost fields,
ghost members, and the definitions and lemmas of specs/, where the text is another; lines with - stood at the commit, lines with +
stand now.
"""
import io
import re
import subprocess
import sys
import tarfile


def at(commit):
    pack = subprocess.run(["git", "archive", commit, "crates"], check=True, capture_output=True).stdout
    tar = tarfile.open(fileobj=io.BytesIO(pack))
    return {m.name: tar.extractfile(m).read().decode() for m in tar.getmembers() if m.isfile() and wanted(m.name)}


def wanted(name):
    return name.endswith(".rt") and "/src/" in name and "tests" not in name or name.endswith(".antt") and "/specs/" in name


def brace(text, start):
    depth = 0
    for i in range(start, len(text)):
        depth += {"{": 1, "}": -1}.get(text[i], 0)
        if depth == 0:
            return i + 1
    return len(text)


def rust(text):
    """Each function's signature with its clauses, each type, each ghost member of an impl or a trait, by name."""
    text = re.sub(r"(?m)^ *//.*\n", "", text)
    found = {}
    owner = ""
    for m in re.finditer(r"(?m)^(?:impl|pub trait|trait)\b[^{]*\{|^(?: *)(?:pub(?:\(\w+\))? )?(?:final )?fn \w+|^(?:#\[derive[^\n]*\n)?(?:pub )?(?:struct|enum) \w+[^;{]*[;{]|^(?:pub )?type [^\n]*;|^ +ghost (?!use)[\w ]+[:=] *\{", text):
        head = m.group(0)
        if re.match(r"(impl|pub trait|trait)\b", head):
            owner = " ".join(head[:-1].split())
            continue
        if "fn " in head:
            end = re.compile(r"\n *\{|\{\}|;\n").search(text, m.end())
            said = text[m.start() : end.start() if end else len(text)]
            name = re.search(r"fn (\w+)", head).group(1)
            inside = head.startswith(" ")
            if "pub" not in head and not (inside and ("trait " in owner or " for " in owner)):
                continue
        elif "ghost" in head:
            said = text[m.start() : brace(text, m.end() - 1)]
            name = re.search(r"ghost (\w+)", head).group(1)
            inside = True
            if not owner:
                continue
        else:
            said = text[m.start() : brace(text, m.end() - 1)] if head.endswith("{") else head
            name = re.search(r"(?:struct|enum|type) (\w+)", head).group(1)
            inside = False
            owner = ""
            if "pub " not in head:
                continue
        found.setdefault((owner + " " if inside and owner else "") + name, " ".join(said.split()))
    return found


def definitions(text):
    text = re.sub(r"(?m)^ *--.*\n", "", text)
    found = {}
    for part in re.split(r"\n(?=\S)", text):
        m = re.match(r"(?:abbrev |unfoldable |record |data )?(?:pub )?(?:abbrev |unfoldable |record |data )?(?:pub )?([\w'<>=-]+)", part)
        if part.startswith(("use ", "pub mod", "unfolding")) or not m:
            continue
        name = m.group(1)
        said = " ".join(part.split())
        # of a lemma its statement, not its proof
        stated = re.match(r"(abbrev|unfoldable|record|data|pub record|pub data)", said)
        if name in found and not found[name].startswith(("abbrev", "unfoldable", "record", "data", "pub record", "pub data")):
            continue
        if not stated and not re.match(r"(pub )?" + re.escape(name) + r" :", said):
            if name not in found:
                continue
        found[name] = found[name] + " ; " + said if name in found else said
    return found


def gather(files):
    crates = {}
    for name in sorted(files):
        crate = name.split("/")[1]
        kind = "src" if name.endswith(".rt") else "specs"
        items = rust(files[name]) if kind == "src" else definitions(files[name])
        for item, said in items.items():
            crates.setdefault(crate, {}).setdefault(kind, {}).setdefault(item, set()).add(said)
    return crates


def main():
    old, new = gather(at(sys.argv[1])), gather(at("HEAD"))
    for crate in sorted(set(old) | set(new)):
        for kind in ("src", "specs"):
            was, now = old.get(crate, {}).get(kind, {}), new.get(crate, {}).get(kind, {})
            rows = []
            for item in sorted(set(was) | set(now)):
                gone, come = was.get(item, set()) - now.get(item, set()), now.get(item, set()) - was.get(item, set())
                if gone or come:
                    rows += [f"- {s}" for s in sorted(gone)] + [f"+ {s}" for s in sorted(come)] + [""]
            if rows:
                print(f"## {crate}/{kind}\n\n```diff\n" + "\n".join(rows[:-1]) + "\n```\n")


main()
