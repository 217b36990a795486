#!/usr/bin/env python3
"""Respells the names that the repository's own definitions and lemmas have: words in snake case, types in camel case.

Run it once, from the top of the repository, after the older spelling of the toolchain was turned. A name with dashes or with a capital
inside becomes words joined by '_', or, where it begins with a capital, one word in camel case. Names of the library, and names that
the toolchain makes for goals and steps, stay. With --list it prints the names and writes nothing.
"""
import collections
import glob
import re
import sys

NAME = r"[^\s(){}\[\].,;:«»\"]+"
TOKEN = re.compile(NAME)
OWN = "|".join(sorted(set(l.split(":")[0].split()[0] for l in open("crates.txt", encoding="utf-8") if l.strip() and not l.startswith("#"))))
MADE = re.compile(r"^(returns|loop|invariant(_of)?|decreases|overflow(_\w+)?|unreachable|bounds|then|else|in)-|-requires(-|$)|^(lawful|names)-law$|^(In|Then|Else)-")


def code(line):
    """The line without its comment."""
    return re.split(r"(?:^|(?<=\s))--(?=\s|$|-)", line, maxsplit=1)[0]


def lemma_file(path):
    return "/specs/" in path or re.match(r"crates/\w+/proofs/\w+\.antt$", path)


# Names that would fall together with one of the library's.
APART = {"bit-and": "bit_of_and", "bit-or": "bit_of_or"}


def respelled(name):
    if name in APART:
        return APART[name]
    if name[0].isupper():
        return "".join(w[0].upper() + w[1:] for w in re.split("[-_]", name) if w)
    return re.sub(r"(?<=[a-z])([A-Z])(?=[a-z])", lambda m: "_" + m.group(1).lower(), name).replace("-", "_")


def own_names(paths):
    library, own = set(), set()
    for p in paths:
        made = not lemma_file(p)
        for line in open(p, encoding="utf-8"):
            line = code(line)
            used = re.match(r"\s*use (\S+)\.\{(.*)\}", line)
            if used:
                if not re.match(r"Rattle\.(%s)\." % OWN, used.group(1)):
                    for word in re.split(r",| as ", used.group(2)):
                        library.add(word.strip())
                continue
            head = re.match(r"\s*(?:pub |abbrev |unfoldable )*(?:record |data )?(%s)(?:\s.*)?\s[:=](?:\s|$)" % NAME, line)
            if head and not made:
                own.add(head.group(1))
            names = [head.group(1)] if head else []
            names += re.findall(r"\blet (%s) [:=]" % NAME, line)
            if not made:
                names += [t for t in TOKEN.findall(line) if "-" in t]
            own.update(n for n in names if re.search(r"[A-Za-z]", n) and not MADE.search(n))
    wanted = {n for n in own - library if re.match(r"[A-Za-z][\w'-]*$", n) and ("-" in n or re.match(r"[A-Z]\w*_|[a-z]\w*[a-z][A-Z][a-z]", n))}
    return {n: respelled(n) for n in sorted(wanted) if respelled(n) != n}


def turn(text, names, rust):
    out = []
    for line in text.split("\n"):
        if rust:
            cut = re.match(r"((?:[^\"/]|\"(?:[^\"\\]|\\.)*\"|/(?!/))*)(//.*)?$", line)
            body, rest = (cut.group(1), cut.group(2) or "") if cut else (line, "")
        else:
            body = code(line)
            rest = line[len(body):]
        out.append(TOKEN.sub(lambda m: names.get(m.group(0), m.group(0)), body) + rest)
    return "\n".join(out)


def main():
    antt = sorted(glob.glob("crates/*/specs/**/*.antt", recursive=True) + glob.glob("crates/*/proofs/**/*.antt", recursive=True))
    rust = sorted(glob.glob("crates/*/src/**/*.rt", recursive=True))
    edits = sorted(glob.glob("crates/*/must-fail/*.edit"))
    names = own_names(antt)
    seen = collections.Counter()
    for p in antt + rust:
        for line in open(p, encoding="utf-8"):
            seen.update(TOKEN.findall(code(line)))
    for old, new in names.items():
        if new in seen or list(names.values()).count(new) > 1:
            print("falls together: %s -> %s (%d places)" % (old, new, seen[new]))
    if "--list" in sys.argv:
        for old, new in names.items():
            print(old, new)
        return
    for p in antt + rust + edits:
        text = open(p, encoding="utf-8").read()
        new = turn(text, names, not p.endswith(".antt"))
        if new != text:
            open(p, "w", encoding="utf-8").write(new)
    print("%d names" % len(names))


main()
