#!/usr/bin/env python3
"""Respells the names of this repository's own definitions and lemmas: types in camel case, all else in snake case, a dash only between two names.

usage: python3 tools/respell.py [--show]     at the top of the repository; --show writes nothing and prints old and new names

A name counts as its own where a file of specs/ or proofs/ declares it. Names of Rust functions, strings, goals of a function's proof and names of the
kit's libraries stay. A second run changes nothing more.
"""

import collections
import os
import re
import sys

WORD = re.compile(r'[^\s(){}.;,@"«»\[\]⌜⌝]+')
DECLARED = re.compile(r"^\s*(?:(?:abbrev|unfoldable|pattern|pub|axiom)\s+)*([^\s(){}.;,@\"«»:=]+)\s*(?:\{[^}]*\}\s*)?:\s")
SHAPE = re.compile(r"^\s*(?:pub\s+)?(record|data)\s+([^\s(){}.;,@\"«»:=]+)")
USED = re.compile(r"^use\s+([^\s{]+?)(?:\.\{([^}]*)\})?(?:\s+as\s+\S+)?\s*$")
GHOST = re.compile(r"^ghost use ([^\s{]+)\.\{([^}]*)\};", re.M)
CLAUSE = re.compile(r"\b(?:requires|ensures|ghost)\b")
# Words for the library's operators and functions: a dash stands between two of these, or one of these and a name of ours.
PLAIN = set("length drop take map append replicate set get_or slice_set suc zero cons le lt eqb ltb leb cond not max min mem".split())


def files(ends):
    for top in ("crates",):
        for folder, dirs, names in os.walk(top):
            dirs[:] = sorted(d for d in dirs if d not in ("out", "target"))
            for name in sorted(names):
                if name.endswith(ends):
                    yield os.path.join(folder, name)


def read(path):
    with open(path, encoding="utf-8") as f:
        return f.read()


def bare(line):
    return line.split("--", 1)[0] if line.lstrip().startswith("--") or " -- " in line else line


def gather():
    """Names that are declared, by kind, and names that come from elsewhere."""
    specs, proofs, away = set(), set(), set()
    for path in files(".antt"):
        into = specs if "/specs/" in path else proofs
        for line in read(path).splitlines():
            line = bare(line)
            used = USED.match(line)
            if used:
                module, items = used.group(1), used.group(2) or ""
                own = re.match(r"Rattle\.(\w+)\.", module)
                if not own or not os.path.isdir("crates/" + own.group(1)):
                    away.update(i.split(" as ")[0].strip() for i in items.split(","))
                for i in items.split(","):
                    if " as " in i:
                        into.add(i.split(" as ")[1].strip())
                continue
            shape = SHAPE.match(line)
            if shape:
                into.add(shape.group(2))
                continue
            named = DECLARED.match(line)
            if named and ": goal." not in line:
                into.add(named.group(1))
    for path in files(".rt"):
        for module, items in GHOST.findall(read(path)):
            own = re.match(r"Rattle\.(\w+)\.", module)
            for i in items.split(","):
                i = i.strip()
                if not own or not os.path.isdir("crates/" + own.group(1)):
                    away.add(i.split(" as ")[0])
                if " as " in i:
                    specs.add(i.split(" as ")[1].strip())
    keep = lambda names: {n for n in names if "-" in n and re.match(r"^[A-Za-z]", n) and "◌" not in n}
    return keep(specs), keep(proofs), away, {n for n in specs if "_" in n}


def camel(name):
    return "".join(p[:1].upper() + p[1:] for p in name.split("-"))


def lemma(name, known):
    """Words that make a name of ours are joined by _; a dash stays between two names, and _ hangs any other word on."""
    parts, pieces = name.split("-"), []
    while parts:
        for k in range(len(parts), 0, -1):
            joined = "_".join(parts[:k])
            if k == 1 or joined in known:
                pieces.append((joined, joined in known or joined in PLAIN))
                parts = parts[k:]
                break
    text, before = pieces[0]
    for piece, named in pieces[1:]:
        text += ("-" if before and named else "_") + piece
        before = named
    return text


def table():
    specs, proofs, away, spelled = gather()
    new = {}
    for n in specs - away:
        new[n] = camel(n) if n[0].isupper() else n.replace("-", "_")
    known = set(new.values()) | spelled | PLAIN
    for n in proofs - specs - away:
        new[n] = camel(n) if n[0].isupper() else lemma(n, known)
    return {o: n for o, n in new.items() if o != n}, away


def turn(text, names):
    return WORD.sub(lambda m: names.get(m[0], m[0]), text)


def turn_antt(text, names):
    out = []
    for line in text.split("\n"):
        head = re.match(r"^(\s*(?:pub\s+)?)(\S+)( : goal\..*)$", line)
        if line.lstrip().startswith("--"):
            out.append(line)
        elif head:
            out.append(line)
        else:
            out.append(turn(line, names))
    return "\n".join(out)


def turn_rt(text, names):
    out, inside = [], 0
    for line in text.split("\n"):
        stripped = line.lstrip()
        if stripped.startswith("//"):
            out.append(line)
            continue
        if stripped.startswith(("ghost use", "requires", "ensures", "ghost")) or inside:
            out.append(turn(line, names))
            inside += line.count("{") - line.count("}") if not stripped.startswith("ghost use") else 0
            inside = max(inside, 0)
        else:
            out.append(line)
    return "\n".join(out)


def turn_spans(text, names):
    return re.sub(r"`[^`\n]+`", lambda m: turn(m[0].replace("`", "` ", 1)[:-1] + " `", names).replace("` ", "`", 1)[:-2] + "`", text)


def main():
    names, away = table()
    back = collections.defaultdict(set)
    for o, n in names.items():
        back[n].add(o)
    fall = {n: o for n, o in back.items() if len(o) > 1}
    if "--show" in sys.argv:
        for o in sorted(names):
            print(o, "\t", names[o])
        print("fall together:", fall)
        print("also from elsewhere:", {n for n in names.values() if n in away})
        return
    for path in files((".antt", ".rt", ".edit")):
        text = read(path)
        if path.endswith(".edit"):
            done = "\n".join(turn(l, names) if l.startswith(("old:", "new:")) else l for l in text.split("\n"))
        else:
            done = turn_antt(text, names) if path.endswith(".antt") else turn_rt(text, names)
        if done != text:
            with open(path, "w", encoding="utf-8") as f:
                f.write(done)
    for page in sorted(os.listdir("docs")):
        if page.endswith(".md") and not page.startswith("PORT"):
            text = read("docs/" + page)
            done = turn_spans(text, names)
            if done != text:
                with open("docs/" + page, "w", encoding="utf-8") as f:
                    f.write(done)


if __name__ == "__main__":
    main()
