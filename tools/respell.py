#!/usr/bin/env python3
"""Brings the repository's own definitions and lemmas to the spelling of today's Rattle: words in snake case, a dash only between two names.

usage: python3 tools/respell.py [--dry]     at the top of the repository, once, right after port.py

A name is the repository's own where a file of specs/, or a file right in proofs/, declares it. Functions of src/, and what Rattle makes of them, keep theirs.
"""

import os
import re
import sys

ROOT = os.getcwd()
WORD = re.compile(r"[\w'′-]+")
DECLARED = re.compile(r"^\s*((?:(?:unfoldable|abbrev|pub|pattern)\s+)*)([^\s:(){};,.]+)\s*:(?!=)")
# words of std that a lemma's name may begin or end with
STD = set("length take drop append map get_or set sum reverse concat replicate eqb leb ltb cond not put".split())


def files(ends):
    for folder, dirs, names in os.walk(ROOT):
        dirs[:] = sorted(d for d in dirs if d not in (".git", "out", "target"))
        for n in sorted(names):
            if n.endswith(ends):
                yield os.path.join(folder, n)


def text(path):
    with open(path, encoding="utf-8") as f:
        return f.read()


def declares(path):
    parts = os.path.relpath(path, ROOT).split(os.sep)
    return parts[0] == "crates" and path.endswith(".antt") and (parts[2] == "specs" or (parts[2] == "proofs" and len(parts) == 4))


def snake(part):
    part = part.replace("getD", "get_or")
    return re.sub(r"(?<=[a-z0-9])([A-Z])", lambda m: "_" + m.group(1).lower(), part)


def main():
    dry = "--dry" in sys.argv
    own, words, foreign = {}, set(), set()
    for p in files(".antt"):
        t = text(p)
        for m in re.finditer(r"^(?:ghost )?(?:pub )?use (\S+?)(?:\.\{([^}]*)\})?(?: as \S+)?$", t, re.M):
            module, names = m.group(1), m.group(2) or ""
            crate = module.split(".")[1] if module.startswith("Rattle.") else ""
            if not os.path.isdir(os.path.join(ROOT, "crates", crate)) or not crate:
                foreign |= {x.split(" as ")[0].strip() for x in names.split(",")}
        if not declares(p):
            continue
        for line in t.split("\n"):
            m = DECLARED.match(line)
            if m and not line.lstrip().startswith(("--", "use ", "mod ", "module ", "open ")):
                name = m.group(2)
                own.setdefault(name, set()).add(p)
                if "abbrev" in m.group(1) or "unfoldable" in m.group(1):
                    words.add(snake(name).replace("-", "_") if not name[0].isupper() else name)
    words |= STD
    turned = {}
    for name in sorted(own):
        if name[0].isupper() or not name[0].isalpha() or name in foreign:
            continue
        parts = [snake(p) for p in name.replace("′", "'").split("-")]
        new = parts[0]
        last = parts[0]
        for i, part in enumerate(parts[1:], 1):
            rest = ["_".join(parts[i:j]) for j in range(len(parts), i, -1)]
            if last + "_" + part in words:
                new, last = new + "_" + part, last + "_" + part
            elif (last in words or last[:1].isupper()) and any(r in words for r in rest):
                new, last = new + "-" + part, part
            else:
                new, last = new + "_" + part, last + "_" + part
        if new != name:
            turned[name] = new
    # names that fall together
    taken = {}
    for name in sorted(own):
        taken.setdefault(turned.get(name, name), []).append(name)
    for new, olds in sorted(taken.items()):
        if len(olds) > 1:
            # the definition keeps the name; a lemma or a field beside it is told apart
            first = [o for o in olds if o != snake(o) and "-" not in o] or [o for o in olds if o == new]
            for o in olds:
                if o not in first:
                    turned[o] = new + "_lem"
            print("fall together:", ", ".join(f"{o} -> {turned.get(o, o)}" for o in olds))
        if new in foreign and olds != [new]:
            print("as a name of the library:", new, olds)
            for o in olds:
                if o in turned:
                    turned[o] = new + "_lem"
    if dry:
        for a, b in sorted(turned.items()):
            print(a, "->", b)
        print(len(turned), "names")
        return

    def one(m, steps):
        new = turned.get(m.group(0), m.group(0))
        # behind a dot in a function's proof stands what Rattle made of a function's name
        return new[:-4] if steps and new.endswith("_lem") and m.string[m.start() - 1 : m.start()] == "." else new

    def respell(t, steps=False):
        return WORD.sub(lambda m: one(m, steps), t)

    quoted = re.compile(r"`[^`\n]*`")
    string = re.compile(r'"(?:[^"\\\n]|\\.)*"')
    changed = 0
    for p in files((".antt", ".rt", ".md")):
        rel = os.path.relpath(p, ROOT)
        if not rel.startswith(("crates/", "README", "docs/")):
            continue
        old = text(p)
        if p.endswith(".antt"):
            new = respell(old, p.endswith("Proof.antt"))
        elif p.endswith(".md"):
            new = quoted.sub(lambda m: respell(m.group(0)), old)
        else:
            out, at = [], 0
            for m in string.finditer(old):
                out += [respell(old[at : m.start()]), m.group(0)]
                at = m.end()
            new = "".join(out) + respell(old[at:])
        if new != old:
            changed += 1
            with open(p, "w", encoding="utf-8") as f:
                f.write(new)
    print(len(turned), "names,", changed, "files")


main()
