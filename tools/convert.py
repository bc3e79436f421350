#!/usr/bin/env python3
"""Turns Proof.antt files that walk the code into Invariants.antt and Answers.antt, by the names that a check gives.

usage: rt check --generated NAMES --old-names       in the crate's folder
       python3 tools/convert.py CRATE NAMES/names.json [FUNCTION..]   at the top; FUNCTION is a folder below proofs/
"""

import json
import os
import re
import sys

ID = r"[\w'\-₀-₉]+"


def declarations(text):
    """The use lines, and the declarations at the left margin: comment, name, type, unfolding, left side, right side."""
    uses, out, comment, head = [], [], [], []
    lines = text.split("\n")
    i = 0
    while i < len(lines):
        l = lines[i]
        if l.startswith("use "):
            if not uses and not head:
                head, comment = comment, []
            uses.append(l)
            i += 1
        elif l.startswith("--"):
            comment.append(l)
            i += 1
        elif not l.strip():
            if not uses and comment and not head:
                head, comment = comment, []
            i += 1
        else:
            block = [l]
            i += 1
            while i < len(lines) and (lines[i].startswith((" ", "\t")) or not lines[i].strip()):
                block.append(lines[i])
                i += 1
            m = re.match(r"((?:abbrev |pub |unfoldable )*)(" + ID + r") :", block[0])
            if block[0].startswith("module "):
                while block and not block[-1].strip():
                    block.pop()
                out.append({"comment": comment, "name": "", "type": "", "unfolding": [], "clauses": ["\n".join(block)], "verbatim": True})
                comment = []
            elif m:
                while block and not block[-1].strip():
                    block.pop()
                out.append({"comment": comment, "marks": m.group(1), "name": m.group(2), "type": "\n".join(block)[m.end() :].strip(), "unfolding": [], "clauses": []})
                comment = []
            elif block[0].startswith("unfolding "):
                out[-1]["unfolding"] += block[0].split()[1:]
            elif out:
                while block and not block[-1].strip():
                    block.pop()
                out[-1]["clauses"].append("\n".join(block))
    if uses and not head and comment and not out:
        head = comment
    return head, uses, out


def split_top(text):
    """The arguments of an application, at the top level of parentheses."""
    args, depth, cur = [], 0, ""
    for ch in text:
        if ch in "([{":
            depth += 1
        if ch in ")]}":
            depth -= 1
        if ch.isspace() and depth == 0:
            if cur:
                args.append(cur)
            cur = ""
        else:
            cur += ch
    if cur:
        args.append(cur)
    return args


class Names:
    def __init__(self, d):
        self.d = d
        self.places = {p[0]: p for p in d["places"]}
        self.order = {p[0]: i for i, p in enumerate(d["places"])}
        self.arms = d["arms"]
        self.needs = dict((a, b) for a, b in d["needs"])
        self.at = {}
        for n, a in zip(d["needs"], d["asked_at"]):
            self.at[n[0]] = a[0]

    def above(self, place):
        out = []
        while place is not None and place in self.places:
            out.append(place)
            place = self.places[place][1]
        return out

    def step(self, place, old, rest):
        """The new path for the old step and the fields behind it, seen from a place."""
        cands = self.above(place) if place in self.places else [p[0] for p in self.d["places"]]
        for o in (old, old.replace("-", "_")):
            best = None
            if rest and rest[0] == "given" and place in self.order:
                for var, step in self.d["typed"][self.order[place]]:
                    if step == o:
                        return ["type_inv", var] + rest[1:]
            for p in cands:
                i = self.order[p]
                if i < len(self.arms) and self.arms[i]:
                    new, _, fields = self.arms[i]
                    for field, step, path in fields:
                        if step == o and path and rest[: len(path)] == path and (best is None or len(path) > best[0]):
                            best = (len(path), [new, field])
            if best:
                return best[1] + rest[best[0] :]
            for p in cands:
                a, b = self.places[p][2]
                if a == o:
                    ren = dict((x, y) for x, y in self.places[p][4] or [])
                    if rest and rest[0] in ren and ren[rest[0]] in ("true", "false") or rest and rest[0] in ren:
                        return [b, ren[rest[0]]] + rest[1:]
                    return [b] + rest
        return None


def convert(names, head, uses, decls, module):
    accessors, helpers, answers, invs = {}, {}, {}, {}
    final = None
    notes = []
    verbatim = [d for d in decls if d.get("verbatim")]
    for d in decls:
        t = d["type"]
        if d.get("verbatim"):
            continue
        if not d["clauses"]:
            notes.append(f"{d['name']} has no clause")
            continue
        if re.match(r"(tie|lts)\.(invariant|decreases)-", t):
            invs[d["name"]] = d
        elif re.match(r"(tie|lts)\.Need-", t):
            answers[d["name"]] = d
        elif re.search(r"statement M", t) or "Closing" in t:
            final = d
        elif re.match(r"\(?(tie|lts)\.[\w-]+[^→]*→\s*(tie|lts)\.[\w-]+[^→]*$", t):
            accessors[d["name"]] = d
        else:
            m = re.match(r"\(c : (tie|lts)\.([\w'\-]+)[^)]*\)\s*(→\s*)?", t) or re.match(r"(tie|lts)\.([\w'\-]+)[^→]*(→\s*)", t)
            if m and len(d["clauses"]) == 1:
                d["place"] = m.group(2)
                rest = t[m.end() :]
                d["rest"] = rest
                helpers[d["name"]] = d
            else:
                d["plain"] = True
                notes.append(f"{d['name']} is kept as it stands: {t[:60]}")
                helpers[d["name"]] = d

    def collapse(text):
        # accessors applied to a place are the place itself
        for _ in range(12):
            before = text
            for a in accessors:
                text = re.sub(r"\(" + re.escape(a) + r" (" + ID + r"(?:\." + ID + r")*)\)", r"\1", text)
                text = re.sub(r"(?<![\w'\-.])" + re.escape(a) + r" (" + ID + r"(?:\." + ID + r")*)(?=$|[\s;,)])", r"\1", text)
            text = re.sub(r"\((c(?:\.before)*)\)", r"\1", text)
            m = re.search(r"let (" + ID + r")(?: : (?:tie|lts)\.[^=]*)? = (c(?:\.before)*) in\s*", text)
            if m:
                text = text[: m.start()] + re.sub(r"(?<![\w'\-.])" + re.escape(m.group(1)) + r"(?![\w'\-])", m.group(2), text[m.end() :])
            m = re.search(r"let (" + ID + r") : (?:tie|lts)\.[^=]* = search in\s*", text)
            if m:
                text = text[: m.start()] + re.sub(r"(?<![\w'\-.])" + re.escape(m.group(1)) + r"(?![\w'\-])", "c", text[m.end() :])
            m = re.search(r"let (" + ID + r") = (c(?:\.before)*\." + ID + r"\.given(?:\.0)?) in\s*", text)
            if m:
                text = text[: m.start()] + re.sub(r"(?<![\w'\-.])" + re.escape(m.group(1)) + r"(?![\w'\-])", m.group(2), text[m.end() :])
            if text == before:
                break
        text = re.sub(r"(?<![\w'\-.])c(?:\.before)+(?![\w'\-])", "c", text)
        return text

    def paths(text, place):
        text = collapse(text)

        def one(m):
            parts = m.group(0).split(".")[1:]
            if parts[0] in ("args", "ranges", "lifetimes", "type_inv"):
                return m.group(0)
            if parts[0] == "fits":
                return ".".join(["c", "ranges"] + parts[1:])
            if parts[0] in ("requires", "pre"):
                return ".".join(["c", "requires"] + parts[1:])
            rest = ["invariant" if p == "inv" else p for p in parts[1:]]
            got = names.step(place, parts[0], rest)
            if got is None:
                notes.append(f"no step {parts[0]} seen from {place}")
                return m.group(0)
            return ".".join(["c"] + got)

        text = re.sub(r"(?<![\w'\-.])c(?:\." + ID + r")+", one, text)
        text = re.sub(r"(\.if-[^\s.()]*)\.left(?![\w'\-])", r"\1.false", text)
        text = re.sub(r"(\.if-[^\s.()]*)\.taken(?![\w'\-])", r"\1.true", text)
        return re.sub(r"\.inv(?![\w'\-])", ".invariant", text)

    used_plain = []

    def needed(text):
        return [h for h in helpers if re.search(r"(?<![\w'\-.])" + re.escape(h) + r"(?![\w'\-])", text)]

    def lets(text, place, done, unf):
        out = []
        for h in needed(text):
            d = helpers[h]
            if d.get("plain"):
                if d not in used_plain:
                    used_plain.append(d)
                continue
            if h in done:
                continue
            done.add(h)
            lhs, rhs = d["clauses"][0].split("=", 1)
            args = lhs.split()[1:]
            rhs = rhs.strip()
            if args and args[0] != "c":
                rhs = re.sub(r"(?<![\w'\-.])" + re.escape(args[0]) + r"(?![\w'\-])", "c", rhs)
            for u in d["unfolding"]:
                if u not in unf:
                    unf.append(u)
            here = place
            out += lets(rhs, here, done, unf)
            out += lets(d["rest"], here, done, unf)
            body = rhs
            if args[1:]:
                body = "λ " + " ".join(args[1:]) + ". " + rhs
            ty = " ".join(paths(calls(d["rest"]), here).split())
            out.append(f"let {h} : {ty} = {' '.join(paths(calls(body), here).split())} in")
        return out

    def calls(text):
        # a helper at a place is the local fact
        text = collapse(text)
        for h, d in helpers.items():
            if d.get("plain"):
                continue
            arg = r"(?:c|[\w'\-]+)(?:\.before)*"
            text = re.sub(r"\(" + re.escape(h) + r" (?:" + arg + r"|\(" + ID + r" [^()]*\)|\(" + ID + r" \([^()]*\)\))\)", "«" + h + "»", text)
            text = re.sub(r"(?<![\w'\-.«])" + re.escape(h) + r" (?:\(" + ID + r" \([^()]*\)\)|\(" + ID + r" [^()]*\)|" + arg + r")(?![\w'\-])", "«" + h + "»", text)
        return text.replace("«", "").replace("»", "")

    body_of = {}
    for n, d in answers.items():
        body_of[n] = d
    inline = []
    if final:
        text = "\n".join(final["clauses"])
        m = re.search(r"(tie|lts)\.spec", text)
        if m:
            inside = text[m.end() :]
            depth, end = 0, len(inside)
            for k, ch in enumerate(inside):
                if ch in "([{":
                    depth += 1
                if ch in ")]}":
                    depth -= 1
                    if depth < 0:
                        end = k
                        break
            args = split_top(inside[:end])
            args = [a for a in args if a not in invs]
            listed = [a for a, _ in names.d["needs"]]
            settled = names.d["settled"]
            if len(args) == len(listed):
                for a, need in zip(args, listed):
                    if a in helpers and not helpers[a].get("plain"):
                        inline.append((need, f"{a} c"))
                    if a.startswith("(λ"):
                        m2 = re.match(r"\(λ (c(?: κs)?)\.\s*(.*)\)$", a, re.S)
                        if m2 and m2.group(2).strip() not in ("search rules", "search needs", "omega arith", "omega (arith)"):
                            inline.append((need, m2.group(2)))
            else:
                notes.append(f"spec has {len(args)} arguments, {len(listed)} are asked; inline: " + " | ".join(a for a in args if a.startswith("(λ") and "search rules" not in a and "omega arith)" not in a))
    out = []
    for n, d in answers.items():
        m = re.match(r"(?:tie|lts)\.Need-([\w'\-]+)", d["type"])
        old = m.group(1)
        key = None
        for o in (old, re.sub(r"^overflow-", "", old), old.replace("-", "_")):
            if o in names.needs:
                key = o
        if key is None:
            for o in names.needs:
                if o.replace("_", "-") == re.sub(r"^overflow-", "", old).replace("_", "-"):
                    key = o
        if key is None:
            notes.append(f"no goal {old} ({n})")
            new, place = "?" + old, None
        else:
            new, place = names.needs[key], names.at[key]
        if len(d["clauses"]) != 1:
            notes.append(f"{n} has {len(d['clauses'])} clauses")
        lhs, rhs = d["clauses"][0].split("=", 1)
        args = lhs.split()[1:]
        if args and args[0] != "c":
            rhs = re.sub(r"(?<![\w'\-.])" + re.escape(args[0]) + r"(?![\w'\-])", "c", rhs)
        unf = list(d["unfolding"])
        pre = lets(rhs, place, set(), unf)
        rhs = paths(calls(rhs.strip()), place)
        out.append((d["comment"], new, unf, pre, rhs))
    for need, rhs in inline:
        new, place = names.needs[need], names.at[need]
        unf = []
        pre = lets(rhs, place, set(), unf)
        out.append(([], new, unf, pre, paths(calls(rhs.strip()), place)))
    # invariants
    inv = []
    for n, d in invs.items():
        kind = "invariant" if "invariant" in d["type"] else "decreases"
        m = re.match(r"(?:tie|lts)\." + kind + r"-([\w'\-]+)", d["type"])
        old = m.group(1)
        pick = [i for i, l in enumerate(names.d["loops"]) if l[0][0] == old or l[0][0].replace("_", "-") == old]
        lhs, rhs = d["clauses"][0].split("=", 1)
        args = lhs.split()[1:]
        if not pick:
            notes.append(f"no loop {old}")
            inv.append((d["comment"], kind + "-?" + old, rhs.strip()))
            continue
        i = pick[0]
        new, live = names.d["loops"][i][0][1], names.d["loops"][i][1]
        changed = names.d["changed"][i]
        want = [("l.initial." + v if ch else "l." + v) for v, ch in zip(live, changed)] + ["l." + v for v, ch in zip(live, changed) if ch]
        if len(want) != len(args):
            notes.append(f"{n}: {len(args)} arguments for {want}")
        for a, w in zip(args, want):
            if a != "_":
                rhs = re.sub(r"(?<![\w'\-.₀])" + re.escape(a) + r"(?![\w'\-₀])", "\0" + w[2:] + "\0", rhs)
        rhs = re.sub("\0([^\0]*)\0", r"l.\1", rhs)
        inv.append((d["comment"], kind + "-" + new, rhs.strip()))
    for d in verbatim:
        names_in = re.findall(r"^\s+(" + ID + r") :", d["clauses"][0], re.M)
        whole = " ".join(b for _, _, _, pre, rhs in out for b in pre + [rhs])
        if any(re.search(r"(?<![\w'\-.])" + re.escape(n) + r"(?![\w'\-])", whole) for n in names_in):
            used_plain.insert(0, d)
    return out, inv, used_plain, notes


def main():
    crate, names = sys.argv[1], json.load(open(sys.argv[2]))
    wanted = sys.argv[3:]
    top = os.path.join("crates", crate, "proofs")
    for folder, dirs, files in os.walk(top):
        dirs.sort()
        if "Proof.antt" not in files:
            continue
        rel = os.path.relpath(folder, top)
        if wanted and rel not in wanted:
            continue
        key = f"Rattle-{crate}-proofs." + rel.replace("/", ".") + ".Lts"
        if key not in names:
            print(rel, "- no names; keys like it:", [k for k in names if rel.split("/")[-1] in k])
            continue
        path = os.path.join(folder, "Proof.antt")
        text = open(path).read()
        head, uses, decls = declarations(text)
        out, inv, plain, notes = convert(Names(names[key]), head, uses, decls, rel)
        uses = [u for u in uses if not re.search(r"\.(Statement|Tie|Lts[\w-]*)(\.| as|$)", u)]
        mod = f"Rattle.{crate}.proofs." + rel.replace("/", ".")
        if inv:
            with open(os.path.join(folder, "Invariants.antt"), "w") as f:
                f.write("\n".join(head + uses + [f"use {mod}.Given as goal"]) + "\n")
                for comment, name, rhs in inv:
                    f.write("\n" + "\n".join(comment + [f"abbrev pub {name} : goal.{name}", f"{name} l = {rhs}"]) + "\n")
        if out:
            with open(os.path.join(folder, "Answers.antt"), "w") as f:
                f.write("\n".join((head if not inv else []) + uses + [f"use {mod}.Goals as goal"]) + "\n")
                for d in plain:
                    if d.get("verbatim"):
                        f.write("\n" + "\n".join(d["comment"] + d["clauses"]) + "\n")
                        continue
                    f.write("\n" + "\n".join(d["comment"] + [f"{d['marks']}{d['name']} : {d['type']}"] + (["unfolding " + " ".join(d["unfolding"])] if d["unfolding"] else []) + d["clauses"]) + "\n")
                for comment, name, unf, pre, rhs in out:
                    f.write("\n" + "\n".join(comment + [f"pub {name} : goal.{name}"] + (["unfolding " + " ".join(unf)] if unf else [])) + "\n")
                    if pre or "\n" in rhs:
                        f.write(f"{name} c =\n" + "".join(f"    {p}\n" for p in pre) + "    " + rhs + "\n")
                    else:
                        f.write(f"{name} c = {rhs}\n")
        os.remove(path)
        if notes:
            print(rel)
            for n in notes:
                print("   ", n)


main()
