#!/usr/bin/env python3
"""In Answers.antt: a call's `.new.N` by the name of the parameter, and `.ensures.N` by the clause's name where the callee has several. usage: tools/answers_fields.py NAMES CRATE.."""
import glob
import json
import os
import re
import sys

TOP = os.path.dirname(os.path.dirname(os.path.abspath(__file__)))
HEADS = {}


def heads():
    for p in glob.glob(os.path.join(TOP, "crates/*/src/**/*.rt"), recursive=True):
        crate = os.path.relpath(p, os.path.join(TOP, "crates")).split("/")[0]
        t = re.sub(r"//[^\n]*", "", open(p, encoding="utf-8").read())
        for m in re.finditer(r"\bfn (\w+)(?:<[^>]*>)?\(", t):
            i, deep = m.end(), 1
            while deep:
                deep += (t[i] == "(") - (t[i] == ")")
                i += 1
            params = t[m.end() : i - 1]
            k = re.search(r"\n\s*\{\n", t[i:])
            head = t[i : i + (k.start() if k else 0)]
            HEADS.setdefault((crate, m[1]), []).append((re.findall(r"(?:^|[(,])\s*(?:mut )?&?(?:mut )?(\w+)\s*(?=:|,|$)", params), re.findall(r"ensures (\w+) \{", head)))
    HEADS["io", "decimal"] = [(["out"], ["in_bounds", "len", "digits", "rest"])]
    HEADS["io", "hex"] = [(["out"], ["in_bounds", "len", "digits", "rest"])]
    HEADS["io", "read_full"] = [(["buf"], [])]


def nested(path, n):
    """Which of n clauses a path of .1's and a .0 names, and what is left of it."""
    k = 0
    while path and path[0] == "1" and k < n - 1:
        path, k = path[1:], k + 1
        if k == n - 1:
            return k, path
    if path and path[0] == "0" and k < n - 1:
        return k, path[1:]
    return None, path


def main(argv):
    heads()
    total = 0
    for crate in argv[1:]:
        of = json.load(open(os.path.join(argv[0], "crates", crate, "names.json"), encoding="utf-8"))
        for p in glob.glob(os.path.join(TOP, "crates", crate, "proofs/**/Answers.antt"), recursive=True):
            rel = os.path.relpath(os.path.dirname(p), os.path.join(TOP, "crates", crate, "proofs")).replace("/", ".")
            names = of.get(f"Rattle-{crate}-proofs.{rel}.Lts")
            if not names:
                continue
            callees = {new: callee for _, _, (_, new), callee, _ in [pl[:5] for pl in names["places"]] if callee}
            t = open(p, encoding="utf-8").read()

            def turn(m):
                step, kind, rest = m[1], m[2], m[3].split(".")[1:]
                callee = callees.get(step)
                if not callee:
                    return m[0]
                parts = callee.split("::")
                rows = HEADS.get((parts[0], parts[-1]))
                if not rows:
                    print("look:", p, m[0], callee)
                    return m[0]
                muts, clauses = rows[0]
                if kind in ("new", "auto"):
                    n = 0
                    while n < len(rest) and rest[n] == "1":
                        n += 1
                    if n >= len(muts) or n >= len(rest):
                        print("look:", p, m[0], callee, muts)
                        return m[0]
                    return ".".join(["c", step, kind, muts[n], *rest[n + 1 :]])
                if len(clauses) < 2:
                    return m[0]
                k, left = nested(rest, len(clauses))
                if k is None:
                    print("look:", p, m[0], callee, clauses)
                    return m[0]
                return ".".join(["c", step, "ensures", clauses[k], *left])

            new = re.sub(r"(?<![\w.'-])c\.([^\s(){}.;,@\"«»\[\]|]+)\.(new|auto|ensures)((?:\.\d+)+)", turn, t)
            if new != t:
                total += 1
                open(p, "w", encoding="utf-8").write(new)
    print(f"fields: {total} files")


main(sys.argv[1:])
