#!/usr/bin/env python3
"""Turns a function's Proof.antt of the older form, a list of answers closed by tie.close, into Invariants.antt and Answers.antt.

usage: tools/answers.py NAMES CRATE..     NAMES is the folder that `rt names NAMES` wrote; CRATE a folder of crates/

An answer that is only `search rules` goes, since the check finds it. What this leaves by hand is said in a line that begins 'left:', and such a file stays.
"""
import json
import os
import re
import sys

HERE = os.path.dirname(os.path.abspath(__file__))
TOP = os.path.dirname(HERE)
WORD = r'[^\s(){}.;,@"«»\[\]|]+'
SIGNATURE = re.compile(r"^((?:abbrev |pub |unfoldable |opaque )*)(%s)((?: \{[^{}\n]*\})*) : (.*)$" % WORD)
SAME = {"holds": "init", "less": "smaller", "again": "preserved"}
KEPT = {"type_inv", "type-inv", "args", "requires", "ranges", "well_formed", "well-formed", "lifetimes"}


def plain(name):
    name = name.replace("-", "_").replace("·", "_").lower()
    return re.sub(r"^(loop\w*?)_(holds|less|again)(?=_\d+$|$)", lambda m: m[1] + "_" + SAME[m[2]], name)


def blocks(text):
    """Top declarations: [name, modifiers, type, lines behind the signature]."""
    uses, out, other = [], [], []
    lines = text.split("\n")
    i = 0
    pending = []
    while i < len(lines):
        l = lines[i]
        if re.match(r"(pub )?use ", l):
            uses.append(l)
            i += 1
            continue
        if l.startswith("--"):
            if not re.match(r"-- src/", l):
                pending.append(l)
            i += 1
            continue
        if not l.strip():
            if pending and not out:
                pass
            i += 1
            continue
        while re.search(r" :$", l) and i + 1 < len(lines):
            i += 1
            l = lines[i] = l + " " + lines[i].strip()
        m = SIGNATURE.match(l)
        j = i + 1
        name = m[2] if m else None
        while j < len(lines):
            n = lines[j]
            if n.startswith((" ", ")", "}", "]")) or not n.strip() or n.startswith("unfolding") or (name and re.match(r"%s( |$)" % re.escape(name), n) and not SIGNATURE.match(n)):
                j += 1
            elif n.startswith("--"):
                break
            else:
                break
        body = lines[i:j]
        while body and not body[-1].strip():
            body.pop()
        out.append([name, body, pending])
        pending = []
        i = j
    return uses, out


class Names:
    def __init__(self, of):
        self.needs = {}
        for old, new in of["needs"]:
            self.needs.setdefault(plain(old), new)
        self.order = [new for _, new in of["needs"]]
        self.settled = {plain(it) for it in of.get("settled", [])}
        self.fields = {}
        for place in of["places"]:
            old, new = place[2]
            if old:
                self.fields.setdefault(plain(old), [])
                if new not in self.fields[plain(old)]:
                    self.fields[plain(old)].append(new)
        self.arms = {}
        for it in of["arms"]:
            if it:
                arm, _, rows = it
                for new, field, sub in rows:
                    if new.endswith("-own"):
                        continue
                    self.arms[plain(field), tuple(sub)] = f"{arm}.{new}"
        for rows in of["typed"]:
            for variable, field in rows:
                self.arms.setdefault((plain(field), ("given",)), f"type_inv.{variable}")
        self.arms.setdefault(("match", ("rest",)), "in_default")
        self.loops = {plain(old): (new, names, changed) for ((old, new), names), changed in zip(of["loops"], of["changed"])}
        self.invariants = {}


def path(names, heads, found, left):
    """c.before.before.X.Y as c.X'.Y'."""
    parts = found.split(".")
    head, rest = parts[0], parts[1:]
    while rest and rest[0] == "before":
        rest = rest[1:]
    if not rest:
        return "c"
    old = {"inv": "invariant", "taken": "true", "left": "false", "pre": "requires", "measure": "decreases"}
    field, sub = "measured" if rest[0] == "decreases" else rest[0], [old.get(it, it) for it in rest[1:]]
    key = plain(field)
    known = {*names.fields, *(k for k, _ in names.arms)}
    for other in (key, re.sub(r"_lem(?=\d*$)", "", key), re.sub("^is_is_?", "is_", key), re.sub(r"_is(?=[a-z])", "_", key), re.sub(r"(_lem)?\d+$", "", key)):
        if other in known:
            key = other
            break
    for n in range(len(sub), -1, -1):
        arm = names.arms.get((key, tuple(sub[:n])))
        if arm is not None:
            return ".".join(["c", arm, *sub[n:]])
    if key in names.fields:
        new = names.fields[key]
        if len(new) > 1:
            left.append(f"{field} is one of {new}")
        return ".".join(["c", new[0], *sub])
    if field in KEPT:
        return ".".join(["c", *rest])
    left.append(f"no step {field}")
    return ".".join(["c", *rest])


def turned(names, body, left):
    """The lines of an answer with new paths."""
    text = "\n".join(body)
    heads = {"c"}
    while True:
        m = re.search(r"\n?[ ]*\blet (%s) = (%s)((?:\.before)*) in[ ]*" % (r"[a-z]\w*", "|".join(sorted(heads))), text)
        if not m:
            break
        heads.add(m[1])
        text = text[: m.start()] + ("\n    " if m[0].startswith("\n") else "") + text[m.end() :].lstrip()
    pattern = re.compile(r"(?<![\w.'-])(%s)((?:\.%s)+)" % ("|".join(sorted(heads)), r"[^\s(){}.;,@\"«»\[\]|]+"))
    text = pattern.sub(lambda m: path(names, heads, m[1] + m[2], left), text)
    # The step of `if !x` says of x itself what the older one said of its negation.
    text = re.sub(r"\(not-(?:true|false) \S+ (c\.if-not[\w'-]*\.(?:true|false))\)", r"\1", text)
    text = re.sub(r"not-(?:true|false) (?:_|c\.[\w.'-]+) (c\.if-not[\w'-]*\.(?:true|false))", r"\1", text)
    text = re.sub(r"(?<=[\w'-]) \(c\)", " c", text)
    for h in heads - {"c"}:
        if re.search(r"(?<![\w.'-])%s(?![\w.'-])" % h, text):
            text = re.sub(r"(?<![\w.'-])%s(?![\w.'-])" % h, "c", text)
    return text


def invariant(names, block, kind, left):
    """An invariant or a measure: its positions are the loop's variables."""
    name, body, note = block
    text = "\n".join(l for l in body)
    lines = text.split("\n")
    head = next(i for i, l in enumerate(lines) if i and re.match(re.escape(name) + r"\b", l) and not l.startswith("unfolding"))
    unfold = [l for l in lines[1:head]]
    whole = "\n".join(lines[head:])
    m = re.match(re.escape(name) + r"((?: [^\s=]+)*) =(.*)$", whole, re.S)
    if not m:
        left.append(f"{name}: its head")
        return None
    params, value = m[1].split(), m[2]
    key = re.sub(r"^(invariant|decreases)_", "", plain(name))
    if key not in names.loops:
        keys = list(names.loops)
        if len(keys) == 1:
            key = keys[0]
        else:
            left.append(f"{name}: no loop {key} of {keys}")
            return None
    loop, variables, changed = names.loops[key]
    at, rows = 0, {}
    if len(params) == len(variables) + sum(changed) - 1 and variables[0] == "stdin":  # the handle that is new here
        variables, changed = variables[1:], changed[1:]
    wanted = len(variables) + sum(changed)
    if len(params) != wanted:
        left.append(f"{name}: {params} for {variables} {changed}")
        return None
    for v, c in zip(variables, changed):
        rows[params[at]] = f"l.initial.{v}" if c else f"l.{v}"
        at += 1
    for v, c in zip(variables, changed):
        if c:
            rows[params[at]] = f"l.{v}"
            at += 1
    value = re.sub(r'(?<![^\s(){};,@"«»\[\]|])(%s)(?=[\s(){};,@"«»\[\]|.]|$)' % "|".join(re.escape(p) for p in sorted(rows, key=len, reverse=True)), lambda m: rows[m[1]], value) if rows else value
    new = f"{kind}-{loop}"
    out = [*note, f"abbrev pub {new} : goal.{new}", *unfold, f"{new} l ={value}"]
    return "\n".join(out)


def placed(names, block, left):
    """A fact over a place of the code, as what an answer says in its own words: (name, whether it is a term alone, its type, its variables, its body, what it unfolds)."""
    name, body, _ = block
    head = next((i for i, l in enumerate(body) if i and re.match(re.escape(name) + r"( |$)", l)), None)
    if head is None:
        return None
    kind = " ".join(l.strip() for l in body[:head] if not l.startswith("unfolding")).split(" : ", 1)[1]
    unfold = [l for l in body[1:head] if l.startswith("unfolding")]
    value = "\n".join(body[head:])
    m = re.match(re.escape(name) + r"((?: [^\s=]+)*) =(.*)$", value, re.S)
    if not m or not m[1].split() or "\n" + name + " " in value:
        return None
    of_place = re.match(r"\((\w+) : tie\.[^()]*\) ?(.*)$", kind) or re.match(r"(tie\.[^()→]*) → (.*)$", kind)
    if not of_place or "tie." in of_place[2]:
        return None
    params = m[1].split()
    head_name, rest = params[0], params[1:]
    text = re.sub(r"(?<![\w.'-])%s(?![\w'-])" % re.escape(head_name), "c", m[2]) if head_name != "c" else m[2]
    text = turned(names, [text], left).strip()
    kind = re.sub(r"^→ ", "", turned(names, [re.sub(r"(?<![\w.'-])%s(?![\w'-])" % re.escape(of_place[1]), "c", of_place[2]) if not of_place[1].startswith("tie") else of_place[2]], left))
    is_term = block[1][0].startswith("abbrev") and not rest
    return name, is_term, kind, rest, text, unfold


def helped(value, unfold, helpers, left):
    """The answer with what it cites of the facts over a place."""
    lets = []
    for name, is_term, kind, rest, text, more in reversed(helpers):
        use = re.compile(r"(?<![\w.'-])%s c(?![\w.'-])" % re.escape(name))
        inside = "\n".join([value, *lets])
        if not use.search(inside):
            continue
        unfold = unfold + [m for m in more if m not in unfold]
        if is_term:
            simple = re.fullmatch(r"[\w.'-]+", text)
            put = (lambda m: text) if simple else (lambda m: "(" + text + ")")
            value = re.sub(r"\((?=%s c\))%s c\)" % (re.escape(name), re.escape(name)), put, value)
            value = use.sub(put, value)
            lets = [use.sub(put, l) for l in lets]
        else:
            value = use.sub(name, value)
            lets = [use.sub(name, l) for l in lets]
            body = (f"λ {' '.join(rest)}. " if rest else "") + text
            lets.insert(0, f"    let {name} : {kind} = {body} in")
    for _ in range(2):
        for name, is_term, kind, rest, text, more in reversed(helpers):
            if is_term:
                use = re.compile(r"(?<![\w.'-])%s c(?![\w.'-])" % re.escape(name))
                put = (lambda m: text) if re.fullmatch(r"[\w.'-]+", text) else (lambda m: "(" + text + ")")
                value = use.sub(put, value)
                lets = [use.sub(put, l) for l in lets]
    if lets:
        value = "\n" + "\n".join(lets) + "\n    " + value.strip()
    words = []
    for u in unfold:
        words += [w for w in u.split()[1:] if w not in words]
    return value, ["unfolding " + " ".join(words)] if words else []


def convert(folder, proof, names, module):
    left = []
    text = open(proof, encoding="utf-8").read()
    uses, decls = blocks(text)
    if "tie.close" not in text:
        return ["a walk by hand"]
    inv, ans, helpers, order = [], [], [], []
    trivial = 0
    for block in decls:
        name, body, note = block
        if name is None:
            left.append("not read: " + body[0][:80])
            continue
        kind = body[0].split(" : ", 1)[1] if " : " in body[0] else ""
        if re.match(r"tie\.(invariant|InvT)", kind):
            it = invariant(names, block, "invariant", left)
            inv.append(it or "")
        elif re.match(r"tie\.(decreases|MeasureT)", kind):
            it = invariant(names, block, "decreases", left)
            inv.append(it or "")
        elif kind.startswith("tie.Need-"):
            key = plain(name)
            new = names.needs.get(key)
            if new is None:
                key2 = plain(re.match(r"tie\.Need-(\S+)", kind)[1])
                key2 = re.sub(r"^(overflow|nonzero)_", "", key2)
                key2 = re.sub(r"^slice_bounds_", "part_", key2)
                new = names.needs.get(key2)
            head = next((i for i, l in enumerate(body) if i and re.match(re.escape(name) + r"( |$)", l)), None)
            if head is None:
                left.append(f"{name}: its answer")
                continue
            unfold = body[1:head]
            m = re.match(re.escape(name) + r" (\S+)( \S+)? =", body[head])
            if not m:
                left.append(f"{name}: the head {body[head][:60]}")
                continue
            if not unfold and body[head:] == [f"{name} c = search rules"] or not unfold and body[head:] == [f"{name} c κs = search rules"]:
                trivial += 1
                continue
            if new is None:
                if key in names.settled:
                    continue
                left.append(f"no goal for {name}")
                continue
            rest = "\n".join([body[head][m.end() :], *body[head + 1 :]])
            if m[1] != "c":
                left.append(f"{name}: its argument is {m[1]}")
            if m[2] and re.search(r"(?<![\w.'-])κs(?![\w'-])", rest):
                left.append(f"{name}: κs")
            value, unfold = helped(turned(names, [rest], left), unfold, helpers, left)
            ans.append("\n".join([*note, f"pub {new} : goal.{new}", *unfold, f"{new} c ={value}"]))
        elif "tie.close" in "\n".join(body):
            continue
        elif "tie." in "\n".join(body):
            it = placed(names, block, left)
            if it is None:
                left.append(f"{name}: a fact over a place")
            else:
                helpers.append(it)
        else:
            ans.append("\n".join([*note, *body]))
    if left:
        return left
    kept = [u for u in uses if not re.search(r"\.(Statement\.\{statement\}|Tie as tie)$", u)]
    base = os.path.dirname(proof)
    if any(inv):
        with open(os.path.join(base, "Invariants.antt"), "w", encoding="utf-8") as f:
            f.write("\n".join(kept) + f"\nuse {module}.Given as goal\n\n" + "\n\n".join(i for i in inv if i) + "\n")
    real = [a for a in ans if a.split("\n")[0].startswith("pub ") and ": goal." in a or ": goal." in a]
    if real:
        with open(os.path.join(base, "Answers.antt"), "w", encoding="utf-8") as f:
            f.write("\n".join(kept) + f"\nuse {module}.Goals as goal\n\n" + "\n\n".join(ans) + "\n")
    os.remove(proof)
    return []


def main(argv):
    listed = argv[0]
    n = bad = 0
    for crate in argv[1:]:
        folder = os.path.join(TOP, "crates", crate)
        with open(os.path.join(listed, "crates", crate, "names.json"), encoding="utf-8") as f:
            of = json.load(f)
        for at, _, files in sorted(os.walk(os.path.join(folder, "proofs"))):
            if "Proof.antt" not in files:
                continue
            proof = os.path.join(at, "Proof.antt")
            rel = os.path.relpath(at, os.path.join(folder, "proofs")).replace("/", ".")
            key = f"Rattle-{crate}-proofs.{rel}.Lts"
            n += 1
            if key not in of:
                print(f"left: {crate} {rel}: no names")
                bad += 1
                continue
            left = convert(folder, proof, Names(of[key]), f"Rattle.{crate}.proofs.{rel}")
            if left:
                bad += 1
                print(f"left: {crate} {rel}: " + "; ".join(left[:8]))
    print(f"answers: {n} proofs, {bad} left")
    return 0


if __name__ == "__main__":
    sys.exit(main(sys.argv[1:]))
