#!/usr/bin/env python3
"""Respells this repository's own definitions and lemmas in crates/ by tools/spelling.tsv: words in snake case, as the rest of Rattle.

usage: tools/respell.py [FOLDER]     after /opt/rattle/port/port.py, once; FOLDER is a checkout's top, else this one's

port.py respells only names that meet the library's. Of the rest, fooBar is foo_bar and foo-bar is foo_bar. A lemma keeps its dash where foo_bar is a definition's name
in a file that knows both; such a lemma that port.py had turned gets its dash back. Functions of src/, strings and inputs are no names of antt and stay.
`tools/respell.py --table` writes the table anew from the tree as port.py leaves it.
"""
import collections
import glob
import os
import re
import sys

WORD = re.compile(r'[^\s(){}.;,@"«»]+')
HEAD = r"(?m)^ *(?:(?:abbrev|pub|opaque|unfoldable|instance|data|record)\s+)*"
DECLARED = re.compile(HEAD + r'([^\s(){}.;,@"«»]+)(?: \{[^{}\n]*\})*(?: [^\n:=]*)? :(?= |$)')
RULESET = re.compile(HEAD + r"ruleset (\S+)")
COMMENT = re.compile(r"(?m)(?<!\S)--(?=\s|$).*$|(?<!\S)-- -+.*$")
CAMEL = re.compile(r"(?<=[a-z0-9'])[A-Z]")
LIBRARY = re.compile(r"(?m)^ *(?:pub )?use (?:mathlib|Prim|native|lib|borrow|denote|mir|sep|logic|Rattle\.(?:std|core|io|libc|check)\b)[^\n{]*\{([^}]*)\}")
RT_COMMENT_OR_TEXT = re.compile(r"""//[^\n]*|b?'(?:\\x[0-9a-fA-F]{2}|\\u\{[^}]*\}|\\.|[^'\\\n])'|b?"(?:\\[\s\S]|[^"\\])*\"""")
HERE = os.path.dirname(os.path.abspath(__file__))
TABLE = os.path.join(HERE, "spelling.tsv")


def antt_files(top):
    return sorted(p for kind in ("specs", "proofs") for p in glob.glob(os.path.join(top, "crates", "*", kind, "**", "*.antt"), recursive=True))


def rt_files(top):
    return sorted(glob.glob(os.path.join(top, "crates", "*", "src", "**", "*.rt"), recursive=True))


def read(path):
    with open(path, encoding="utf-8") as f:
        return f.read()


def is_camel(name):
    return name[:1].islower() and bool(CAMEL.search(name))


def snake(name):
    if name[:1].isupper():  # a type joined to a name keeps its dash
        return name
    name = CAMEL.sub(lambda m: "_" + m[0].lower(), name)
    return re.sub(r"(?<=[A-Za-z0-9'])-(?=[A-Za-z0-9])", "_", name)


def table(top):
    bare = {p: COMMENT.sub("", read(p)) for p in antt_files(top)}
    names, lib = set(), set()
    for t in bare.values():
        names.update(m[1] for m in DECLARED.finditer(t))
        names.update(m[1] for m in RULESET.finditer(t))
        for m in LIBRARY.finditer(t):
            lib.update(WORD.findall(m[1]))
    turned = {n: snake(n) for n in names if snake(n) != n and n not in lib}
    back = {}
    for p, t in bare.items():
        if p.endswith("Proof.antt"):  # its names are those of goals
            continue
        meets = collections.defaultdict(set)
        for w in set(WORD.findall(t)):
            meets[turned.get(w, w)].add(w)
        for new, olds in meets.items():
            if len(olds) == 1:
                continue
            for old in olds:
                if old in turned and not is_camel(old):
                    back[old] = None
                elif old == new:
                    back[old] = old.replace("_", "-")
    for old, new in back.items():
        if new is None:
            turned.pop(old, None)
        elif new not in back:
            turned[old] = new
    return turned


def in_antt(text, rows, generated):
    """generated: the file cites names of the goals behind dots, which stay."""
    out, i = [], 0
    spans = [(m.start(), m.end()) for m in COMMENT.finditer(text)] + [(len(text), len(text))]
    for a, b in spans:
        code = text[i:a]

        def turn(m):
            w = m[0]
            if w not in rows:
                return w
            behind_dot = code[m.start() - 1 : m.start()] == "."
            if behind_dot and not is_camel(w) and generated:
                return w
            return rows[w]

        out.append(WORD.sub(turn, code))
        out.append(re.sub(r"[A-Za-z][A-Za-z0-9']*", lambda m: rows[m[0]] if is_camel(m[0]) and m[0] in rows else m[0], text[a:b]))
        i = b
    return "".join(out)


def in_rt(text, rows):
    def camel(t):
        return re.sub(r"(?<![A-Za-z0-9_])[a-z][A-Za-z0-9']*", lambda m: rows[m[0]] if is_camel(m[0]) and m[0] in rows else m[0], t)

    out, i = [], 0
    for m in RT_COMMENT_OR_TEXT.finditer(text):
        out.append(camel(text[i : m.start()]))
        out.append(camel(m[0]) if m[0].startswith("//") else m[0])
        i = m.end()
    out.append(camel(text[i:]))
    return "".join(out)


def main(argv):
    top = os.path.dirname(HERE)
    if argv[:1] == ["--table"]:
        with open(TABLE, "w", encoding="utf-8") as f:
            f.writelines(f"{a}\t{b}\n" for a, b in sorted(table(top).items()))
        return 0
    if argv:
        top = argv[0]
    rows = dict(line.rstrip("\n").split("\t") for line in open(TABLE, encoding="utf-8"))
    changed = 0
    for p in antt_files(top) + rt_files(top):
        old = read(p)
        new = in_rt(old, rows) if p.endswith(".rt") else in_antt(old, rows, os.path.basename(p) in ("Proof.antt", "Answers.antt", "Invariants.antt"))
        if new != old:
            changed += 1
            with open(p, "w", encoding="utf-8") as f:
                f.write(new)
    print(f"respell: {len(rows)} names, {changed} files")
    return 0


if __name__ == "__main__":
    sys.exit(main(sys.argv[1:]))
