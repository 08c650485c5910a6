#!/usr/bin/env python3
"""Spells this repository's own definitions and lemmas in snake case, as port.py left them: 'slotAt' and 'count-more' become 'slot_at' and 'count_more'.

usage: python3 tools/respell.py [--list]     at the top of the repository, once, behind /opt/rattle/port/port.py

It turns the names that crates/*/specs and crates/*/proofs declare, in those files and in the clauses of crates/*/src. Facts and types, which begin
with a capital, stay; so does each name that a library has in a file that imports it, and so do the goals of a Proof.antt, which Rattle names.
A name whose new spelling the same file has already stays too, everywhere, and is printed. --list prints the rows and writes nothing.
"""

import collections
import glob
import re
import sys

WORD = re.compile(r'[^\s(){}.;,@"«»\x60]+')
DECLARED = re.compile(r'(?m)^( *)((?:(?:pub|abbrev|unfoldable) )*)([^\s(){}.;,@"«»:]+)(?: \{[^{}\n]*\})* :(?=\s)(.*)')
USE = re.compile(r"(?m)^ *(?:pub )?(?:ghost )?use ([^\s;{]+)\{([^}]*)\}", re.S)
# The libraries of the repository; what stands under another name below Rattle is the kit's.
OWN = {line.split(":")[0].split()[0] for line in open("crates.txt", encoding="utf-8") if ":" in line and line.strip()[0] != "#"}

# What a field of the source or a variable has already.
SPECIAL = {
    "view_in": "view_in_lem",
    "read_no": "read_no_lem",
    "left_in": "left_in_lem",
    "put-back": "put_back_lem",
    "may-write": "may_write_lem",
}


def snake(name):
    return re.sub(r"(?<=[a-z0-9₀-₉])[A-Z]", lambda m: "_" + m[0].lower(), name).replace("-", "_")


def code(text):
    return re.sub(r"--[^\n]*", "", text)


def is_own(path):
    steps = path.strip(".").split(".")
    return steps[0] == "Rattle" and len(steps) > 1 and steps[1] in OWN


def main(argv):
    antt = sorted(glob.glob("crates/*/specs/**/*.antt", recursive=True) + glob.glob("crates/*/proofs/**/*.antt", recursive=True))
    others = sorted(glob.glob("crates/*/src/**/*.rt", recursive=True))
    texts = {f: open(f, encoding="utf-8").read() for f in antt + others}
    table, goals, fields = {}, collections.defaultdict(set), set()
    for f in antt:
        for m in DECLARED.finditer(code(texts[f])):
            indent, marks, name, rest = m.groups()
            if f.endswith("Proof.antt") and (rest.strip().startswith("tie.") or "statement" in rest):
                goals[f].add(name)
                continue
            if re.match(r"[a-z]", name) and snake(name) != name:
                table[name] = snake(name)
                if indent:
                    fields.add(name)
    # what each file has of libraries, and where two names would fall together
    library = {}
    for f, t in texts.items():
        had = set()
        for path, items in USE.findall(code(t) if f.endswith(".antt") else t):
            if not is_own(path):
                for it in items.split(","):
                    words = it.split()
                    if words:
                        had.add(words[-1])
        library[f] = had
    stays = set()
    # a lemma that would have its definition's name gets _lem
    for old in [it for it in table if "-" in it]:
        if any(new == table[old] and other != old for other, new in table.items()):
            table[old] += "_lem"
    table.update(SPECIAL)
    for f, t in texts.items():
        if not f.endswith(".antt"):
            continue
        words = set(re.findall(rf"(?<![^\s(){{}};,@«»]){WORD.pattern}", re.sub(r"Rattle\.\S*", "", code(t))))
        turned = collections.defaultdict(set)
        for w in words:
            if w in table and w not in library[f] and w not in goals[f]:
                turned[table[w]].add(w)
        for new, olds in turned.items():
            if new in words and new not in table or len(olds) > 1:
                for old in olds:
                    print(f"stays: {old}: {f} has {new} or two that become it", file=sys.stderr)
                    stays.add(old)
    for it in stays:
        table.pop(it, None)
    if "--list" in argv:
        for old, new in sorted(table.items()):
            print(f"{old}\t{new}")
        return 0
    for f, t in texts.items():
        proof = f.endswith("Proof.antt")

        def turn(m, t=t, f=f, proof=proof):
            w = m[0]
            if w not in table or w in library[f] or w in goals[f]:
                return w
            if f.endswith(".rt") and w in SPECIAL:
                return w
            if t[m.start() - 1 : m.start()] == "." and "-" in w and (proof or w not in fields):
                # behind a step of a proof stands a label that Rattle made
                head = re.search(r"(\S+)\.$", t[: m.start()])
                if not head or not head[1].startswith("Rattle."):
                    return w
            return table[w]

        if f.endswith(".antt"):
            known = set(WORD.findall(code(t)))
            out = []
            for part in re.split(r"(--[^\n]*)", t):
                # in a comment a word with a dash may be English
                named = lambda w: not part.startswith("--") or re.search("[a-z][A-Z]", w) or w in known
                out.append(WORD.sub(lambda m: turn(m, part) if named(m[0]) else m[0], part))
            new = "".join(out)
        else:
            new = WORD.sub(lambda m: turn(m), t)
        if new != t:
            open(f, "w", encoding="utf-8").write(new)
    return 0


if __name__ == "__main__":
    raise SystemExit(main(sys.argv[1:]))
