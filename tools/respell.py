#!/usr/bin/env python3
"""Respells this repository's own ghost names as today's Rattle spells them, once, over the files that port.py has turned.

usage: python3 tools/respell.py [FOLDER]        FOLDER is a checkout, this one where none is named
       python3 tools/respell.py --names [FOLDER]  prints old and new names, and writes nothing

Functions, lemmas, fields and constructors of specs/ and proofs/ go to snake case; facts keep their capital and lose their dashes. Where a lemma would get
the name of a definition it gets `_lem` behind it. What stands in src/ as code, in strings, inputs and outputs is left alone: there only ghost
items and clauses have such names. In pages, only words between backticks are turned.
"""

import collections
import glob
import os
import re
import sys

# A word of antt, with no dot in it.
WORD = re.compile(r"[^\s(){}\[\],;.:@«»⟦⟧λ↦\\|=`\"←]+")
DECLARED = re.compile(
    r"^ *(?:unfoldable +)?(?:abbrev +)?(?:pub +)?(?:abbrev +)?(?:(?:data|record|module) +)?(?:pub +)?"
    r"([^\s(){}\[\],;.:@|]+)((?:\s*\{[^}\n]*\}|\s*\([^()\n]*(?:\([^()\n]*\)[^()\n]*)*\))*)\s*:(?=\s)", re.M)
# Constructors that share a type, and what binders and `let` name.
SEVERAL = re.compile(r"(?:^ +|[({])((?:[^\s(){}\[\],;.:@|]+ +)*[^\s(){}\[\],;.:@|]+) : ", re.M)
LET = re.compile(r"\blet ([^\s(){}\[\],;.:@|]+) ")
USE = re.compile(r"^(?:pub )?use ([^\s{]+)\.\{([^}]*)\}", re.M)

# Names whose turned form would say something else than they do.
CHOSEN = {
    "by-id": "id_order",
    "in-set-up": "at_set_up",
    "queue-owners": "owned_queues",
    "Ceiling-keeps": "CeilingKept",
    "Ceiling-keeps-from": "CeilingKeptFrom",
    "Demand-3": "Demand3",
    "Demand-3-from": "Demand3From",
    "Demand-3-record": "Demand3Record",
    "Demand-3-record-from": "Demand3RecordFrom",
}


def is_dashed(name):
    return "-" in name.strip("-")


def is_humped(name):
    return bool(re.search(r"[a-z0-9][A-Z]", name)) and not name[0].isupper()


def turned(name):
    if name in CHOSEN:
        return CHOSEN[name]
    if name[:1] == "+" or "◌" in name:
        return name
    if name[0].isupper():
        return "".join(p[:1].upper() + p[1:] for p in name.split("-")) if is_dashed(name) else name
    humps = re.sub(r"(?<=[a-z0-9])([A-Z])", r"_\1", name)
    return "".join(c.lower() if c.isascii() else c for c in humps.replace("-", "_"))


def uncommented(text):
    return "\n".join(re.sub(r"(^|\s)--(\s.*|$)", r"\1", l) for l in text.split("\n"))


def ghost_files(root):
    return sorted(p for part in ("specs", "proofs") for p in glob.glob(os.path.join(root, "crates/*", part, "**/*.antt"), recursive=True))


def read(path):
    with open(path, encoding="utf-8") as f:
        return f.read()


def declared(root):
    """The names that the files of specs and lemmas declare, each with the files that do."""
    names = collections.defaultdict(set)
    for p in ghost_files(root):
        if os.path.basename(p) == "Proof.antt":
            continue
        text = uncommented(read(p))
        found = [m.group(1) for m in list(DECLARED.finditer(text)) + list(LET.finditer(text))]
        found += [n for m in SEVERAL.finditer(text) for n in m.group(1).split()]
        for n in found:
            if n not in ("pub", "abbrev", "unfoldable", "data", "record", "module", "let", "in", "_"):
                names[n].add(p)
    return names


def renaming(root):
    """From each old name to its new one, where they differ."""
    names = declared(root)
    groups = collections.defaultdict(list)
    for n in names:
        groups[turned(n)].append(n)
    new = {}
    for to, group in groups.items():
        keeps = group[0]
        if len(group) > 1:
            lemma = lambda n: all("Laws" in p or "/proofs/" in p for p in names[n])
            keeps = sorted(group, key=lambda n: (lemma(n), not is_humped(n), is_dashed(n), n))[0]
        for n in group:
            new[n] = to if n == keeps else to + "_lem"
    return {n: to for n, to in new.items() if n != to}


def foreign(text, crates):
    """The names that a file brings in from outside this repository."""
    names = set()
    for m in USE.finditer(text):
        own = re.match(r"Rattle\.(\w+)", m.group(1))
        if not (own and own.group(1) in crates):
            names |= {w.strip().split(" as ")[0] for w in m.group(2).split(",")}
    return names


def words(text, new, skip=frozenset()):
    def one(m):
        w = m.group(0)
        if w in skip or w not in new:
            return w
        # Behind a dot stands a field, or what Rattle makes for a function, which keeps the function's name.
        before = text[m.start() - 1:m.start()]
        if before == "." and new[w].endswith("_lem"):
            return turned(w)
        return new[w]
    return WORD.sub(one, text)


def antt(text, new, crates, proof):
    skip = foreign(text, crates)
    out = []
    for line in text.split("\n"):
        m = re.search(r"(^|\s)--(\s|$)", line)
        code, comment = (line[:m.start()], line[m.start():]) if m else (line, "")
        out.append(words(code, new, skip) + quoted(comment, new))
    text = "\n".join(out)
    if proof:
        # The proof of a function f is f_spec.
        text = re.sub(r"(?<![\w'-])(\+?[a-z][\w-]*)-spec(?![\w'-])", lambda m: m.group(1).replace("-", "_") + "_spec", text)
    return text


def quoted(text, new):
    """What stands between backticks in a comment or a page; a word with a hump inside is a name wherever it stands."""
    text = re.sub(r"`([^`\n]+)`", lambda m: "`" + words(m.group(1), new) + "`", text)
    return re.sub(r"(?<![\w`'-])[a-z]+[A-Z]\w*(?![\w`'-])", lambda m: new.get(m.group(0), m.group(0)), text)


def rattle(text, new):
    out = []
    for line in text.split("\n"):
        if line.lstrip().startswith("//"):
            out.append(quoted(line, new))
            continue
        out.append(words(line, {n: to for n, to in new.items() if is_humped(n) or is_dashed(n)}) if "\"" not in line else line)
    return "\n".join(out)


def edit(text, new):
    out = []
    file = ""
    for line in text.split("\n"):
        m = re.match(r"(file|old|new): ?(.*)", line)
        if not m:
            out.append(quoted(line, new))
        elif m.group(1) == "file":
            file = m.group(2)
            out.append(line)
        else:
            body = m.group(2)
            out.append(f"{m.group(1)}: " + (words(body, new) if file.endswith(".antt") else rattle(body, new)))
    return "\n".join(out)


def main(argv):
    only = "--names" in argv
    rest = [a for a in argv if a != "--names"]
    root = rest[0] if rest else "."
    new = renaming(root)
    if only:
        for n in sorted(new):
            print(n, new[n])
        return 0
    crates = set(os.listdir(os.path.join(root, "crates")))
    turns = [(p, lambda t, p=p: antt(t, new, crates, os.path.basename(p) == "Proof.antt")) for p in ghost_files(root)]
    turns += [(p, lambda t: rattle(t, new)) for p in glob.glob(os.path.join(root, "crates/*/src/**/*.rt"), recursive=True)]
    turns += [(p, lambda t: edit(t, new)) for p in glob.glob(os.path.join(root, "crates/*/must-fail/*.edit"))]
    # Pages have the names that port.py turned in their old spelling too.
    there = set(declared(root)) | set(new.values())
    known = {n for p in glob.glob(os.path.join(root, "*.md")) + glob.glob(os.path.join(root, "docs/*.md")) for n in WORD.findall(read(p))}
    paged = {n: turned(n) for n in known if (is_dashed(n) or is_humped(n)) and turned(n) in there} | new
    turns += [(p, lambda t: quoted(t, paged)) for p in glob.glob(os.path.join(root, "*.md")) + glob.glob(os.path.join(root, "docs/*.md"))]
    for p, turn in turns:
        old = read(p)
        now = turn(old)
        if now != old:
            with open(p, "w", encoding="utf-8") as f:
                f.write(now)
    return 0


if __name__ == "__main__":
    sys.exit(main(sys.argv[1:]))
