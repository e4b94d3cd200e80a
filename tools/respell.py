#!/usr/bin/env python3
"""Brings the repository's own names in specs/, proofs/ and clauses to snake case: `stepOf` and `step-of` become `step_of`.

usage: tools/respell.py [--table FILE] [TOP]        TOP is the repository (default: this one); FILE gets the table, old, tab, new

Run once, right after /opt/rattle/port/port.py, on what that left. Names of the library stay, and so do those of src/, exported C names, strings and
the names that Rattle makes for a function's proof. Where two names would become one, the definition has the plain spelling, a lemma ends in
`_law`, and a variable has a prime. Must-fail edits and code spans of the pages follow.
"""
import collections
import os
import re
import sys

WORD = re.compile(r'[^\s(){}.;,@"«»]+')
QUIET = re.compile(r'"(?:[^"\\\n]|\\.)*"|(?<![^\s(){}.;,@"«»])--[^\n]*|\{-.*?-\}', re.S)
CAMEL = re.compile(r"[a-z][A-Za-z0-9₀-₉']*$")
KEBAB = re.compile(r"[A-Za-z0-9₀-₉'_]+(?:-[A-Za-z0-9₀-₉'_]+)+$")
DOTTED = {"List·getD-append": "get_or_append", "List·getD-eq-default": "get_or_eq_default", "Bool·beq": "bool_beq", "Bool·not-not": "bool_not_not",
          "Kept·refl": "kept_refl", "Kept·trans": "kept_trans"}
MADE = re.compile(r"(?:Need|After|In|At|Goes|Lts)-")
CLAUSE = re.compile(r"(?:requires|ensures)\s*\*?\s*(?:\w+\s*)?\{|ghost\s*(?:\w+\s*(?::\s*(?:(?:owns|lends)\s*)?|=\s*))?\{")
GHOST_USE = re.compile(r"ghost\s+use\b[^;]*;")
USE = re.compile(r"\buse\s+([A-Za-z0-9_'.+·]+)\.\{([^}]*)\}")
SPECIAL = re.compile(r"r[A-Z]{1,2}$")
SPAN = re.compile(r"`[^`\n]+`")


def files(top, ends):
    for d, ds, fs in os.walk(os.path.join(top, "crates")):
        ds[:] = sorted(x for x in ds if x != "out")
        for f in sorted(fs):
            if f.endswith(ends):
                yield os.path.join(d, f)


def of_function(path):
    return "/proofs/" in path and os.path.basename(path) in ("Proof.antt", "Answers.antt", "Invariants.antt")


def read(path):
    with open(path, encoding="utf-8") as f:
        return f.read()


def blank(text):
    return QUIET.sub(lambda m: " " * len(m[0]), text)


def snake(w):
    w = DOTTED.get(w, w)
    if w[0].islower():
        w = re.sub(r"([a-z0-9])([A-Z]+)(?![a-z])", lambda m: m[1] + "_" + m[2].lower(), w)
        w = re.sub(r"([a-z0-9])([A-Z])", lambda m: m[1] + "_" + m[2].lower(), w)
    return w.replace("-", "_")


def own_crates(top):
    return {line.split(":")[0].split()[0] for line in read(os.path.join(top, "crates.txt")).splitlines() if ":" in line and line[0] != "#"}


def imports(text):
    for m in USE.finditer(text):
        for item in m[2].split(","):
            names = item.split()
            if names:
                yield m[1], names[0], names[-1]


def table(top):
    crates = own_crates(top)
    own = re.compile(r"Rattle\.(?:%s)\." % "|".join(crates))
    lib, free, where, declared, specified = set(), set(), collections.defaultdict(set), set(), set()
    for p in files(top, (".antt", ".rt")):
        t = blank(read(p)) if p.endswith(".antt") else read(p)
        for module, a, b in imports(t):
            if not own.match(module):
                lib.add(a)
                if a == b:
                    lib.add(b)
    for p in files(top, (".antt",)):
        t = blank(read(p))
        for m in WORD.finditer(t):
            w = m[0]
            if not of_function(p) or t[m.start() - 1 : m.start()] != ".":
                free.add(w)
                where[w].add(p)
        if not of_function(p):
            here = set(re.findall(r"(?m)^(?:(?:unfoldable|abbrev|opaque|private|pub|instance|data|record|ruleset) +)*([^\s(){}.;,@\"«»]+) :(?= )", t))
            declared |= here
            specified |= here if "/specs/" in p else set()
    names = [w for w in free if (CAMEL.match(w) and re.search("[A-Z]", w) or KEBAB.match(w) or w in DOTTED) and w not in lib and not MADE.match(w)]
    # A word of the library in another spelling, as 'length-set', is no name of ours wherever it stands in a `use` line of the library alone.
    groups = collections.defaultdict(list)
    for w in names:
        groups[snake(w)].append(w)
    out = {}
    for new, olds in sorted(groups.items()):
        taken = new in free and new not in names
        olds.sort(key=lambda w: (not CAMEL.match(w), w not in declared, w))
        for k, w in enumerate(olds):
            if k == 0 and taken and w in specified and new in declared - specified:
                # a definition's name; the lemma that port.py gave it gives way
                out[w], out[new] = new, new + "_law"
            elif k == 0 and not (taken and where[w] & where[new]):
                out[w] = new
            elif w in declared:
                out[w] = new + "_law"
            else:
                out[w] = new + "'"
    used = collections.Counter(out.values())
    for w, new in out.items():
        if used[new] > 1 or (new in free and new != snake(w)):
            print("look: together:", w, new)
    return out, declared


def turn(text, names, dotted_primes):
    def one(m):
        new = names.get(m[0])
        if new is None:
            return m[0]
        if dotted_primes and m.string[m.start() - 1 : m.start()] == "." and new.endswith("'"):
            return snake(m[0])
        return new

    def comment(t):
        # a special register has Knuth's name in prose, as rL
        t = SPAN.sub(lambda s: WORD.sub(lambda m: re.sub(r"[^`…]+", lambda p: p[0] if SPECIAL.match(p[0]) else names.get(p[0], p[0]), m[0]), s[0]), t)
        return re.sub(r"(?<![\w`-])[a-z]\w*[A-Z]\w*(?![\w-])", lambda m: m[0] if SPECIAL.match(m[0]) else names.get(m[0], m[0]), t)

    out, at = [], 0
    for m in QUIET.finditer(text):
        out += [WORD.sub(one, text[at : m.start()]), m[0] if m[0][0] == '"' else comment(m[0])]
        at = m.end()
    return "".join(out + [WORD.sub(one, text[at:])])


def unalias(text):
    return re.sub(r"([{,]\s*)([^\s{},]+) as ([^\s{},]+)(?=\s*[,}])", lambda m: m[1] + m[2] if m[2] == m[3] else m[0], text)


def closing(text, at):
    depth = 0
    for m in re.compile(r'"(?:[^"\\\n]|\\.)*"|[{}]').finditer(text, at):
        depth += (m[0] == "{") - (m[0] == "}")
        if depth < 0:
            return m.start()
    return len(text)


def turn_rt(text, names):
    out, at = [], 0
    for m in re.finditer(r"//[^\n]*|\"(?:\\.|[^\"\\])*\"|\b(?:requires|ensures|ghost)\b", text):
        if m.start() < at:
            continue
        clause, use = CLAUSE.match(text, m.start()), GHOST_USE.match(text, m.start())
        out.append(text[at : m.start()])
        at = m.end()
        if m[0][:2] == "//":
            out.append(turn("-- " + m[0], names, False)[3:])
        elif use:
            at = use.end()
            out.append(turn(use[0], names, False))
        elif clause:
            at = closing(text, clause.end())
            out += [clause[0], turn(text[clause.end() : at], names, False)]
        else:
            out.append(m[0])
    return "".join(out + [text[at:]])


def main(args):
    to = None
    if args[:1] == ["--table"]:
        to, args = args[1], args[2:]
    top = args[0] if args else os.path.join(os.path.dirname(os.path.realpath(__file__)), "..")
    names, declared = table(top)
    if to:
        with open(to, "w", encoding="utf-8") as f:
            f.write("".join(f"{a}\t{b}\n" for a, b in sorted(names.items())))
    done = 0
    for p in list(files(top, (".antt", ".rt", ".edit"))):
        old = read(p)
        if p.endswith(".antt"):
            new = unalias(turn(old, names, of_function(p)))
        elif p.endswith(".rt"):
            new = unalias(turn_rt(old, names))
        else:
            new = "".join(
                line if not re.match(r"(old|new):", line) or re.search(r"(?m)^file: src/", old) and not re.search(r"≡|→|∷|ghost", line) else line[:4] + turn(line[4:], names, False)
                for line in old.splitlines(True)
            )
        if new != old:
            with open(p, "w", encoding="utf-8") as f:
                f.write(new)
            done += 1
    print(f"respell: {len(names)} names, {done} files")


if __name__ == "__main__":
    main(sys.argv[1:])
