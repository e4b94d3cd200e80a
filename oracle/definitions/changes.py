"""The changes: every constant of the definitions, found by scanning, and what it becomes."""
import os
import re

HERE = os.path.dirname(os.path.abspath(__file__))
ROOT = os.path.dirname(os.path.dirname(HERE))

# The crates that define something, in the order in which they are tried. bench and point_lines_program are programs.
CRATES = ["model", "task_model", "image", "sets", "decode", "machine", "stack", "contexts", "exceptions", "arms", "instruction", "text", "script", "task_run", "tasks",
          "mmix", "claims", "point_lines", "points"]
# Of claims the files that define something; its others state theorems alone.
DEFINING = {"claims": ["OneCall", "CallsLeave"]}
# Files that state theorems in records with parameters too, though their first line does not say so: of these only what is no Type.
STATING = ["claims OneCall", "claims CallsLeave", "point_lines Stream"]
# Definitions that are a computed example's own.
EXAMPLES = ["script Script sample", "script Script sample_text"]

# Where a name that a change brings in is imported from; MODEL stands for the specs of crate model.
MODEL = "MODEL."
HOMES = {**dict.fromkeys(["leb", "ltb", "eqb", "nat_le", "nat_lt", "nat_eq", "&&", "||", "true", "false", "min", "max", "bit_and", "bit_or"],
                         "Rattle.std.specs.Prelude"),
         **dict.fromkeys(["forward", "backward", "register", "immediate", "byte", "wyde", "tetra", "octabyte", "signed", "unsigned"], MODEL + "Opcodes")}

# What each word is changed to. A register's name becomes the next register's.
WORDS = {"leb": ["ltb", "eqb"], "ltb": ["leb", "eqb"], "eqb": ["leb", "ltb"], "==": ["leb", "ltb"],
         "nat_le": ["nat_lt", "nat_eq"], "nat_lt": ["nat_le", "nat_eq"], "nat_eq": ["nat_le", "nat_lt"], "&&": ["||"], "||": ["&&"], "min": ["max"],
         "max": ["min"], "not": [""], "true": ["false"], "false": ["true"], "suc": [""], "zero": ["(suc zero)"],
         "forward": ["backward"], "backward": ["forward"], "register": ["immediate"], "immediate": ["register"],
         "bit_and": ["bit_or"], "bit_or": ["bit_and"], "signed": ["unsigned"], "unsigned": ["signed"], "byte": ["wyde"],
         "wyde": ["byte"], "tetra": ["octabyte"], "octabyte": ["tetra"]}

NUMBER = re.compile(r"0x[0-9A-Fa-f]+|\d+")
TOKEN = re.compile(r"[^\s(){};,]+")
QUOTED = re.compile(r'"([^"]+)"')
HEAD = re.compile(r"\s*(?:abbrev |unfoldable )?(?:pub )?(?:record |data )?([^\s:={}()]+) (?::|\(.*\) :|where)")
CLOSED = re.compile(r"\s*(?:abbrev |unfoldable )?(?:pub )?(?:record )?(\S+) : Type 0(?: where)?")
TYPED = re.compile(r"\s*(?:abbrev |unfoldable )?(?:pub )?(?:record )?(\S+) .*Type 0(?: where)?")


def read(path):
    with open(path, encoding="utf-8") as f:
        return f.read()


class Change:
    """One token of one line, and what it becomes."""

    def __init__(self, crate, file, line, name, text, at, old, new):
        self.crate, self.file, self.line, self.name, self.at, self.old, self.new = crate, file, line, name, at, old, new
        self.shown = " ".join((text[:at] + "[" + old + " → " + new + "]" + text[at + len(old):]).split())
        self.order, self.definition = 0, ""

    def whole(self):
        """The name of its definition, as equal.txt may have it for all changes of one."""
        return f"{self.crate} {self.file} {self.name}"

    def key(self):
        """Which change it is, wherever its line has moved to."""
        return f"{self.whole()}: {self.shown}" + (f" #{self.order}" if self.order else "")

    def anywhere(self):
        """The same without its file: which change it is where its definition has moved to another file of the crate."""
        return f"{self.crate} {self.name}: {self.shown}" + (f" #{self.order}" if self.order else "")

    def applied(self, source):
        lines = source.split("\n")
        text = lines[self.line - 1]
        lines[self.line - 1] = (between if self.old == "==" else replaced)(text, self.at, self.old, self.new)
        home = HOMES.get(self.new) or (MODEL + "Registers" if re.fullmatch(r"r_[a-z]{1,2}", self.new) else None)
        if home and (self.crate, MODEL + self.file) != ("model", home):
            home = home.replace(MODEL, "Rattle.model.specs.")
            import_name(lines, home, f"◌{self.new}◌" if self.new in ("&&", "||") else self.new)
        return "\n".join(lines)


def replaced(text, at, old, new):
    return text[:at] + new + text[at + len(old):]


def between(text, at, old, new):
    """An infix test by the name of another: `a == b` becomes `leb (a) (b)`. What it compares goes to the parenthesis, && or || on each side."""
    depth, left = 0, at
    while left > 0:
        c = text[left - 1]
        if depth == 0 and (c in "(,;" or text[left - 2:left] in ("&&", "||", "= ", "→ ", ". ") and text[left - 3:left] != "== "):
            break
        depth += {")": 1, "(": -1}.get(c, 0)
        left -= 1
    depth, right = 0, at + len(old)
    while right < len(text):
        c = text[right]
        if depth == 0 and (c in "),;" or text[right:right + 2] in ("&&", "||")):
            break
        depth += {"(": 1, ")": -1}.get(c, 0)
        right += 1
    a, b = text[left:at].strip(), text[at + len(old):right].strip()
    gap, end = text[left:at][:len(text[left:at]) - len(text[left:at].lstrip())], " " if right < len(text) and text[right] in "&|" else ""
    return f"{text[:left]}{gap}{new} ({a}) ({b}){end}{text[right:]}"


def import_name(lines, home, name):
    """Adds a name to a file's `use` line, or such a line in the place of the first comment: no other line moves."""
    start = f"use {home}.{{"
    for i, line in enumerate(lines):
        if line.startswith(start):
            names = [n.strip() for n in line[len(start):].rstrip("}").split(",")]
            if name not in names:
                lines[i] = start + ", ".join(names + [name]) + "}"
            return
    lines[0] = start + name + "}"


def numbers(old, before, after, is_register):
    """A number one larger and one smaller; one of the two where it is a power's literal base or exponent, or a register's number."""
    value = int(old, 0)
    shape = f"0x{{:0{len(old) - 2}X}}" if old.startswith("0x") else "{:d}"
    more, less = shape.format(value + 1), [shape.format(value - 1)] if value else []
    if is_register or re.match(r"\s*\^ \d", after):
        return [more]
    return less if before.endswith("^") else [more] + less


def arguments(text):
    """The words and groups of a text, up to the parenthesis that ends it."""
    found, start, depth = [], None, 0
    for at, c in enumerate(text + " "):
        if depth == 0 and (c.isspace() or c == ")"):
            if start is not None:
                found.append(text[start:at])
            start = None
            if c == ")":
                break
            continue
        start = at if start is None else start
        depth += {"(": 1, ")": -1}.get(c, 0)
    return found


def becomes(old, before, after, name, defining, registers):
    """What a token may become. `defining`: it stands on the right of a definition's equation."""
    if NUMBER.fullmatch(old):
        return [] if before.endswith(("Type", "Unit {")) else numbers(old, before, after, name in registers)
    if not defining or re.match(r"\s=\s", after):
        return []  # a record's field, beside its value
    if old in registers:
        return [registers[(registers.index(old) + 1) % len(registers)]]
    if old == "eqb" and arguments(after)[1:2] == ["0"] or old == "==" and arguments(after)[:1] == ["0"]:
        return ["ltb"]  # e ≤ 0 is e = 0
    return WORDS.get(old, [])


def in_line(code, name, declares, registers):
    """The changes of one line, as place, old and new. In a quoted text each word loses its first letter, and one without words its first character."""
    continued = code.startswith(" ") and not declares and not code.endswith(" =")
    right = code.find(" = ") + 3 if " = " in code else 0 if continued else len(code)
    quoted = [match.span() for match in QUOTED.finditer(code)]
    for start, end in quoted:
        words = [m.start() for m in re.finditer(r"(?<![A-Za-z\\])[A-Za-z]", code[start:end])]
        for at in words:
            yield start + at, code[start + at], ""
        if not words:
            yield start, code[start:start + 2], '"'
    for token in TOKEN.finditer(code):
        at, old = token.start(), token.group()
        if not any(start <= at < end for start, end in quoted):
            for new in becomes(old, code[:at].rstrip(), code[token.end():], name, at >= right, registers):
                yield at, old, new


def paragraphs(source):
    """Of each line the paragraph in which it stands, comments left out: a definition's whole text."""
    of_line = []
    for paragraph in source.split("\n\n"):
        lines = paragraph.split("\n")
        code = "\n".join(line for line in lines if not line.lstrip().startswith("--"))
        of_line += [code] * len(lines) + [""]
    return of_line


def scanned(crate, file, source, registers):
    """The changes of one file, in the order of its lines. Statements of theorems, which are closed Types, are left out."""
    found, name, seen, stated = [], "", {}, None
    texts, states = paragraphs(source), TYPED if f"{crate} {file}" in STATING else CLOSED
    for number, line in enumerate(source.split("\n"), 1):
        code = line.split("--")[0].rstrip()
        if not code or code.startswith("use "):
            continue
        depth = len(code) - len(code.lstrip())
        if stated and (depth > stated[0] or code.lstrip().startswith(stated[1] + " ")):
            continue
        closed = states.fullmatch(code)
        stated = (depth, closed.group(1)) if closed else None
        head = HEAD.match(code)
        declares = head and " = " not in code
        name = head.group(1) if declares else name
        if stated or f"{crate} {file} {name}" in EXAMPLES:
            continue
        for at, old, new in in_line(code, name, declares, registers):
            change = Change(crate, file, number, name, line, at, old, new)
            change.order = seen[change.shown] = seen.get(change.shown, -1) + 1
            change.definition = texts[number - 1]
            found.append(change)
    return found


def all_changes(text_of):
    """The changes of all crates, each file as `text_of` gives it by its path from the root; it gives None where there is no such file."""
    registers = re.findall(r"^abbrev pub (r_[a-z]{1,2}) : ℕ$", text_of("crates/model/specs/Registers.antt") or "", re.M)
    found = []
    for crate in CRATES:
        for file in re.findall(r"^pub mod (\S+)", text_of(f"crates/{crate}/specs/Lib.antt") or "", re.M):
            source = text_of(f"crates/{crate}/specs/{file}.antt") if file in DEFINING.get(crate, [file]) else None
            if source and not source.startswith("-- Theorem"):
                found += scanned(crate, file, source, registers)
    return found
