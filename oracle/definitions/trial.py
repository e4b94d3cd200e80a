"""Changes tried: a copy of a crate with a change in it, checked."""
import glob
import hashlib
import os
import re
import shutil
import subprocess
import tempfile
import threading

from changes import ROOT, read

# Copies of crates stand outside the checkout, in which `rt ci` wants no file that it does not read; what was tried is kept in build/.
WORK = os.path.join(tempfile.gettempdir(), "cuqamish-constants-" + hashlib.sha256(ROOT.encode()).hexdigest()[:8])
KEPT = os.path.join(ROOT, "build", "constants")

# Of model some examples, one list of examples, all examples, laws and theorems, each in a repository of its own; of any other crate first what it has
# without its functions, laws, theorems and examples, and then the whole.
WHOLE, SOME, EXAMPLES, LAWS = "whole", "some", "examples", "laws"
# What all others rest on: some examples first.
GROUND = ["Registers", "Memory", "Plan", "Octa", "Fill", "NoMemory", "Lists"]
# The list of examples that is made for a file.
OWN = {"Opcodes": "arithmetic_step_examples", "ArithmeticStep": "arithmetic_step_examples", "Arithmetic": "arithmetic_examples",
       "Whole": "arithmetic_examples", "Field": "field_examples", "LoadStore": "load_store_examples"}
# Examples are computed some at a time, each few in a file of their own, so that only those that a change reaches are computed again.
FEW, CHUNKS, ONE_IN = 5, 80, 9

ERROR = re.compile(r"^\./(\S+?):\d+:\d+: error: `([^`]+)`: (.*)$", re.M)
UNPROVED = re.compile(r"^(?:fn|struct|enum) \w+::(\S+): (?:not proved|no proof)(?:: .*)?$", re.M)


def write(path, text):
    with open(path, "w", encoding="utf-8") as f:
        f.write(text)


def check(repository, crate, seconds=300):
    """The status of `rt check` of a repository's crate, and what it printed."""
    run = subprocess.Popen(["nice", "-n", "19", "rt", "check"], cwd=os.path.join(repository, "crates", crate), stdout=subprocess.PIPE, stderr=subprocess.STDOUT,
                           start_new_session=True)
    try:
        printed = run.communicate(timeout=seconds)[0]
        return run.returncode, printed.decode("utf-8", "replace")
    except subprocess.TimeoutExpired:
        os.killpg(run.pid, 9)
        run.communicate()
        return 3, "timeout"


def computed(crate):
    """What proofs/Bench.antt computes, as statements `FUNCTION LIST` and `TEST`; none where it has another form."""
    proofs = read(os.path.join(crate, "proofs", "Bench.antt"))
    stated = set(re.findall(r"^(?:pub )?\S+ : (.*)$", proofs, re.M))
    names = {name for text in stated for name in text.split(" × ")}
    found = []
    for name in sorted(names):
        for file in sorted(glob.glob(os.path.join(crate, "specs", "**", "*.antt"), recursive=True)):
            body = re.search(rf"^{name} = (.*)$", read(file), re.M)
            for part in body.group(1).split(" × ") if body else ():
                match = re.fullmatch(r"\(?(\w+(?: \w+)?) ≡ true\)?", part)
                if not match:
                    return []
                found.append(match.group(1))
    return found


def split_examples(crate, side):
    """Bench.antt as files of few examples each, of all lists or of one; some are one in nine of these. Left whole where its form is another."""
    tests, bench = computed(crate), os.path.join(crate, "proofs", "Bench.antt")
    text = read(bench)
    opened = re.search(r"^unfolding (.*)$", text, re.M)
    if not tests or not opened:
        return
    uses = [line for line in text.split("\n") if line.startswith("use ") and not line.startswith("use Rattle.model.proofs.Logic")]
    head = "\n".join(["use mathlib.Core.Path.{◌≡◌, refl}", "use mathlib.Core.Bool.{true}", "use lib.ListN.{take, drop}", "use lib.Count.{count_leading_zeros}"] + uses)
    names = []
    for test in tests:
        function, _, examples = test.partition(" ")
        if side not in (SOME, EXAMPLES, examples):
            continue
        parts = [f"{function} (take {FEW} (drop {FEW * k} {examples}))" for k in range(CHUNKS)]
        parts = parts + [f"{function} (drop {FEW * CHUNKS} {examples})"] if examples else [function]
        for k, part in enumerate(parts):
            if side == SOME and k % ONE_IN:
                continue
            name = f"{examples or function}_{k}"
            names.append(f"Part{len(names)}")
            write(os.path.join(crate, "proofs", names[-1] + ".antt"),
                  f"-- few examples\n{head}\n\npub {name} : {part} ≡ true\nunfolding {opened.group(1)}\n{name} = refl\n")
    os.remove(bench)
    write(os.path.join(crate, "proofs", "Lib.antt"), "-- examples\n" + "".join(f"pub mod {n}\n" for n in names))


def one_side(crate, side):
    """Leaves of model's proofs one side: examples or laws."""
    root, kept = os.path.join(crate, "proofs", "Lib.antt"), []
    for line in read(root).split("\n"):
        name = line.split()[-1] if line.startswith("pub mod ") else None
        if name and (name == "Bench") == (side == LAWS):
            os.remove(os.path.join(crate, "proofs", name + ".antt"))
        else:
            kept.append(line)
    write(root, "\n".join(kept))
    if side != LAWS:
        split_examples(crate, side)
        without_functions(crate)


FUNCTION = re.compile(r"^(?:(?:///?[^\n]*|#\[[^\n]*\])\n)*(?:pub(?:\([a-z]+\))? )?(?:extern \"C\" )?fn ", re.M)
METHODS = re.compile(r"^(?:///?[^\n]*\n)*impl \w+ ", re.M)


def block_end(text, at):
    """Behind the block whose brace is the next one."""
    at, depth = text.index("{", at), 0
    while True:
        depth += {"{": 1, "}": -1}.get(text[at], 0)
        at += 1
        if depth == 0:
            return at


def function_end(text, at):
    """Behind a function: its contract's clauses are blocks too."""
    while True:
        brace = text.index("{", at)
        clause, at = re.search(r"\b(requires|ensures|decreases)\s*\*?\s*\w*\s*$", text[at:brace]), block_end(text, brace)
        if not clause:
            return at


def without_functions(crate):
    """Leaves of a crate's code its types and numbers, and of its proofs the laws, theorems and examples."""
    for file in sorted(os.listdir(os.path.join(crate, "src"))):
        path = os.path.join(crate, "src", file)
        text = read(path)
        for what, end in ((METHODS, block_end), (FUNCTION, function_end)):
            while match := what.search(text):
                text = text[:match.start()] + text[end(text, match.end() - 1):]
        write(path, "\n".join(line for line in text.split("\n") if not re.match(r"(?:pub )?use [\w:]+::[a-z_0-9]+;$", line)))
    for name in os.listdir(os.path.join(crate, "proofs")):
        if os.path.isdir(os.path.join(crate, "proofs", name)):
            shutil.rmtree(os.path.join(crate, "proofs", name))


def repository(path, crate, side):
    """A repository with copies of the crate and of those below it. What their checks in the checkout kept goes along, so that only the crate is checked."""
    shutil.rmtree(path, ignore_errors=True)
    os.makedirs(os.path.join(path, "crates"))
    lines = [line for line in read(os.path.join(ROOT, "crates.txt")).split("\n") if ":" in line and not line.startswith("#")]
    needs = {line.split(":")[0].split()[0]: line.split(":")[1].split() for line in lines}
    wanted, waiting = [], [crate]
    while waiting:
        name = waiting.pop()
        if name in needs and name not in wanted:
            wanted.append(name)
            waiting += needs[name]
    write(os.path.join(path, "crates.txt"), "".join(line + "\n" for line in lines if line.split(":")[0].split()[0] in wanted))
    for name in wanted:
        left_out = ["must-fail"] + ["out"] * (name == crate)
        shutil.copytree(os.path.join(ROOT, "crates", name), os.path.join(path, "crates", name), ignore=shutil.ignore_patterns(*left_out))
    copy = os.path.join(path, "crates", crate)
    if crate == "model":
        one_side(copy, side)
    elif side == LAWS:
        without_functions(copy)


def same_files(base, copy):
    """Makes a folder as another is, by those files alone that differ in their time."""
    for folder, _, files in os.walk(copy):
        for file in files:
            if not os.path.exists(os.path.join(base, os.path.relpath(folder, copy), file)):
                os.remove(os.path.join(folder, file))
    for folder, _, files in os.walk(base):
        into = os.path.join(copy, os.path.relpath(folder, base))
        os.makedirs(into, exist_ok=True)
        for file in files:
            old, new = os.path.join(folder, file), os.path.join(into, file)
            if not os.path.exists(new) or os.stat(new).st_mtime_ns != os.stat(old).st_mtime_ns:
                shutil.copy2(old, new)


class Bases:
    """The crates checked as they are, for trials to start from: each when it is first asked for."""

    def __init__(self):
        self.locks, self.proved, self.guard, self.checking = {}, {}, threading.Lock(), threading.Lock()

    def path(self, crate, side):
        """Where the crate is checked; None where it is not proved as it is."""
        with self.guard:
            lock = self.locks.setdefault((crate, side), threading.Lock())
        with lock:
            if (crate, side) not in self.proved:
                self.proved[crate, side] = self.checked(crate, side)
            return self.proved[crate, side]

    def checked(self, crate, side):
        path = os.path.join(WORK, "base", f"{crate}-{side}")
        repository(path, crate, side)
        with self.checking:
            status, printed = check(path, crate, seconds=3600)
        if status == 0:
            return path
        print(printed + f"\ncrate {crate} is not proved as it is: nothing can be said of changes", flush=True)
        return None


def verdict(printed):
    """Which law, theorem or example refuses, the first of them; or else which function's contract. None where nothing of the kind is printed."""
    errors = [(path, name) for path, name, why in ERROR.findall(printed) if not re.match(r"`[^`]+` was not admitted", why)]
    if any(path.startswith("specs/") for path, _ in errors):
        return None
    for path, name in errors:
        file = re.fullmatch(r"proofs/([^/]+)\.antt", path)
        if file:
            return "refused at " + (f"computed of {file.group(1)}" if name == "computed" else name)
    functions = UNPROVED.findall(printed)
    return "refused at the contract of " + functions[0] if functions else None


class Trial:
    """Folders in which changes are tried, one after the other, from what is checked of the crate unchanged."""

    def __init__(self, number, bases, from_nothing):
        self.path, self.bases, self.from_nothing, self.made = os.path.join(WORK, f"trial{number}"), bases, from_nothing, set()

    def tried(self, change):
        sides = [LAWS, WHOLE] if change.crate != "model" else [SOME, LAWS, EXAMPLES] if change.file in GROUND else [LAWS, OWN.get(change.file, SOME), EXAMPLES]
        # laws that rest on the crate's functions are no side of their own
        passed = ["accepted"] if change.crate == "model" else ["accepted", "not tried"]
        for side in sides:
            said = self.on(side, change)
            if said not in passed:
                break
        return said

    def on(self, side, change):
        base, path = self.bases.path(change.crate, side), os.path.join(self.path, f"{change.crate}-{side}")
        if base is None:
            return "not tried"
        if path not in self.made:
            repository(path, change.crate, side)
            self.made.add(path)
        kept = os.path.join("crates", change.crate, "out")
        if self.from_nothing:
            shutil.rmtree(os.path.join(path, kept), ignore_errors=True)
        else:
            same_files(os.path.join(base, kept), os.path.join(path, kept))
        file = os.path.join(path, "crates", change.crate, "specs", change.file + ".antt")
        source = read(file)
        write(file, change.applied(source))
        try:
            status, printed = check(path, change.crate)
        finally:
            write(file, source)
        if status == 0:
            return "accepted"
        said = verdict(printed) if status == 1 else None
        if said is None:
            write(os.path.join(KEPT, f"no-verdict-{change.crate}-{change.file}-{change.line}-{change.at}.log"), change.key() + "\n" + printed)
        return said or "no verdict"
