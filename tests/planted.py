"""planted.py [CRATE..]: tries planted bugs, edits of the code that the prover has to refuse (crates/NAME/planted/BUG.edit).

It tries the bugs of these crates, or of all, where a verdict could have changed, and records in tests/planted.txt the crates whose bugs were
all refused. `--all` tries them whether anything changed or not. `--gate` tries the stale crates and one more, which the commit's hash chooses,
and records nothing: so a record that was written by hand is found out. `--stale` prints the stale crates.

A check says of each function whether it is proved, so many bugs are tried in one (`rattle check --only F ..`), over what `rt check` kept of the
unchanged crate in this checkout, or a check of it in the gate. Each is made in a copy of the function that it edits, which stands beside that one
with a copy of its proof, so that none is in the way of another. It is refused if a goal of its copy is not proved. Of one function in sixteen, and
of one at least in each check, which the commit chooses, a copy without a bug is made too, and has to be proved.
The others are made in place, at most one of each function in a check: those in a trait's method or in a cycle of calls, and those that do not fit
beside others. One of several functions, or one that adds a function, is refused if one of them is not proved, and one of a constant if a function
is not that names it. One whose function is only said to call another that is not proved waits for the next check. A bug in no function, and one that
comes out proved, is tried alone, by a check of the whole crate. A bug that does not compile, or that the borrow checker refuses for its form, shows
nothing, and fails.

A crate is stale if the kit changed, its bugs, its sources or definitions, or what it can see of the crates below it: definitions outside of
`specs/inner`, and clauses, but for those of private functions.
"""

import copy
import hashlib
import os
import re
import shutil
import subprocess
import sys
import tempfile
import threading
from concurrent.futures import ThreadPoolExecutor
from pathlib import Path

from api import below, uses_of

ROOT = Path(__file__).resolve().parent.parent
RECORD = ROOT / "tests/planted.txt"


def bugs_of(crate):
    edits = (it for folder in ("planted", "must-fail") for it in (ROOT / "crates" / crate / folder).glob("*.edit"))
    return sorted(edits, key=lambda it: it.name)


def crates_with_bugs():
    return [crate for crate in uses_of() if bugs_of(crate)]


# The record.

CLAUSE = re.compile(r"^ *(?:pub )?(?:ghost|requires|ensures)\b", re.M)


def code(file):
    """A source or a spec file without its comments and its empty lines."""
    return re.sub(r"^ *(?://|--).*\n|^\n", "", file.read_text(), flags=re.M)


def clauses(file, text):
    """The contracts, invariants and models of a source that other crates can see, without its bodies, and where the names in them come from."""
    private = [it for it in functions_of(file, text) if it.is_private]
    found, uses = [], []
    for clause in CLAUSE.finditer(text):
        end = text.find("\n", clause.start())
        while text.count("{", clause.start(), end) > text.count("}", clause.start(), end):
            end = text.find("\n", end + 1)
        if not any(it.start <= clause.start() < it.end for it in private):
            (uses if "ghost use" in clause[0] + text[clause.end() : end][:4] else found).append(text[clause.start() : end])
    said = "\n".join(found)
    for use in uses:
        module, _, names = use.strip().removeprefix("ghost use ").rstrip(";").partition(".{")
        names = names.rstrip("}").split(", ") if names else [re.split(r"\W", module)[-1]]
        found += [f"{module}.{name}" for name in names if all(part in said for part in name.split("◌"))]
    return found


def key(crate):
    """A checksum of all that the verdicts on a crate's bugs rest on."""
    crates, told = ROOT / "crates", [subprocess.run(["rt", "version"], capture_output=True, text=True, check=True).stdout]
    told += [f"{bug.name}\n{bug.read_text()}" for bug in bugs_of(crate)]
    told += [f"{file.relative_to(crates)}\n{code(file)}" for file in sorted(crates.glob(f"{crate}/src/**/*.rt"))]
    for name in below(crate, uses_of()):
        told += [clause for file in sorted(crates.glob(f"{name}/src/**/*.rt")) for clause in clauses(file.name, code(file))]
    for name in [crate, *below(crate, uses_of())]:
        files = [it for it in sorted(crates.glob(f"{name}/specs/**/*.antt")) if name == crate or "specs/inner" not in f"{it}"]
        told += [f"{file.relative_to(crates)}\n{code(file)}" for file in files]
    return hashlib.sha256("\n".join(told).encode()).hexdigest()


def recorded():
    """The lines of the record: those that speak of numbers, and the key of each crate whose bugs were refused."""
    lines = RECORD.read_text().splitlines()
    head = [line for line in lines if line.startswith(("#", "planted ", "gone "))]
    return head, dict(line.split() for line in lines if line not in head)


def drawn(names):
    """These names in an order that the commit's hash chooses."""
    commit = subprocess.run(["git", "rev-parse", "HEAD"], cwd=ROOT, capture_output=True, text=True, check=True).stdout
    return sorted(names, key=lambda it: hashlib.sha256(f"{commit} {it}".encode()).digest())


def stale():
    """The crates whose bugs were not refused over what is there."""
    return [crate for crate in crates_with_bugs() if recorded()[1].get(crate) != key(crate)]


def write(crates):
    head, said = recorded()
    said = {crate: line for crate, line in said.items() if bugs_of(crate)} | {crate: key(crate) for crate in crates}
    RECORD.write_text("\n".join([*head, *(f"{crate} {line}" for crate, line in sorted(said.items()))]) + "\n")


# Bugs, and the functions that they edit.

HEAD = re.compile(r"^(?:pub )?(?:impl(?:<[^>]*>)? (?:(?P<of>[^{\n]*?) for )?|trait )&?(?:\w+::)*(?P<type>\w+)", re.M)
FUNCTION = re.compile(
    r"""^(?:(?P<indent> *)#\[cycle\((?P<cycle>\w+)\)\]\n)?(?P<inside> *)(?P<pub>pub )?(?:pub\([^)]*\) )?(?:extern "C" )?fn (?P<name>\w+)""", re.M
)


class Function:
    """A function of a source: its text, and what the check's name for it is made of."""

    def __init__(self, file, text, found):
        head = [it for it in HEAD.finditer(text) if it.start() < found.start()][-1:] if found["inside"] else []
        has_body = re.compile(r"\{\}?\n|;\n").search(text, found.end())[0] == "{\n"
        end = re.compile(rf"^{found['inside']}\}}" if has_body else r";$|\{\}$", re.M).search(text, found.end())
        self.file, self.start, self.end = file, found.start(), end.end()
        self.name, self.cycle, self.text = found["name"], found["cycle"], text[self.start : self.end]
        self.module = "::".join(part for part in file.removeprefix("src/").removesuffix(".rt").split("/") if part not in ("lib", "main"))
        self.type = head[0]["type"] if head else ""
        of = re.sub(r"\w+::", "", head[0]["of"] or "") if head else ""
        self.owner = self.type + "".join(re.findall(r"\w+", of))
        # A method of a trait is as public as the trait.
        self.is_private = not (found["pub"] or of or head and "trait " in head[0][0])

    def key(self):
        return self.module, self.owner, self.name

    def proofs(self, names):
        """The proofs of this function among those of a check: of itself and of its closures."""
        found = {}
        for name in names:
            path = name.partition("::")[2]
            inside = re.fullmatch(rf"(?:(.*?)::)?fn::(?:(.*)::)?{self.name}::.*", path)
            owner = "::".join(filter(None, inside.groups())) if inside else path.rpartition("::")[0]
            # A method stands with its type, wherever the impl is; what is free, in its module.
            if (inside or path.rpartition("::")[2] == self.name) and (
                owner.rpartition("::")[2].startswith(self.type) if self.type else owner == self.module
            ):
                found.setdefault(owner, set()).add(name)
        return found[max(found, key=self.likeness)] if found else set()

    def with_edits(self, edits):
        """The text of the function with these edits, if each stands in it once."""
        text = self.text
        for _, old, new in edits:
            text = text.replace(old, new) if text.count(old) == 1 else ""
        return text

    def copied(self, number, edits, folder, name):
        """A copy of this function, by the name of its proof, under a name of its own, with these edits. The files of its proof are copied in the folder."""
        one = self.named(f"{self.name}_planted_{number}")
        one.text = self.with_edits(edits).replace(f"fn {self.name}", f"fn {one.name}", 1)
        crate, *path = name.split("::")
        proof = Path(folder, "proofs", *path)
        if proof.is_dir():
            shutil.copytree(proof, proof.with_name(one.name))
            old, new = (".".join(["Rattle", crate, "proofs", *path[:-1], last, ""]) for last in (self.name, one.name))
            for file in proof.with_name(one.name).rglob("*.antt"):
                file.write_text(file.read_text().replace(old, new))
        return one

    def named(self, name):
        """A function beside this one, of another name."""
        one = copy.copy(self)
        one.name = name
        return one

    def units(self):
        """What has one proof: the function, and its cycle of calls if it is in one."""
        return {self.key(), self.cycle and (self.cycle,)} - {None}

    def likeness(self, owner):
        place, _, last = owner.rpartition("::")
        return len(os.path.commonprefix([last, self.owner])), -len(last), len(os.path.commonprefix([place, self.module]))


def functions_of(file, text):
    return [Function(file, text, found) for found in FUNCTION.finditer(text)]


def function_at(file, text, at):
    """The function of a source in which a place stands, if it stands in one."""
    begun = [it for it in functions_of(file, text) if it.start <= text.find("\n", at)]
    return begun[-1] if begun and at <= begun[-1].end else None


def functions_with(name, folder):
    """The functions of a crate that name a constant."""
    files = [(f"{file.relative_to(folder)}", file.read_text()) for file in sorted((folder / "src").rglob("*.rt"))]
    return [it for file, text in files for it in functions_of(file, text) if re.search(rf"\b{name}\b", it.text)]


class Bug:
    """A planted bug: the texts that it exchanges, one after the other, and the functions in which these stand; or why it can't be made."""

    def __init__(self, edit, folder):
        self.name, self.edits, self.functions, self.why = edit.stem, [], {}, "it exchanges nothing"
        texts, file, old, self.besides = {}, "", None, []
        for line in edit.read_text().splitlines():
            word, _, rest = line.partition(": ")
            if word == "file" and rest.startswith("src/") and (folder / rest).is_file():
                file = rest
                texts.setdefault(file, (folder / file).read_text())
            elif word == "old" and file:
                old = rest
            elif word in ("new", "new:") and old != rest and texts[file].count(old or " ") == 1:
                at = texts[file].index(old)
                function = function_at(file, texts[file], at)
                self.functions.setdefault(function and function.key(), function)
                constants = re.findall(r"\bconst (\w+)", old if function else texts[file][: at + len(old)])[-1:]
                self.besides += [it for name in constants for it in functions_with(name, folder)]
                self.besides += [function.named(name) for name in re.findall(r"\bfn (\w+)", rest) if function and f"fn {name}" not in old]
                texts[file] = texts[file].replace(old, rest)
                self.edits.append((file, old, rest))
                self.why = None
            else:
                self.why = f"a line that says nothing, or whose text does not stand once in its file: {line[:60]}"
                return

    @property
    def function(self):
        """The function that the bug edits, if it is one."""
        functions = [*self.functions.values()]
        return functions[0] if len(functions) == 1 else None

    def tried(self):
        """The functions of which one has to be refused: those that it edits or adds, and those that name a constant that it edits."""
        return [*({it.key(): it for it in self.besides} | {it.key(): it for it in self.functions.values() if it}).values()]

    def proofs(self, names):
        """The proofs of which one has to fail."""
        return {name for it in self.tried() for name in it.proofs(names)}

    def has_copy(self):
        """Whether it is an edit of one function of which a copy can stand beside it, which no function for C can."""
        it = self.function
        return bool(it and not it.cycle and it.owner == it.type and "extern" not in it.text.partition("fn ")[0] and it.with_edits(self.edits))


# How bugs are tried.

BORROWS = "the borrow checker does not cover"
# How many bugs are made in copies in one check.
MOST_COPIES = 120
REFUSED, LATER, PROVED, BAD = "refused", "later", "let through", "bad"


def is_refusal(line):
    """Whether a check's line on a function says that a goal of it, or that it ends, is not proved."""
    return line.startswith("not proved") or "did not prove" in line or "expected a measure" in line


def proofs_in(said):
    """The names of the proofs that a check speaks of."""
    return re.findall(r"^fn (\S+): ", said, re.M)


def first_error(said):
    lines = [line for line in said.splitlines() if re.search(r": error\b", line) or BORROWS in line]
    return (lines or [said[-300:]])[0][:300]


def link(one, other):
    try:
        os.link(one, other)
    except OSError:
        shutil.copy2(one, other)


def linked(folder, to):
    """A copy by links: a check replaces what it kept, and writes into no such file."""
    shutil.copytree(folder, to, copy_function=lambda one, other: (link if one.endswith(".oantt") else shutil.copy2)(one, other))


class Lab:
    """A copy of some crates and of those below, with the libraries that they need proved."""

    def __init__(self, crates, lanes, in_gate):
        self.uses, self.room, self.lanes = uses_of(), Path(tempfile.mkdtemp(prefix="planted-")), threading.Semaphore(lanes)
        self.kit = Path(subprocess.run(["rt", "doc"], capture_output=True, text=True, check=True).stdout.strip()).parent
        needed = {name for crate in crates for name in below(crate, self.uses)}
        for crate in {*crates, *needed}:
            for part in ("src", "specs", "proofs"):
                if (ROOT / "crates" / crate / part).is_dir():
                    shutil.copytree(ROOT / "crates" / crate / part, self.room / "crates" / crate / part)
            kept = ROOT / "crates" / crate / "out/incremental"
            if kept.is_dir() and not in_gate:
                linked(kept, self.seed(crate))
        # What the checks of unchanged crates said.
        self.said = {}
        if in_gate and needed:
            self.prove_anew(needed)
        elif needed:
            self.build(needed)

    def seed(self, crate):
        """What is kept of a check of the unchanged crate."""
        return self.room / "seeds" / crate

    def rlib(self, crate):
        return self.room / f"libraries/crates/{crate}/out/rlib/{crate}.rlib"

    def prove_anew(self, crates):
        """Has `rt ci` prove these libraries, or take what it has proved on this machine."""
        folder = self.room / "libraries"
        for crate in crates:
            shutil.copytree(self.room / "crates" / crate, folder / "crates" / crate)
        shutil.copy(ROOT / "HANDLES", folder)
        lines = [line for line in (ROOT / "crates.txt").read_text().splitlines() if re.match(r"\w*", line)[0] in crates]
        (folder / "crates.txt").write_text("".join(f"{line}\n" for line in lines))
        ran = subprocess.run(["rt", "ci"], cwd=folder, capture_output=True, text=True, check=False)
        if ran.returncode:
            sys.exit(f"planted: the libraries below are not proved\n{ran.stdout[-2000:]}{ran.stderr[-500:]}")

    def build(self, crates):
        """Builds these libraries over what `rt check` kept of them, side by side where they don't wait for each other."""
        built = {}

        def build_one(crate):
            for it in below(crate, self.uses):
                built[it].result()
            self.rlib(crate).parent.mkdir(parents=True)
            self.prove("build", crate, ["-o", str(self.rlib(crate))])

        with ThreadPoolExecutor(len(self.uses)) as pool:
            for crate in self.uses:
                if crate in crates:
                    built[crate] = pool.submit(build_one, crate)
            for it in built.values():
                it.result()

    def prove(self, command, crate, more=()):
        """Proves an unchanged crate, over what is kept of it."""
        status, self.said[crate] = self.rattle(command, crate, self.room / "crates" / crate, self.seed(crate), more)
        if status:
            sys.exit(f"planted: {crate} is not proved as it is\n{self.said[crate][-2000:]}")

    def rattle(self, command, crate, folder, kept, more=()):
        """The status of a check or a build of a crate in a folder, over what an earlier one kept, and what it said."""
        words = ["rattle", command, "--crate-name", crate, "src/lib.rt", "--links", f"{crate}=", "--jobs", "1", "--incremental", str(kept)]
        for name in ["std", *(it for it in self.uses[crate] if it not in self.uses)]:
            words += ["--extern", f"{name}={self.kit}/rlibs/{name}.rlib"]
        for name in below(crate, self.uses):
            words += ["--extern", f"{name}={self.rlib(name)}"] * (name in self.uses[crate]) + ["-L", f"dependency={self.rlib(name).parent}"]
        words += ["-L", f"dependency={self.kit}/rlibs", "--antt-project", f"{self.kit}/rattle/logic/antt-project.json"]
        words += ["--logic-built", f"{self.kit}/logic_built", *more]
        if re.search(rf"^{crate} staticlib:", (ROOT / "crates.txt").read_text(), re.M):
            words += ["--crate-type", "staticlib"]
        with self.lanes:
            ran = subprocess.run(words, cwd=folder, capture_output=True, text=True, errors="replace", check=False)
        return ran.returncode, ran.stdout + ran.stderr


class Trial:
    """The bugs of one crate, tried over what a check of the unchanged crate kept."""

    def __init__(self, lab, crate, pool):
        self.lab, self.crate, self.pool, self.checks = lab, crate, pool, 0
        self.folder, self.seed = lab.room / "crates" / crate, lab.seed(crate)

    def run(self):
        """What became of each bug, by its name: a verdict, and why."""
        if self.crate not in self.lab.said:
            self.lab.prove("check", self.crate)
        self.names = proofs_in(self.lab.said[self.crate])
        bugs = [Bug(edit, self.folder) for edit in bugs_of(self.crate)]
        found = {bug.name: (BAD, bug.why) for bug in bugs if bug.why}
        copied = [bug for bug in bugs if not bug.why and bug.has_copy()]
        tried = {}
        for told in self.pool.map(self.in_copies, [copied[at : at + MOST_COPIES] for at in range(0, len(copied), MOST_COPIES)]):
            tried |= told
        found |= {name: (REFUSED, "in a copy") for name, kind in tried.items() if kind == REFUSED}
        left = [bug for bug in bugs if bug.name not in found]
        # Where the function is proved with its bug, another one has to refuse it.
        alone = [bug for bug in left if tried.get(bug.name) == PROVED or not bug.proofs(self.names)]
        waiting = [bug for bug in left if bug not in alone]
        while waiting:
            told = {name: it for batch in self.pool.map(self.batch, dealt(waiting)) for name, it in batch.items()}
            found |= {name: it for name, it in told.items() if it[0] in (REFUSED, BAD)}
            alone += [bug for bug in waiting if told[bug.name][0] == PROVED]
            later = [bug for bug in waiting if told[bug.name][0] == LATER]
            if len(later) == len(waiting):
                alone, later = alone + later, []
            waiting = later
        return found | dict(self.pool.map(self.whole, alone))

    def in_copies(self, bugs):
        """What one check says of these bugs in copies of their functions, by their names, if it proves the copies without a bug."""
        with tempfile.TemporaryDirectory(dir=self.lab.room) as folder:
            copies, only = self.plant_copies(bugs, f"{folder}/crate")
            said = self.check(folder, sorted(only))[1]
        if not re.search(r"^only=\d+ ", said, re.M):
            half = len(bugs) // 2
            return self.in_copies(bugs[:half]) | self.in_copies(bugs[half:]) if half else {}
        names = proofs_in(said)
        verdicts = [(bug, verdict(said, it.proofs(names))) for bug, it in copies]
        for kind, why in (it for bug, it in verdicts if not bug):
            if kind != PROVED:
                sys.exit(f"planted: {self.crate}: a copy of a function is not proved: {why}")
        return {bug.name: kind for bug, (kind, _) in verdicts if bug}

    def plant_copies(self, bugs, folder):
        """Makes a copy of the crate in which copies of functions stand, with these bugs or without: each with its bug, and the names of their proofs."""
        shutil.copytree(self.folder, folder)
        edited = {f"{it.function.key()}": it.function for it in bugs}
        copies, only, texts = [], set(), {}
        unaltered = [edited[it] for it in drawn(edited)[: 1 + len(edited) // 16]]
        for number, (bug, of) in enumerate([*((bug, bug.function) for bug in bugs), *((None, it) for it in unaltered)]):
            name = next(it for it in of.proofs(self.names) if it.endswith(f"::{of.name}"))
            copies.append((bug, of.copied(number, bug.edits if bug else [], folder, name)))
            only.add(name.removesuffix(of.name) + copies[-1][1].name)
            texts.setdefault(of.file, []).append((of.end, copies[-1][1].text))
        for file, found in texts.items():
            text = Path(folder, file).read_text()
            for end, one in sorted(found, reverse=True):
                text = f"{text[:end]}\n\n{one}{text[end:]}"
            Path(folder, file).write_text(text)
        return copies, only

    def batch(self, bugs):
        """What one check says of several bugs, at most one of each proof."""
        with tempfile.TemporaryDirectory(dir=self.lab.room) as folder:
            fit = self.plant(bugs, folder)
            said = self.check(folder, sorted(name for bug in fit for name in bug.proofs(self.names)))[1]
        found = {bug.name: (LATER, "it does not fit beside the others") for bug in bugs}
        if re.search(r"^only=\d+ ", said, re.M):
            return found | {bug.name: verdict(said, bug.proofs(self.names)) for bug in fit}
        if len(fit) == 1:
            return found | {fit[0].name: (BAD, first_error(said))}
        return found | self.batch(fit[: len(fit) // 2]) | self.batch(fit[len(fit) // 2 :])

    def whole(self, bug):
        """What a check of the whole crate says of one bug: that it is refused, if a goal of any function is not proved."""
        with tempfile.TemporaryDirectory(dir=self.lab.room) as folder:
            self.plant([bug], folder)
            said = self.check(folder)[1]
        lines = re.findall(r"^fn \S+: (.*)$", said, re.M)
        if re.search(r"^logic=proved ", said, re.M):
            return bug.name, (PROVED, "the crate is proved with it")
        is_of_goal = any(map(is_refusal, lines)) and not any(BORROWS in line for line in lines)
        return bug.name, (REFUSED, "alone") if is_of_goal else (BAD, first_error(said))

    def plant(self, bugs, folder):
        """Makes these bugs in a copy of the crate, but for those whose text another one took away or doubled; and says which it made."""
        shutil.copytree(self.folder, f"{folder}/crate")
        made = []
        for bug in bugs:
            texts = {file: Path(folder, "crate", file).read_text() for file, _, _ in bug.edits}
            for file, old, new in bug.edits:
                texts[file] = texts[file].replace(old, new) if texts[file].count(old) == 1 else ""
            if all(texts.values()):
                made.append(bug)
                for file, text in texts.items():
                    Path(folder, "crate", file).write_text(text)
        return made

    def check(self, folder, only=()):
        self.checks += 1
        linked(self.seed, f"{folder}/kept")
        return self.lab.rattle("check", self.crate, f"{folder}/crate", f"{folder}/kept", [word for it in only for word in ("--only", it)])


def dealt(bugs):
    """Batches with at most one bug of each function, and of each cycle of calls, which has one proof."""
    batches = []
    for bug in bugs:
        own = {unit for it in bug.tried() for unit in it.units()}
        for taken, batch in batches:
            if not taken & own:
                taken |= own
                batch.append(bug)
                break
        else:
            batches.append((own, [bug]))
    return [batch for _, batch in batches]


def verdict(said, proofs):
    """What a check of several bugs says of the one that edits the function of these proofs."""
    lines = [line for name in proofs for line in re.findall(rf"^fn {re.escape(name)}: (.*)$", said, re.M)]
    if any(BORROWS in line for line in lines):
        return BAD, next(line for line in lines if BORROWS in line)
    if any(map(is_refusal, lines)):
        return REFUSED, "in a batch"
    return (PROVED, "") if lines and all(line == "proved" for line in lines) else (LATER, "; ".join(lines))


def try_crate(trial, told, records):
    """Tries the bugs of a crate, and gives their verdicts. What is said of it, and its record, come at once: a run that is cut off keeps them."""
    bugs = trial.run()
    kinds = [kind for kind, _ in bugs.values()]
    with told:
        print(f"planted: {trial.crate}: {kinds.count(REFUSED)} of {len(bugs)} refused, in {trial.checks} checks", flush=True)
        for name, (kind, why) in sorted(bugs.items()):
            if kind != REFUSED:
                print(f"planted: {trial.crate}/{name}: {kind}: {why}", flush=True)
        if records and all(kind == REFUSED for kind in kinds):
            write([trial.crate])
    return kinds


def main(words):
    options = {word for word in words if word.startswith("--")}
    if not options <= {"--all", "--gate", "--stale"}:
        print(__doc__)
        return 0 if words == ["--help"] else 2
    crates = [word for word in words if word not in options] or crates_with_bugs()
    if "--all" not in options:
        crates = [crate for crate in crates if crate in stale()]
    if "--gate" in options:
        crates += drawn(set(crates_with_bugs()) - set(crates))[:1]
    if "--stale" in options or not crates:
        print(*crates or ["planted: nothing changed"], sep="\n")
        return 0
    lanes = int(os.environ.get("RT_JOBS") or max(1, (os.cpu_count() or 1) - 1))
    lab = Lab(crates, lanes, "--gate" in options)
    try:
        with ThreadPoolExecutor(len(crates)) as each, ThreadPoolExecutor(64) as pool:
            told, records = threading.Lock(), "--gate" not in options
            kinds = [*each.map(lambda crate: try_crate(Trial(lab, crate, pool), told, records), crates)]
    finally:
        shutil.rmtree(lab.room)
    wrong = sum(kind != REFUSED for of_crate in kinds for kind in of_crate)
    print(f"planted: {sum(map(len, kinds)) - wrong} refused, {wrong} not")
    return bool(wrong)


if __name__ == "__main__":
    sys.exit(main(sys.argv[1:]))
