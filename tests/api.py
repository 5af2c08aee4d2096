#!/usr/bin/env python3
"""What the sources say of themselves: the crates and their public calls, the definitions that their contracts reach, and what pages have of them.

    api.py map            prints each crate with its files, and what the head of each says
    api.py write          makes what three pages have below their mark: docs/DEFINITIONS.md, of the heads of the files in specs/;
                          docs/GUARANTEES.md, of the doc comments and contracts of public calls; docs/CALLING.md, of their signatures.
                          tests/docs.py compares them
    api.py below CRATE    prints a crate and all libraries of the repository below it, lowest first
    api.py believed       how many lines a reader has to believe, by crate: those of the definitions that public clauses reach
    api.py believed NAME  which definitions lead from a public clause to this one

A public clause is a clause of a call that a user can name, of a law, or of a trait; the views of public types count as such. A
type's invariant, its size, and the code by which it is a model's value need no belief: they are proved. Imports, comments, the table of the kinds' names
and the rows of tables of what errors print (`Memory = codes "Memory"`) don't count."""

import os
import re
import sys
import textwrap
from pathlib import Path


ROOT = Path(__file__).resolve().parent.parent
ROW = re.compile(r"--     (\S.*?)(?:\s{2,}(\S.*)|$)")


# Crates and their public calls.

# The crates that users name. They re-export some names of others; what those have besides is below the surface.
SURFACE = ["cst_core", "edit_map", "text_edit", "edit_plan", "syntax_editor", "edit_chain", "list_removal", "tree_text", "script_lines", "syned_script"]
SURFACE += ["syned_run"]

ITEM = re.compile(
    r"^(?:impl(?:<[^>]*>)? (?P<type>[^\n{]*)\{"
    r"|pub trait (?P<trait>\w+)"
    r"|(?P<method>    )?(?P<public>pub )?fn (?P<call>\w+)(?:<[^(]*>)?\((?P<parameters>[^)]*)\))",
    re.M,
)


class Call:
    """A public function: the crate that has it, the name that has to be public for it to be reached, and its contract's text."""

    def __init__(self, crate, owner, item, text):
        self.crate = crate
        self.owner = owner
        self.name = item["call"] if owner == item["call"] else f"{owner}::{item['call']}"
        self.parameters = item["parameters"]
        self.contract = contract_after(text[item.end() :])
        self.cited = cited_words(text) & set(re.findall(r"\w+", self.contract))

    def takes_allocator(self):
        return bool(re.search(r"\b_?alloc: Global\b", self.parameters))


def contract_after(text):
    """The clauses after a function's parameters, up to its body, or to the end of a trait's declaration."""
    lines = []
    for line in text.splitlines():
        if line.strip() in ("", "{", "{}") and lines:
            break
        lines.append(line)
        if line.endswith((";", " {")):
            break
    return "\n".join(lines)


def cited_words(text):
    """The definitions of the repository's own crates that a source imports for its clauses."""
    imports = re.findall(r"ghost use Rattle\.(\w+)\.specs[\w.]*\.\{([^}]*)\}", text)
    return {word.strip() for crate, words in imports if crate != "std" for word in words.split(",")}


def uses_of():
    """The crates, of the repository and of the kit, that each crate of crates.txt lists."""
    with open(f"{ROOT}/crates.txt", encoding="utf-8") as table:
        parts = (line.split(":") for line in table if ":" in line and not line.startswith("#"))
        return {name.split()[0]: uses.split() for name, uses in parts}


def below(crate, uses):
    """The crates of the repository below a crate, each after those that it uses."""
    found = []
    for name in uses[crate]:
        if name in uses:
            found += [it for it in [*below(name, uses), name] if it not in found]
    return found


def libraries():
    """The libraries of crates.txt but for those that only tests use; tests are built on all others."""
    with open(f"{ROOT}/crates.txt", encoding="utf-8") as table:
        names = re.findall(r"^(\w+):", table.read(), re.M)
    crates = [name for name in names if os.path.exists(f"{ROOT}/crates/{name}/src/lib.rt")]
    return [name for name in crates if not name.startswith("test_")]


def texts(crate):
    """The texts of a crate's sources, by file name."""
    for folder, folders, files in os.walk(f"{ROOT}/crates/{crate}/src"):
        folders.sort()
        for name in sorted(files):
            if name.endswith(".rt"):
                with open(f"{folder}/{name}", encoding="utf-8") as text:
                    yield name, text.read()


def given(crate):
    """The names that a crate exports, its own and those of others."""
    names = set()
    with open(f"{ROOT}/crates/{crate}/src/lib.rt", encoding="utf-8") as text:
        for body in re.findall(r"^pub use [\w:]+::(\{[^}]*\}|\w+);", text.read(), re.M):
            names.update(re.findall(r"\w+", body))
    return names


def surface_names():
    return set().union(*(given(crate) for crate in SURFACE))


def items_in(crate, file, text):
    """The public functions of a source, each with where it stands. What an impl of a trait has is a call of the trait."""
    owner, is_public, is_trait = None, False, False
    for item in ITEM.finditer(text):
        if item["type"] is not None:
            owner, is_public, is_trait = re.match(r"\w*", item["type"])[0], " for " not in item["type"], False
        elif item["trait"]:
            owner, is_public, is_trait = item["trait"], True, True
        elif item["method"]:
            if is_public and (item["public"] or is_trait):
                yield Call(crate, owner, item, text), item
        elif item["public"]:
            yield Call(crate, "laws" if file == "laws.rt" else item["call"], item, text), item


def calls_of(crate):
    """The public functions of a crate."""
    for file, text in texts(crate):
        yield from (call for call, _ in items_in(crate, file, text))


def crates():
    """The crates whose definitions or files a page shows, lowest first."""
    return [*libraries(), "callers"]


# Heads of sources and of spec files.


def source_head(file):
    """The words with which a source begins: its lines of `//!`."""
    return " ".join(line[3:].strip() for line in re.match(r"(?://!.*\n)*", file.read_text())[0].splitlines())


def source_files(crate):
    return sorted((ROOT / "crates" / crate / "src").rglob("*.rt"))


def spec_files(crate):
    """The files of a crate's specs/ in the order of its Lib.antt, without those of inner/."""
    listed = (ROOT / "crates" / crate / "specs/Lib.antt").read_text() if (ROOT / "crates" / crate / "specs/Lib.antt").exists() else ""
    return [ROOT / "crates" / crate / f"specs/{name}.antt" for name in re.findall(r"^pub mod (\w+)$", listed, re.M) if name != "inner"]


class Head:
    """The head of a spec file: its first line, what is said before the names, the names with what each means, and what is said after."""

    def __init__(self, file):
        self.title, self.before, self.rows, self.after = "", [], [], []
        said = self.before
        for line in file.read_text().splitlines():
            row = ROW.match(line)
            if not line.startswith("--"):
                break
            if not self.title:
                self.title = line[3:]
            elif row:
                said = self.after
                self.rows.append([row[1].split(", "), row[2] or ""])
            elif re.match(r"--\s{10,}\S", line):
                self.rows[-1][1] += " " + line[2:].strip()
            else:
                said.append(line[3:])


def wrapped(text):
    return textwrap.fill(text, 118, break_long_words=False, break_on_hyphens=False)


def joined(lines):
    """The text of lines of a head, without empty lines at its ends."""
    return "\n".join(lines).strip("\n")


def laws_of(crate):
    file = ROOT / "crates" / crate / "src/laws.rt"
    text = file.read_text() if file.exists() else ""
    for doc, name in re.findall(r"((?:^///.*\n)+)pub fn (\w+)", text, re.M):
        yield name, " ".join(line[3:].strip() for line in doc.splitlines())


def definitions():
    out = []
    for crate in crates():
        files, laws = spec_files(crate), list(laws_of(crate))
        if not files and not laws:
            continue
        root = next(file for file in source_files(crate) if file.name in ("lib.rt", "main.rt"))
        out += [f"# {crate}", wrapped(source_head(root))]
        for file in files:
            head = Head(file)
            table = [f"| {', '.join(f'`{name}`' for name in names)} | {meaning} |" for names, meaning in head.rows]
            out += [f"## {crate}: {file.stem}", wrapped(head.title), joined(head.before), "\n".join(["| name | meaning |", "|---|---|", *table]), joined(head.after)]
        if laws:
            rows = [f"| `{name}` | {doc} |" for name, doc in laws]
            out += [f"## Laws of {crate}", "\n".join(["| law | what it says |", "|---|---|", *rows])]
    return "\n\n".join(part for part in out if part) + "\n"


def file_map():
    for crate in uses_of():
        print(f"{crate}:")
        for file in source_files(crate):
            print(f"    {file.relative_to(ROOT / 'crates' / crate)}: {source_head(file)}")
        for file in sorted((ROOT / "crates" / crate / "specs").rglob("*.antt")):
            if file.stem not in ("Lib", "inner"):
                print(f"    {file.relative_to(ROOT / 'crates' / crate)}: {Head(file).title}")


# Public calls.


def doc_before(text, start):
    """The first paragraph of the doc comment that ends where an item starts."""
    lines = []
    for line in reversed(text[:start].rstrip(" ").splitlines()):
        if line.lstrip().startswith("///"):
            lines.insert(0, line.strip()[3:].strip())
        elif not line.lstrip().startswith("#["):
            break
    return " ".join(lines[: lines.index("")] if "" in lines else lines)


def clauses(contract):
    """The clauses of a contract, each in one line."""
    for clause in re.finditer(r"\b(requires|ensures)\b *(\w*) *\{", contract):
        depth, end = 1, clause.end()
        while depth:
            depth += {"{": 1, "}": -1}.get(contract[end], 0)
            end += 1
        name = " ".join(filter(None, (clause[1].removeprefix("ensures"), clause[2])))
        yield f"{name}: `{' '.join(contract[clause.end() : end - 1].split())}`" if name else f"`{' '.join(contract[clause.end() : end - 1].split())}`"


def promise(call, text, item):
    contract = "<br>".join(clauses(call.contract)).replace("|", "\\|")
    return f"| {doc_before(text, item.start())} | {contract or '—'} |"


def promises():
    """The rows of all public calls that a user can name, by the crate that users name and by the type, trait or `laws`."""
    names, found = surface_names() | {"laws"}, {crate: {} for crate in SURFACE}
    for crate in libraries():
        for file, text in texts(crate):
            for call, item in items_in(crate, file, text):
                home = home_of(crate, call.owner if "::" in call.name or call.owner == "laws" else None, call.name)
                if home and (call.owner in names) and (call.owner != "laws" or crate in SURFACE):
                    found[home].setdefault(call.owner, []).append(f"| `{call.name}` {promise(call, text, item)}")
    return found


def guarantees():
    out = []
    for crate, owners in promises().items():
        rows = [row for owner in sorted(owners, key=lambda it: (it == "laws", it)) for row in owners[owner]]
        out += [f"## {crate}", "\n".join(["| call | what it promises | its contract |", "|---|---|---|", *rows])]
    return "\n\n".join(out) + "\n"


# Signatures.

WIDTH = 118
SHORT = {"alloc: Global": "alloc", "_alloc: Global": "alloc", "ids: &mut TreeIds": "ids"}


def result_of(text, item):
    """What stands between a function's parameters and its first clause, or its body."""
    rest = text[item.end() :]
    end = re.search(r"\n    *(?:requires|ensures)|\n *\{|;\n| \{", rest)
    return " ".join(rest[: end.start()].split())


def signature(text, item):
    head = text[item.start() : item.end()]
    name = re.search(r"fn (\w+(?:<.*?>)?)\(", head, re.S)[1]
    parts = [part.strip() for part in re.split(r",(?![^<(]*[>)])", item["parameters"])]
    parameters = [" ".join(part.removeprefix("mut ").split()) for part in parts if part.strip()]
    shown = ", ".join(SHORT.get(part, part) for part in parameters)
    said = result_of(text, item)
    return f"{name}({shown})" + (f" {said}" if said else "")


def by_owner(crate, names):
    """The signatures of a crate's public calls that a user can name, by type, trait or `laws`, free functions under None."""
    found = {}
    for file, text in texts(crate):
        owner, is_public, is_trait = None, False, False
        for item in ITEM.finditer(text):
            if item["type"] is not None:
                owner, is_public, is_trait = re.match(r"\w*", item["type"])[0], " for " not in item["type"], False
            elif item["trait"]:
                owner, is_public, is_trait = item["trait"], True, True
            elif item["method"]:
                if is_public and (item["public"] or is_trait) and owner in names:
                    found.setdefault(owner, []).append(signature(text, item))
            elif item["public"] and file == "laws.rt" and crate in SURFACE:
                found.setdefault("laws", []).append(signature(text, item))
            elif item["public"] and item["call"] in names:
                found.setdefault(None, []).append(signature(text, item))
    return found


def home_of(crate, owner, name):
    """The crate under which users name it: the first of the surface that gives it."""
    wanted = owner if owner not in (None, "laws") else name
    for surface in SURFACE:
        if crate == surface or wanted in given(surface):
            return surface
    return None


def collected():
    """All signatures, by the crate that users name and by type."""
    names = surface_names()
    found = {crate: {} for crate in SURFACE}
    for crate in libraries():
        for owner, lines in by_owner(crate, names).items():
            for line in lines:
                home = home_of(crate, owner, re.match(r"\w+", line)[0])
                if home:
                    found[home].setdefault(owner, []).append(line)
    return found


def block(owner, lines):
    head = [] if owner is None else [owner]
    indent = "" if owner is None else "    "
    wrapped = [textwrap.wrap(line, WIDTH, initial_indent=indent, subsequent_indent=indent + "        ") for line in lines]
    return head + [part for line in wrapped for part in line]


def signatures():
    """Each public call with its parameters and its result, by the crate that users name and by type or trait."""
    out = []
    for crate, owners in collected().items():
        out += [f"### {crate}", "", "```text"]
        for owner in sorted(owners, key=lambda it: (it == "laws", it is not None, it or "")):
            out += block(owner, owners[owner])
        out += ["```", ""]
    return "\n".join(out).rstrip() + "\n"


# What a reader has to believe.

WORD = re.compile(r"[^\s(){}\[\],;.]+")
START = re.compile(r"^(\s*)(?:abbrev |unfoldable )?(?:pub )?(?:(record|data) )?([^\s(){}:]+)(?: [^=]*)? :(?: |$)")
TABLE = {"named_kinds"}
NAME_ROW = re.compile(r'^\w+_error_text (.*) = codes "\w+"$')
# What only a user of scripts has to believe; the other libraries are the editor's.
SCRIPTS = {"tree_text", "script_lines", "syned_script", "syned_run"}
MOST_OF_EDITOR = 1618
MOST_OF_SCRIPTS = 760


class Definition:
    """A definition of a spec file: its crate, file, name, and lines."""

    def __init__(self, crate, file, name):
        self.crate, self.file, self.name, self.lines = crate, file, name, []
        self.is_inner = "inner" in file.parts
        self.leads_to = set()

    def __str__(self):
        return f"{self.crate}/{'inner/' if self.is_inner else ''}{self.file.stem}: {self.name}"


class Spec:
    """A spec file: its definitions by name, the forms of its data by their definition, and what it imports."""

    def __init__(self, crate, file):
        self.file, self.definitions, self.parts, self.imported, self.modules = file, {}, {}, {}, {}
        current = None
        for line in file.read_text().splitlines():
            if not line.strip() or line.strip().startswith("--"):
                continue
            used = re.match(r"use (?:Rattle\.)(\w+)\.specs\.([\w.+-]+?)(?:\.\{([^}]*)\}| as (\S+))?$", line)
            if line.startswith(("use ", "pub use ", "pub mod ")):
                if used:
                    self.add_use(*used.groups())
                continue
            if re.match(r"\s*(abbrev )?mutual$|\s*module _", line):
                current = None
                continue
            start = START.match(line)
            if start and (current is None or self.is_new(line, start, current)):
                current = Definition(crate, file, start.group(3))
                current.indent, current.kind = len(start.group(1)), start.group(2)
                self.definitions[current.name] = current
            elif current and current.kind == "data":
                part = re.match(r"\s+(?:pub )?([^\s:]+) :", line)
                if part:
                    self.parts[part.group(1)] = current
            if current:
                current.lines.append(line)

    def is_new(self, line, start, current):
        indent = len(start.group(1))
        return indent <= current.indent or (not current.kind and indent == current.indent)

    def add_use(self, crate, module, names, alias):
        if names is None:
            self.modules[alias or module.split(".")[-1]] = (crate, module)
        for name in (names or "").split(","):
            if name.strip():
                given, _, taken = name.strip().partition(" as ")
                self.imported[taken or given] = (crate, module, given)


class Specs:
    """All spec files of the libraries, by crate and module."""

    def __init__(self):
        self.files, self.again = {}, {}
        for crate in libraries():
            folder = ROOT / "crates" / crate / "specs"
            for file in folder.rglob("*.antt"):
                if file.stem not in ("Lib", "inner"):
                    self.files[crate, ".".join(file.relative_to(folder).with_suffix("").parts)] = Spec(crate, file)
            for again in re.finditer(r"^pub use Rattle\.(\w+)\.specs\.([\w.]+?)(?: as (\w+))?$", (folder / "Lib.antt").read_text(), re.M):
                self.again[crate, again.group(3) or again.group(2).split(".")[-1]] = (again.group(1), again.group(2))

    def module(self, crate, module):
        while (crate, module) in self.again:
            crate, module = self.again[crate, module]
        return self.files.get((crate, module))

    def find(self, crate, module, name):
        spec = self.module(crate, module)
        return spec and (spec.definitions.get(name) or spec.parts.get(name))

    def named(self, text, imported, modules, own=None):
        """The definitions that a text names."""
        found = set()
        for word in [given for word in WORD.findall(text) for given in (word, f"◌{word}◌")]:
            if own and word in own.definitions:
                found.add(own.definitions[word])
            elif own and word in own.parts:
                found.add(own.parts[word])
            elif word in imported:
                found.add(self.find(*imported[word]))
        for alias, name in re.findall(r"(\w+)\.([^\s(){}\[\],;.]+)", text):
            if alias in modules:
                found.add(self.find(*modules[alias], name))
        return found - {None}


def ghost_uses(text):
    imported, modules = {}, {}
    for crate, module, names, alias in re.findall(r"ghost use Rattle\.(\w+)\.specs\.([\w.]+?)(?:\.\{([^}]*)\}| as (\w+));", text):
        if not names:
            modules[alias] = (crate, module)
        for name in names.split(","):
            if name.strip():
                given, _, taken = name.strip().partition(" as ")
                imported[taken or given] = (crate, module, given)
    return imported, modules


def public_texts():
    """Each text of a public clause, with the imports of its file."""
    names = surface_names() | {"laws"}
    for crate in libraries():
        for file, text in texts(crate):
            uses = ghost_uses(text)
            for call, _ in items_in(crate, file, text):
                if call.owner in names:
                    yield call.contract, uses
            for block in re.split(r"^(?=impl|pub trait)", text, flags=re.M)[1:]:
                head = block.split("{")[0]
                if not names & set(re.findall(r"\w+", head)):
                    continue
                for ghost in re.findall(r"^    ghost (?!use |invariant|laws|respects_eq|coded|size)([^;]*);", block, re.M):
                    yield ghost, uses


def reached(specs):
    """The definitions that public clauses reach; each with one that leads to it, or None."""
    return reached_from(specs, [found for text, uses in public_texts() for found in specs.named(text, *uses)])


def reached_from(specs, first):
    """These definitions and those that they name, directly or through others; each with one that leads to it, or None."""
    from_where = dict.fromkeys(first)
    waiting = list(from_where)
    while waiting:
        definition = waiting.pop()
        spec = next(spec for spec in specs.files.values() if spec.file == definition.file)
        for found in specs.named("\n".join(definition.lines), spec.imported, spec.modules, spec):
            if found not in from_where:
                from_where[found] = definition
                waiting.append(found)
    return from_where


def counted(from_where):
    """How many lines the definitions have that are reached, by crate."""
    lines = {}
    for definition in from_where:
        if definition.name not in TABLE:
            counting = [line for line in definition.lines if not NAME_ROW.match(line)]
            lines[definition.crate] = lines.get(definition.crate, 0) + len(counting)
    return lines


def of_editor_and_scripts(from_where):
    """How many lines the definitions of the editor have that are reached, and those of scripts."""
    lines = counted(from_where)
    of_scripts = sum(count for crate, count in lines.items() if crate in SCRIPTS)
    return sum(lines.values()) - of_scripts, of_scripts


def reached_inside(from_where):
    """The definitions of inner/ that public clauses reach: these belong outside."""
    return sorted(str(it) for it in from_where if it.is_inner)


def unreached_outside(specs, from_where):
    """The definitions outside inner/ that no public clause reaches: these belong inside."""
    every = {it for spec in specs.files.values() for it in spec.definitions.values()}
    return sorted(str(it) for it in every - from_where.keys() if not it.is_inner)


# Pages.

MARK = "<!-- Made by `python3 tests/api.py write` from here on. -->\n"
PAGES = {"docs/DEFINITIONS.md": definitions, "docs/GUARANTEES.md": guarantees, "docs/CALLING.md": signatures}


def made(page):
    """What a page has to be: what is written by hand, up to the mark, and then what is made."""
    return (ROOT / page).read_text().split(MARK)[0] + MARK + "\n" + PAGES[page]()


def stale():
    """The pages that are not what they have to be."""
    return [page for page in PAGES if (ROOT / page).read_text() != made(page)]


def say_believed(name=None):
    specs = Specs()
    from_where = reached(specs)
    if name:
        for definition in [found for found in from_where if found.name == name]:
            while definition:
                print(definition)
                definition = from_where[definition]
            print("    a public clause")
        return
    lines = counted(from_where)
    for crate in sorted(lines):
        print(f"{crate}: {lines[crate]} lines")
    of_editor, of_scripts = of_editor_and_scripts(from_where)
    print(f"believed: public clauses reach {of_editor} lines of definitions of the editor, {of_scripts} of scripts")
    print("in inner/, and reached:", *reached_inside(from_where), sep="\n    ")
    print("outside inner/, and not reached:", *unreached_outside(specs, from_where), sep="\n    ")


def main():
    match sys.argv[1:]:
        case ["map"]:
            file_map()
        case ["below", crate]:
            print(*below(crate, uses_of()), crate)
        case ["believed", *names]:
            say_believed(*names)
        case ["write"]:
            for page in PAGES:
                (ROOT / page).write_text(made(page))
        case ["--help"]:
            print(__doc__)
        case _:
            sys.exit(__doc__)


if __name__ == "__main__":
    main()
